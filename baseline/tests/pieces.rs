//! A page gives the same records however it is cut and whatever the room.

use baseline::generator::page;
use baseline::listing::GREATEST_BUDGET;
use baseline::random::Random;
use baseline::{end, feed, open, Answer, Number, Session, STORE};

struct Reading {
    records: Vec<u8>,
    store: Vec<u8>,
    session: Session,
    consumed: usize,
    number: Number,
}

/// Reads a page in pieces; the output of each call has some room.
fn read(page: &[u8], mut piece: impl FnMut() -> usize, mut room: impl FnMut() -> usize) -> Reading {
    let mut store = vec![0; STORE];
    let (session, _) = open(&mut store, GREATEST_BUDGET);
    let mut reading = Reading {
        records: Vec::new(),
        store,
        session,
        consumed: 0,
        number: Number::Done,
    };
    let mut lent = 0;
    loop {
        let output = &mut vec![0; room()];
        let bytes = &page[reading.consumed..lent];
        let found = feed(&mut reading.session, &mut reading.store, bytes, output);
        reading.take(found, output);
        if found.number == Number::Full {
            continue;
        }
        if found.number != Number::Done || lent == page.len() {
            break;
        }
        lent = page.len().min(lent + piece());
    }
    let output = &mut [0; 120];
    let found = end(&mut reading.session, &reading.store, output);
    reading.take(found, output);
    reading
}

impl Reading {
    fn take(&mut self, answer: Answer, output: &[u8]) {
        self.number = answer.number;
        self.consumed += answer.consumed;
        self.records.extend_from_slice(&output[..answer.written]);
    }
}

fn assert_alike(whole: &Reading, cut: &Reading, number: u64) {
    assert_eq!(whole.number, cut.number, "page {number}");
    assert_eq!(whole.consumed, cut.consumed, "page {number}");
    assert!(whole.records == cut.records, "page {number}");
    assert!(whole.store == cut.store, "page {number}");
    assert!(whole.session == cut.session, "page {number}");
}

#[test]
fn cuts_change_nothing() {
    for number in 0..300 {
        let page = page(3, number);
        let whole = read(&page, || page.len(), || 1 << 16);
        let bytes = read(&page, || 1, || 120);
        assert_alike(&whole, &bytes, number);
        let mut pieces = Random::new(4, number);
        let mut rooms = Random::new(5, number);
        let cut = read(&page, || pieces.range(0, 40), || rooms.range(120, 400));
        assert_alike(&whole, &cut, number);
    }
}

#[test]
fn an_altered_store_only_stops_the_session() {
    for number in 0..300 {
        let page = page(6, number);
        let mut random = Random::new(7, number);
        let mut store = vec![0; STORE];
        let (mut session, _) = open(&mut store, 50_000);
        let mut rest = &page[..];
        loop {
            let cell = 32 * random.below(8);
            store[cell + random.below(3)] = random.byte(0, 255) >> random.below(8);
            let output = &mut vec![0; random.range(120, 300)];
            let length = random.range(0, 30).min(rest.len());
            let found = feed(&mut session, &mut store, &rest[..length], output);
            assert!(found.consumed <= length && found.written <= output.len());
            rest = &rest[found.consumed..];
            match found.number {
                Number::Full => {}
                Number::Done if !rest.is_empty() => {}
                _ => break,
            }
        }
        let steps = session.steps();
        let found = end(&mut session, &store, &mut [0; 120]);
        assert_eq!((found.consumed, session.steps()), (0, steps));
    }
}
