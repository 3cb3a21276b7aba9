//! The pages worked by hand, and the numbers of the calls.

use baseline::listing::{listing, GREATEST_BUDGET};
use baseline::{colour, end, feed, open, Answer, Number, Session, STORE};

/// The lines of a page's listing.
fn lines(page: &[u8]) -> Vec<String> {
    let text = String::from_utf8(listing(page)).expect("a listing is ASCII");
    text.lines().map(str::to_owned).collect()
}

const DOT: &str = "1 0 0 255 255 255 0 0 1073741824 536870912 0 0 0 0 0 0";

#[test]
fn empty() {
    assert_eq!(lines(&[]), ["end 0 0"]);
}

#[test]
fn dots() {
    assert_eq!(lines(&[14, 38, 81, 64, 64]), [DOT, "end 0 5"]);
    assert_eq!(lines(&[14, 38, 81]), [DOT, "end 0 3"]);
    assert_eq!(
        lines(&[14, 36, 88, 120, 120, 39, 64, 64, 72])[0],
        "1 2 0 255 255 255 0 0 -2147483648 0 0 0 0 0 0 0"
    );
}

#[test]
fn rectangle_moves_by_dx_only() {
    let found = lines(&[14, 36, 81, 64, 64, 49, 74, 64, 64, 7]);
    assert_eq!(
        found[..2],
        [
            "4 1 0 255 255 255 0 0 1073741824 536870912 1610612736 1610612736 0 0 0 0",
            "7 0 0 255 255 255 0 7 1610612736 536870912 0 0 0 0 0 0",
        ]
    );
}

#[test]
fn domain_keeps_lengths() {
    // A dot of three bytes under the lengths that DOMAIN sets.
    assert_eq!(
        lines(&[14, 33, 72, 38, 81, 64, 64, 64])[..2],
        [DOT, DOT_AT_0]
    );
}

const DOT_AT_0: &str = "1 0 0 255 255 255 0 0 0 0 0 0 0 0 0 0";

#[test]
fn circle() {
    let found = lines(&[14, 44, 74, 7]);
    assert_eq!(
        found[..2],
        [
            "3 0 0 255 255 255 0 0 0 0 536870912 1073741824 0 0 0 0",
            "7 0 0 255 255 255 0 7 0 0 0 0 0 0 0 0",
        ]
    );
}

#[test]
fn two_displacements_make_three_edges() {
    let found = lines(&[14, 52, 73, 64, 64, 73, 64, 64]);
    assert_eq!(found.len(), 4);
    assert!(found[0].starts_with("5 0 ") && found[2].starts_with("5 4 "));
}

#[test]
fn most_vertices() {
    let polygon = |displacements: usize| {
        let mut page = vec![14, 33, 64, 52];
        page.resize(4 + displacements, 73);
        lines(&page)
    };
    assert_eq!(polygon(411).last().unwrap(), "end 0 415");
    assert_eq!(polygon(412).last().unwrap(), "end 9 415");
}

#[test]
fn nested_bodies() {
    let nested = |depth: u8| {
        let mut page = vec![27, 42, 122];
        for name in 33..33 + depth {
            page.extend([27, 64, name, 25, name + 1, 27, 69]);
        }
        page.extend([25, 33]);
        lines(&page).pop().unwrap()
    };
    // Each body calls the next; the last one calls an empty body.
    assert!(nested(7).starts_with("end 0 "));
    assert!(nested(8).starts_with("end 8 "));
}

#[test]
fn macro_called() {
    let page = [27, 64, 33, 14, 38, 81, 64, 64, 27, 69, 27, 42, 122, 25, 33];
    assert_eq!(lines(&page), [DOT, "end 0 20"]);
}

/// The record of a CAN before anything is drawn or written.
const CANCEL: &str = "7 0 0 255 255 255 0 24 0 0 0 0 0 0 0 0";

/// A page that defines a name and makes G2 the macro set.
fn defined(name: u8, body: &[u8]) -> Vec<u8> {
    [&[27, 64, name], body, &[27, 69, 27, 42, 122]].concat()
}

#[test]
fn can_leaves_the_rest_of_a_body() {
    // The page goes on with a dot, whatever the body would go on with.
    let dot = [14, 38, 81, 64, 64];
    for left in [&[][..], &[65], &[28, 32], &[25, 33], &[65; 60]] {
        let body = [&[CAN], left].concat();
        let page = [&defined(33, &body)[..], &[25, 33], &dot].concat();
        let end = format!("end 0 {}", page.len() + 1);
        assert_eq!(lines(&page), [CANCEL, DOT, &end]);
    }
}

#[test]
fn can_leaves_every_body() {
    // Bodies of which each calls the one before, with bytes left or without.
    for left in [&[][..], &[65]] {
        let mut page = defined(33, &[&[CAN], left].concat());
        for name in 34..=40 {
            page.extend(defined(name, &[&[25, name - 1], left].concat()));
        }
        // The ninth would be too deep if the others still counted.
        for name in 33..=40 {
            page.extend([25, name, 25, 40]);
        }
        let found = lines(&page);
        assert_eq!(found[..16], [CANCEL; 16]);
        assert!(found[16].starts_with("end 0 "));
    }
}

#[test]
fn can_drops_what_waits() {
    for before in [
        &[25][..],
        &[29],
        &[27],
        &[27, 40],
        &[27, 42],
        &[27, 32],
        &[27, 40, 40, 33],
    ] {
        let dot = [14, 38, 81, 64, 64];
        let page = [before, &[CAN], &dot].concat();
        let end = format!("end 0 {}", page.len());
        assert_eq!(lines(&page), [CANCEL, DOT, &end]);
        // From a body, and what waits from a body that has ended.
        let body = [before, &[CAN, 65]].concat();
        let page = [&defined(33, &body)[..], &[25, 33], &dot].concat();
        assert_eq!(lines(&page)[..2], [CANCEL, DOT]);
        let outer = defined(34, &[25, 33, CAN, 65]);
        let page = [&defined(33, before)[..], &outer, &[25, 34], &dot].concat();
        assert_eq!(lines(&page)[..2], [CANCEL, DOT]);
    }
}

#[test]
fn can_closes_the_open_command() {
    // The operand is begun on the page; data after it belong to no command.
    let page = [&defined(33, &[64, CAN, 73])[..], &[14, 38, 81, 25, 33, 64]].concat();
    let found = lines(&page);
    assert_eq!(found[0], DOT);
    assert!(found[1].starts_with("7 0 0 255 255 255 0 24 1073741824 "));
    assert_eq!(found.len(), 3);
}

#[test]
fn can_is_stored_in_a_definition() {
    let mut reader = Reader::new(GREATEST_BUDGET);
    let page = [27, 64, 33, CAN, 27, CAN, 27, 69];
    assert_eq!(reader.feed(&page, 120), answer(Number::Done, 8, 0));
    assert_eq!(reader.store[32..37], [0, 3, CAN, 27, CAN]);
    // It is no name.
    assert_eq!(last_line(&[27, 64, CAN]), "end 4 2");
    assert_eq!(last_line(&[27, 64, 33, 27, 64, CAN]), "end 4 5");
}

#[test]
fn bodies_left_by_can_are_not_left_at_the_end() {
    let mut reader = Reader::new(GREATEST_BUDGET);
    let page = [&defined(33, &[CAN, 65])[..], &[25, 33]].concat();
    let found = reader.feed(&page, 120);
    assert_eq!(found, answer(Number::Done, page.len(), 40));
    assert_eq!(reader.end(0), answer(Number::Done, 0, 0));
}

#[test]
fn can_is_refused_with_its_closing() {
    // Closing would complete vertex 413.
    let mut page = defined(33, &[CAN, 65]);
    page.extend([14, 33, 68, 52]);
    page.resize(page.len() + 2 * 411 + 1, 73);
    page.extend([25, 33]);
    assert_eq!(last_line(&page), format!("end 9 {}", page.len()));
}

struct Reader {
    session: Session,
    store: Vec<u8>,
}

impl Reader {
    fn new(budget: u32) -> Self {
        let mut store = vec![255; STORE];
        let (session, number) = open(&mut store, budget);
        assert_eq!(number, Number::Done);
        Reader { session, store }
    }

    fn feed(&mut self, piece: &[u8], room: usize) -> Answer {
        feed(
            &mut self.session,
            &mut self.store,
            piece,
            &mut vec![0; room],
        )
    }

    fn end(&mut self, room: usize) -> Answer {
        end(&mut self.session, &self.store, &mut vec![0; room])
    }
}

fn answer(number: Number, consumed: usize, written: usize) -> Answer {
    Answer {
        number,
        consumed,
        written,
    }
}

#[test]
fn open_links_the_free_list() {
    let reader = Reader::new(0);
    for (number, cell) in reader.store.chunks(32).enumerate() {
        assert_eq!(cell[0], (number + 1) as u8);
        assert!(cell[1..].iter().all(|&byte| byte == 0));
    }
}

#[test]
fn a_freed_chain_goes_to_the_front() {
    let mut reader = Reader::new(GREATEST_BUDGET);
    let mut page = vec![27, 64, 33];
    page.resize(3 + 31, 65);
    page.extend([27, 64, 34, 66, 27, 69]);
    reader.feed(&page, 120);
    assert_eq!(
        (reader.store[0], reader.store[32], reader.store[33]),
        (4, 2, 30)
    );
    assert_eq!((reader.store[64], reader.store[65]), (0, 1));
    reader.feed(&[27, 64, 33], 120);
    assert_eq!(
        (reader.store[0], reader.store[32], reader.store[64]),
        (1, 2, 4)
    );
    reader.feed(&[70], 120);
    assert_eq!((reader.store[0], reader.store[32]), (2, 0));
    assert_eq!(reader.store[33..36], [1, 70, 65]);
}

#[test]
fn store_sizes() {
    let mut store = vec![7; STORE - 1];
    let (mut session, number) = open(&mut store, 9);
    assert_eq!(number, Number::StoreSize);
    assert!(store.iter().all(|&byte| byte == 7));
    let found = feed(&mut session, &mut vec![0; STORE], &[65], &mut [0; 120]);
    assert_eq!(found, answer(Number::StoreSize, 0, 0));
    assert_eq!(
        feed(&mut session, &mut [], &[65], &mut []).number,
        Number::StoreSize
    );
}

#[test]
fn full_waits_for_room() {
    let mut reader = Reader::new(GREATEST_BUDGET);
    assert_eq!(reader.feed(&[], 0), answer(Number::Done, 0, 0));
    assert_eq!(reader.feed(&[0], 119), answer(Number::Full, 0, 0));
    assert_eq!(reader.feed(b"abcd", 161), answer(Number::Full, 2, 80));
    assert_eq!(reader.feed(&[14, 40], 120), answer(Number::Done, 2, 0));
    assert_eq!(reader.end(119), answer(Number::Full, 0, 0));
    assert_eq!(reader.end(120), answer(Number::Done, 0, 0));
    assert_eq!(reader.feed(&[], 0).number, Number::AfterEnd);
    assert_eq!(reader.end(120).number, Number::AfterEnd);
}

#[test]
fn budget() {
    let mut reader = Reader::new(2);
    assert_eq!(reader.feed(b"abc", 400), answer(Number::BudgetUsed, 2, 80));
    assert_eq!(reader.feed(b"c", 400), answer(Number::BudgetUsed, 0, 0));
    assert_eq!(reader.end(400), answer(Number::BudgetUsed, 0, 0));
    let mut reader = Reader::new(2);
    assert_eq!(reader.feed(b"ab", 400), answer(Number::Done, 2, 80));
    assert_eq!(reader.end(0), answer(Number::Done, 0, 0));
}

#[test]
fn end_with_a_body_left() {
    let mut reader = Reader::new(GREATEST_BUDGET);
    let page = [27, 64, 33, 65, 66, 27, 69, 27, 42, 122, 25, 33];
    assert_eq!(reader.feed(&page, 159), answer(Number::Full, 12, 40));
    assert_eq!(reader.end(400), answer(Number::BodyLeft, 0, 0));
    assert_eq!(reader.feed(&[], 120), answer(Number::Done, 0, 40));
    assert_eq!(reader.end(400), answer(Number::Done, 0, 0));
}

#[test]
fn bad_counts_stop() {
    for count in [0, 31, 255] {
        let mut reader = Reader::new(GREATEST_BUDGET);
        let page = [27, 64, 33, 65, 66, 67, 27, 69, 27, 42, 122];
        reader.feed(&page, 400);
        reader.store[33] = count;
        // Next cell 2: something is left even with a count of 0.
        reader.store[32] = 2;
        let found = reader.feed(&[25, 33], 400);
        assert_eq!(found, answer(Number::OutOfRange, 2, 0));
        assert_eq!(reader.end(400).number, Number::OutOfRange);
    }
    let mut reader = Reader::new(GREATEST_BUDGET);
    reader.feed(&[27, 64, 33, 65], 400);
    reader.store[33] = 0;
    assert_eq!(
        reader.feed(&[27, 70], 400),
        answer(Number::OutOfRange, 1, 0)
    );
    let mut reader = Reader::new(GREATEST_BUDGET);
    reader.feed(&[27, 64, 33, 65, 27, 69], 400);
    reader.store[32] = 1;
    let found = reader.feed(&[27, 64, 33], 400);
    assert_eq!(found, answer(Number::OutOfRange, 2, 0));
}

#[test]
fn colours() {
    let mut reader = Reader::new(GREATEST_BUDGET);
    // SELECT COLOUR 5, then SET COLOUR with all bits of G.
    reader.feed(&[14, 62, 64 | 5 << 2, 60, 100, 100, 100, 7], 400);
    assert_eq!(colour(&reader.session, 5), (Number::Done, [252, 0, 0]));
    assert_eq!(colour(&reader.session, 4), (Number::Done, [0, 0, 0]));
    assert_eq!(colour(&reader.session, 16), (Number::Address, [0, 0, 0]));
}

#[test]
fn output_past_the_records_is_kept() {
    let mut reader = Reader::new(GREATEST_BUDGET);
    let mut output = [9; 200];
    let found = feed(&mut reader.session, &mut reader.store, b"a", &mut output);
    assert_eq!(found.written, 40);
    assert!(output[40..].iter().all(|&byte| byte == 9));
}

// Text.

/// The side of the unit screen, the greatest place of a cursor, and parts.
const SIDE: i64 = 2147483648;
const LAST: i64 = SIDE - 256;
const QUARTER: i64 = SIDE / 4;
const EIGHTH: i64 = SIDE / 8;

type Place = (i64, i64);

/// The numbers of a record of a page, counted from its end.
fn record(page: &[u8], from_end: usize) -> Vec<i64> {
    let found = lines(page);
    let line = &found[found.len() - 1 - from_end];
    line.split(' ')
        .map(|field| field.parse().unwrap())
        .collect()
}

/// The cursor after a page: where an accent stands, which moves nothing.
fn cursor(page: &[u8]) -> Place {
    let record = record(&[page, &[25, 64]].concat(), 1);
    assert_eq!((record[0], record[6]), (6, 1));
    (record[8], record[9])
}

/// The field after a page: the size of an accent.
fn field(page: &[u8]) -> Place {
    let record = record(&[page, &[25, 64]].concat(), 1);
    (record[10], record[11])
}

/// The drawing point after a page: where a control stands.
fn point(page: &[u8]) -> Place {
    let record = record(&[page, &[7]].concat(), 1);
    assert_eq!(record[0], 7);
    (record[8], record[9])
}

/// The cursor and the drawing point where they are one.
fn both(page: &[u8]) -> Place {
    assert_eq!(cursor(page), point(page));
    cursor(page)
}

fn last_line(page: &[u8]) -> String {
    lines(page).pop().unwrap()
}

/// An operand of three bytes with its coordinates in eighths of the screen.
fn eighths(x: i32, y: i32) -> [u8; 3] {
    let part = |side: i32, shift: u32| ((side * 32) >> shift & 7) as u8;
    [6, 3, 0].map(|shift| 64 | part(x, shift) << 3 | part(y, shift))
}

/// TEXT with its two bytes and a field of a quarter by an eighth; then the
/// drawing point is set, with the cursor if it follows; G0 is in use.
fn at(first: u8, second: u8, x: i32, y: i32) -> Vec<u8> {
    let mut page = vec![14, 34, first, second];
    page.extend(eighths(2, 1));
    page.push(36);
    page.extend(eighths(x, y));
    page.push(15);
    page
}

/// The codes of the paths in the first byte of TEXT.
const RIGHT: u8 = 64;
const LEFT: u8 = 64 | 4;
const UP: u8 = 64 | 8;
const DOWN: u8 = 64 | 12;
const PATHS: [u8; 4] = [RIGHT, LEFT, UP, DOWN];

const APB: u8 = 8;
const APF: u8 = 9;
const APD: u8 = 10;
const APU: u8 = 11;
const CS: u8 = 12;
const APR: u8 = 13;
const CAN: u8 = 24;
const APS: u8 = 28;
const APH: u8 = 30;
const NSR: u8 = 31;

#[test]
fn one_character() {
    let a = "6 0 0 255 255 255 0 65 0 0 53687040 83886080 0 0 0 0";
    assert_eq!(lines(&[65]), [a, "end 0 1"]);
    assert_eq!(both(&[65]), (53687040, 0));
}

#[test]
fn an_accent_moves_nothing() {
    let accent = "6 0 0 255 255 255 1 66 0 0 53687040 83886080 0 0 0 0";
    let a = "6 0 0 255 255 255 0 65 0 0 53687040 83886080 0 0 0 0";
    assert_eq!(lines(&[25, 66, 65]), [accent, a, "end 0 3"]);
    // Column 4 of supplementary in G0; the columns beside it advance.
    for (code, x) in [(63, 53687040), (64, 0), (79, 0), (80, 53687040)] {
        assert_eq!(point(&[27, 40, 124, code]), (x, 0));
    }
    // Column 4 of the other sets advances; 7/15 of primary is no character.
    for set in [66, 125, 123] {
        assert_eq!(point(&[27, 40, set, 64]), (53687040, 0));
    }
    assert_eq!(point(&[127]), (0, 0));
    assert_eq!(point(&[27, 40, 125, 127]), (53687040, 0));
}

#[test]
fn forty_characters() {
    let mut page = vec![b'x'; 40];
    assert_eq!(record(&page, 1)[8..10], [2093794560, 0]);
    assert_eq!(both(&page), (0, 2063597568));
    page.extend([APR, APD, 65]);
    assert_eq!(record(&page, 1)[8..10], [0, 2063597568]);
}

#[test]
fn spacings() {
    for (first, advance, line) in [
        (64, 53687040, 40),
        (80, 67108608, 32),
        (96, 80530432, 27),
        (112, 53687040, 40),
    ] {
        let mut page = vec![14, 34, first, 15, 65];
        assert_eq!(cursor(&page), (advance, 0));
        assert_eq!(cursor(&[14, 34, first, 15, APF]), (advance, 0));
        page.resize(3 + line, 65);
        assert_eq!(cursor(&page), (advance * (line as i64 - 1), 0));
        page.push(65);
        assert_eq!(cursor(&page), (0, 2063597568));
    }
}

#[test]
fn interrow_spacings() {
    let rows = [83886080, 104857600, 125829120, 167772160];
    for (code, row) in (64..).zip(rows) {
        let page = [14, 34, 64, code, 15, APU];
        assert_eq!(cursor(&page), (0, row));
        assert_eq!(cursor(&[&page[..], &[APU, APD]].concat()), (0, row));
    }
}

#[test]
fn first_moves() {
    assert_eq!(both(&[APB]), (2093796608, 83886080));
    assert_eq!(both(&[APF]), (53687040, 0));
    assert_eq!(both(&[APD]), (0, 2063597568));
    assert_eq!(both(&[APU]), (0, 83886080));
    assert_eq!(both(&[APR]), (0, 0));
    for home in [CS, APH] {
        assert_eq!(both(&[home]), (0, 1593835520));
        let mut page = vec![home];
        page.resize(20, APD);
        assert_eq!(both(&page), (0, 0));
        page.push(APD);
        assert_eq!(both(&page), (0, 2063597568));
    }
}

#[test]
fn home_of_each_rotation() {
    for (rotation, place) in [
        (64, (0, 1593835520)),
        (65, (83886080, 1624034560)),
        (66, (53687040, 1677721600)),
        (67, (0, 1677721600)),
    ] {
        for home in [CS, APH] {
            assert_eq!(both(&[14, 34, rotation, 15, home]), place);
        }
    }
    // A field higher than the display area is held.
    let mut page = vec![14, 34, 64, 64];
    page.extend(eighths(1, 7));
    page.push(APH);
    assert_eq!(both(&page), (0, 0));
}

#[test]
fn nsr_places() {
    for (row, column, place) in [
        (64, 64, (0, 1593835520)),
        (65, 66, (107374080, 1509949440)),
        (83, 103, (2093794560, 0)),
        (84, 104, (2093796608, 0)),
        (127, 127, (2093796608, 0)),
    ] {
        assert_eq!(both(&[NSR, row, column]), place);
    }
}

#[test]
fn aps_places() {
    assert_eq!(both(&[APS, 64, 64]), (1717985280, 2063597568));
    // A field of 1/128 by 1/256: column 32 and row 33.
    let small = [14, 34, 64, 64, 64, 64, 81];
    let mut page = small.to_vec();
    page.extend([APS, 65, 64]);
    assert_eq!(both(&page), (32 * SIDE / 128, 33 * SIDE / 256));
    // Neither spacing nor the sign of the field counts.
    let mirrored = [14, 34, 80, 65, 127, 127, 119, APS, 65, 64];
    assert_eq!(field(&mirrored), (-SIDE / 128, -SIDE / 256));
    assert_eq!(both(&mirrored), (32 * SIDE / 128, 33 * SIDE / 256));
    // The place is that of rotation 0, held with the field as rotated.
    let mut page = small.to_vec();
    page[2] = 66;
    page.extend([APS, 65, 64]);
    assert_eq!(both(&page), (32 * SIDE / 128, 33 * SIDE / 256));
    page.extend([APS, 127, 127]);
    assert_eq!(both(&page), (95 * SIDE / 128, 95 * SIDE / 256));
}

#[test]
fn text_holds_and_aligns() {
    assert_eq!(both(&[14, 34, 65]), (83886080, 0));
    let cross_hair = [14, 34, 64, 96];
    assert_eq!(cursor(&cross_hair), (0, 0));
    assert_eq!(point(&cross_hair), (26843392, 41943040));
    // The point is beyond the screen; TEXT brings it to the cursor.
    let far = [14, 36, 100, 64, 64];
    assert_eq!(point(&far), (-SIDE, -SIDE));
    assert_eq!(cursor(&far), (0, 0));
    assert_eq!(point(&[&far[..], &[34]].concat()), (0, 0));
    // Its record has the point before that.
    assert_eq!(
        record(&[&far[..], &[34]].concat(), 1)[8..10],
        [-SIDE, -SIDE]
    );
}

#[test]
fn text_operands() {
    let size = |bytes: &[u8]| field(&[&[14, 34][..], bytes].concat());
    let fresh = (53687040, 83886080);
    for bytes in [&[][..], &[64], &[64, 64]] {
        assert_eq!(size(bytes), fresh);
    }
    // A begun size is filled with zeros; more than a size is ignored.
    assert_eq!(size(&[64, 64, 73]), (QUARTER, QUARTER));
    assert_eq!(
        size(&[64, 64, 73, 73]),
        (QUARTER + SIDE / 32, QUARTER + SIDE / 32)
    );
    let whole = QUARTER + SIDE / 32 + SIDE / 256;
    assert_eq!(size(&[64, 64, 73, 73, 73]), (whole, whole));
    assert_eq!(size(&[64, 64, 73, 73, 73, 127]), (whole, whole));
    assert_eq!(size(&[64, 64, 100]), (-SIDE, -SIDE));
    assert_eq!(size(&[64, 64, 64]), (0, 0));
    // The lengths and dimensions of DOMAIN hold for it.
    assert_eq!(
        field(&[14, 33, 64, 34, 64, 64, 73, 127]),
        (QUARTER, QUARTER)
    );
    let longest = [14, 33, 92, 34, 64, 64, 64, 64, 64, 64, 64, 64, 64, 81];
    assert_eq!(field(&longest), (512, 256));
    assert_eq!(field(&[14, 33, 104, 34, 64, 64, 83, 64]), (SIDE / 2, 0));
    // Data after TEXT is closed are no part of it.
    assert_eq!(field(&[14, 34, 64, 64, 7, 73]), fresh);
}

#[test]
fn bytes_that_are_missing_count_as_zero() {
    // Path up and independent: the cursor moves up, the point stays.
    let set = [14, 34, UP, 76];
    let page = [&set[..], &[APF]].concat();
    assert_eq!((cursor(&page), point(&page)), ((0, 83886080), (0, 0)));
    assert_eq!(both(&[&set[..], &[34, APF]].concat()), (53687040, 0));
    assert_eq!(both(&[&set[..], &[34, UP, APF]].concat()), (0, 83886080));
}

/// Where an act leads from a place, for a field of a quarter by an eighth.
fn act(path: u8, from: (i32, i32), act: u8) -> (i64, i64) {
    let mut page = at(path, 64, from.0, from.1);
    page.push(act);
    let (x, y) = both(&page);
    (x / EIGHTH, y / EIGHTH)
}

#[test]
fn moves_that_fit() {
    let middle = (4, 4);
    for (path, forward, back, down, up) in [
        (RIGHT, (6, 4), (2, 4), (4, 3), (4, 5)),
        (LEFT, (2, 4), (6, 4), (4, 5), (4, 3)),
        (UP, (4, 5), (4, 3), (6, 4), (2, 4)),
        (DOWN, (4, 3), (4, 5), (2, 4), (6, 4)),
    ] {
        for code in [b'a', b' ', APF] {
            assert_eq!(act(path, middle, code), forward);
        }
        assert_eq!(act(path, middle, APB), back);
        assert_eq!(act(path, middle, APD), down);
        assert_eq!(act(path, middle, APU), up);
    }
}

#[test]
fn moves_that_do_not_fit() {
    for (path, from, after) in [
        (RIGHT, (6, 4), (0, 3)),
        (LEFT, (0, 4), (6, 5)),
        (UP, (4, 7), (6, 0)),
        (DOWN, (4, 0), (2, 7)),
        // The feed leaves the screen too.
        (RIGHT, (6, 0), (0, 7)),
        (LEFT, (0, 7), (6, 0)),
        (UP, (6, 7), (0, 0)),
        (DOWN, (0, 0), (6, 7)),
    ] {
        assert_eq!(act(path, from, b'a'), after);
        assert_eq!(act(path, from, APF), after);
        // APB leads back, by its automatic APU.
        let (x, y) = (after.0 as i32, after.1 as i32);
        assert_eq!(act(path, (x, y), APB), (from.0 as i64, from.1 as i64));
    }
    for (path, from, down) in [
        (RIGHT, (4, 0), (4, 7)),
        (LEFT, (4, 7), (4, 0)),
        (UP, (6, 4), (0, 4)),
        (DOWN, (0, 4), (6, 4)),
    ] {
        assert_eq!(act(path, from, APD), down);
        let (x, y) = (down.0 as i32, down.1 as i32);
        assert_eq!(act(path, (x, y), APU), (from.0 as i64, from.1 as i64));
    }
}

#[test]
fn returns() {
    for (path, first) in PATHS.into_iter().zip([(0, 4), (6, 4), (4, 0), (4, 7)]) {
        assert_eq!(act(path, (4, 4), APR), first);
    }
}

#[test]
fn boxes_of_the_field() {
    for (rotation, least, greatest) in [
        (0, (0, 0), (SIDE - QUARTER, SIDE - EIGHTH)),
        (1, (EIGHTH, 0), (LAST, SIDE - QUARTER)),
        (2, (QUARTER, EIGHTH), (LAST, LAST)),
        (3, (0, QUARTER), (SIDE - EIGHTH, LAST)),
    ] {
        assert_eq!(cursor(&at(64 | rotation, 64, -4, -4)), least);
        let mut page = at(64 | rotation, 64, 0, 0);
        page.extend([APS, 127, 127]);
        assert_eq!(both(&page), greatest);
        // Signs of the field do not count.
        let mut page = vec![14, 34, 64 | rotation, 64];
        page.extend(eighths(-2, -1));
        page.extend([APS, 127, 127]);
        assert_eq!(both(&page), greatest);
    }
}

#[test]
fn extents_of_each_rotation() {
    // From the middle of the screen by an advance and by a row.
    let (wide, high) = (QUARTER, EIGHTH);
    for (rotation, x, y) in [
        (0, wide, high),
        (1, high, wide),
        (2, wide, high),
        (3, high, wide),
    ] {
        let moved = |path: u8, code: u8| {
            let mut page = at(path | rotation, 64, 4, 4);
            page.push(code);
            let (x, y) = both(&page);
            (x - SIDE / 2, y - SIDE / 2)
        };
        assert_eq!([APF, APD].map(|code| moved(RIGHT, code)), [(x, 0), (0, -y)]);
        assert_eq!([APF, APD].map(|code| moved(LEFT, code)), [(-x, 0), (0, y)]);
        assert_eq!([APF, APD].map(|code| moved(UP, code)), [(0, y), (x, 0)]);
        assert_eq!([APF, APD].map(|code| moved(DOWN, code)), [(0, -y), (-x, 0)]);
    }
}

#[test]
fn the_edge_at_the_end_of_the_screen() {
    // Rotation 180: the field touches the end at 1, the cursor is held before.
    let mut page = at(RIGHT | 2, 64, 6, 4);
    page.push(b'a');
    assert_eq!(both(&page), (LAST, SIDE / 2));
    page.push(b'a');
    assert_eq!(both(&page), (QUARTER, SIDE / 2 - EIGHTH));
    // A field as wide as the screen fits nowhere at rotation 180.
    let widest = [14, 34, 66, 64, 100];
    assert_eq!(both(&widest), (LAST, LAST));
    for code in [b'a', APB, APF, APD, APU, APR] {
        assert_eq!(both(&[&widest[..], &[15, code]].concat()), (LAST, LAST));
    }
    // A field of no size never leaves its place.
    for path in PATHS {
        let page = [14, 34, path, 64, 64, 64, 64, 15];
        assert_eq!(both(&[&page[..], &[b'a'; 300]].concat()), (0, 0));
    }
}

/// A line of 40 characters from home: an automatic APR APD.
fn wrapped() -> Vec<u8> {
    let mut page = vec![APH];
    page.resize(41, b'x');
    page
}

#[test]
fn null_pairs() {
    for (more, y) in [
        (&[][..], 1509949440),
        // Wrapped: APR, then what is due after it.
        (&[APR], 1509949440),
        (&[APR, APR], 1509949440),
        (&[APR, APD], 1509949440),
        (&[APR, APR, APD], 1509949440),
        (&[APR, APD, APD], 1426063360),
        (&[APR, APD, APR, APD], 1426063360),
        // Wrapped: APD, then what is due after it.
        (&[APD], 1426063360),
        (&[APD, APD], 1342177280),
        (&[APD, APD, APR], 1342177280),
        (&[APD, APR], 1509949440),
        (&[APD, APR, APR], 1509949440),
        (&[APD, APR, APD], 1426063360),
    ] {
        assert_eq!(both(&[&wrapped()[..], more].concat()), (0, y));
        // Each of them has its record.
        assert_eq!(
            lines(&[&wrapped()[..], more].concat()).len(),
            42 + more.len()
        );
    }
    // None: a line that is not full.
    let short = &wrapped()[..40];
    assert_eq!(both(&[short, &[APR, APD]].concat()), (0, 1509949440));
    assert_eq!(both(&[short, &[APD, APR]].concat()), (0, 1509949440));
}

#[test]
fn tabs_wrap_too() {
    let mut page = vec![APH];
    page.resize(41, APF);
    assert_eq!(both(&[&page[..], &[APR, APD]].concat()), (0, 1509949440));
}

#[test]
fn what_leaves_a_pair_due() {
    // A control without a move, idle, an accent, a shift, 7/15, a colour, a
    // domain with its pel.
    for between in [
        &[7][..],
        &[0],
        &[25, 65],
        &[27, 110, 15],
        &[127],
        &[14, 62, 72, 15],
        &[14, 33, 72, 73, 73, 73, 15],
    ] {
        for pair in [[APR, APD], [APD, APR]] {
            let page = [&wrapped()[..], &pair[..1], between, &pair[1..]].concat();
            assert_eq!(both(&page), (0, 1509949440));
            let page = [&wrapped()[..], between, &pair].concat();
            assert_eq!(both(&page), (0, 1509949440));
        }
    }
}

#[test]
fn what_ends_a_pair() {
    // All of these leave the cursor on its row.
    for between in [
        &[b'a'][..],
        &[APF],
        &[APF, APB],
        &[APU, APD],
        &[14, 34],
        &[14, 37, 64],
        &[NSR, 65, 64],
    ] {
        let page = [&wrapped()[..], between, &[APR, APD]].concat();
        assert_eq!(both(&page), (0, 1426063360));
        let page = [&wrapped()[..], &[APR], between, &[APD]].concat();
        assert_eq!(both(&[&page[..], &[APR]].concat()), (0, 1426063360));
    }
    for between in [&[CS][..], &[APH], &[NSR, 64, 64]] {
        let page = [&wrapped()[..], between, &[APR, APD]].concat();
        assert_eq!(both(&page), (0, 1509949440));
    }
    let page = [&wrapped()[..], &[APS, 64, 64, APR, APD]].concat();
    assert_eq!(both(&page), (0, 2063597568 - 83886080));
}

#[test]
fn pairs_and_a_point_of_its_own() {
    // Cursor leads; the point is moved away after the automatic pair.
    let mut page = vec![14, 34, 64, 68, 15];
    page.extend(wrapped());
    page.extend([14, 36, 73, 64, 64, 15]);
    let away = (QUARTER, QUARTER);
    assert_eq!((cursor(&page), point(&page)), ((0, 1509949440), away));
    // What does nothing does not align either.
    for more in [&[APR][..], &[APR, APD], &[APR, APR]] {
        assert_eq!(point(&[&page[..], more].concat()), away);
    }
    assert_eq!(point(&[&page[..], &[APD]].concat()), (0, 1426063360));
    assert_eq!(point(&[&page[..], &[APD, APR]].concat()), (0, 1509949440));
    // APR that acts where the cursor stands aligns.
    assert_eq!(
        point(&[&page[..], &[APR, APD, APR]].concat()),
        (0, 1509949440)
    );
}

#[test]
fn offsets_of_the_styles() {
    let (wide, high) = (EIGHTH, EIGHTH / 2);
    let centres = [(wide, high), (-high, wide), (-wide, -high), (high, -wide)];
    for (rotation, centre) in (0..).zip(centres) {
        for style in 0..4 {
            let (x, y) = if style < 2 { (0, 0) } else { centre };
            let page = at(64 | rotation, 64 | style << 4, 4, 4);
            assert_eq!(point(&page), (SIDE / 2, SIDE / 2));
            assert_eq!(cursor(&page), (SIDE / 2 - x, SIDE / 2 - y));
            // The point follows the cursor that followed it.
            let page = [&page[..], &[APF, APB]].concat();
            assert_eq!(point(&page), (SIDE / 2, SIDE / 2));
        }
    }
}

#[test]
fn move_attributes() {
    let there = (SIDE / 2, SIDE / 2);
    let near = (SIDE / 2 + QUARTER, SIDE / 2);
    for (attribute, cursor_first, point_last) in [
        (64, there, near),
        (68, (0, 0), (QUARTER, 0)),
        (72, there, there),
        (76, (0, 0), there),
    ] {
        let page = at(64, attribute, 4, 4);
        assert_eq!((cursor(&page), point(&page)), (cursor_first, there));
        for code in [b'a', APF] {
            let page = [&page[..], &[code]].concat();
            assert_eq!(cursor(&page), (cursor_first.0 + QUARTER, cursor_first.1));
            assert_eq!(point(&page), point_last);
        }
        // An accent aligns nothing.
        assert_eq!(point(&[&page[..], &[25, 64]].concat()), there);
    }
}

#[test]
fn what_moves_the_cursor_by_the_point() {
    // From a quarter of the screen: what is drawn, and where the point is then.
    let start = QUARTER;
    let at = |x: i64, y: i64| (start + x * EIGHTH, start + y * EIGHTH);
    for (opcode, operands, place) in [
        (37, &[(1, 2)][..], at(1, 2)),
        (38, &[(1, 2)], (EIGHTH, QUARTER)),
        (39, &[(1, 2)], at(1, 2)),
        (41, &[(1, 2), (1, 0)], at(2, 2)),
        (43, &[(0, 0), (1, 2), (4, 4)], (4 * EIGHTH, 4 * EIGHTH)),
        (44, &[(1, 2)], at(0, 0)),
        (45, &[(1, 2), (1, 0)], at(2, 2)),
        (48, &[(1, 2)], at(1, 0)),
        (50, &[(1, 0), (1, 2)], (QUARTER, 0)),
        (52, &[(1, 2), (1, 0)], at(0, 0)),
        (55, &[(1, 0), (1, 0)], (EIGHTH, 0)),
        (55, &[(1, 0)], (EIGHTH, 0)),
    ] {
        let mut page = vec![14, 36];
        page.extend(eighths(2, 2));
        page.push(opcode);
        page.extend(operands.iter().flat_map(|&(x, y)| eighths(x, y)));
        assert_eq!(both(&page), place, "{opcode}");
        // Point leads: the cursor comes back to a point that stays.
        page.splice(1..1, [34, 64, 72]);
        page.extend([APH, 14, 37, 64, 64, 64]);
        assert_eq!(both(&page), place, "{opcode}");
    }
}

#[test]
fn operands_that_move_no_cursor() {
    // Point leads: neither a pel nor a field brings the cursor back.
    let page = [14, 34, 64, 72, APH];
    for more in [
        &[14, 33, 72, 73, 73, 73][..],
        &[14, 34, 64, 72, 73],
        &[14, 62, 73],
        &[14, 35, 73],
    ] {
        let page = [&page[..], more].concat();
        assert_ne!(cursor(&page), (0, 0));
        assert_eq!(point(&page), (0, 0));
    }
}

#[test]
fn the_point_is_not_pulled_back() {
    let page = [14, 36, 100, 64, 64, 15];
    assert_eq!((cursor(&page), point(&page)), ((0, 0), (-SIDE, -SIDE)));
    assert_eq!(both(&[&page[..], b"a"].concat()), (53687040, 0));
    // Custom style: the offset is taken from a signed number, unwrapped.
    let page = [14, 34, 64, 112, 36, 100, 64, 64];
    assert_eq!((cursor(&page), point(&page)), ((0, 0), (-SIDE, -SIDE)));
}

#[test]
fn row_and_column_bytes_are_read_raw() {
    let place = (107374080, 1509949440);
    for before in [
        &[][..],
        &[14],
        // Macro in G0; a shift, an escape and a designation that are dropped.
        &[27, 40, 122],
        &[25],
        &[27],
        &[27, 40],
    ] {
        assert_eq!(both(&[before, &[NSR, 65, 66]].concat()), place);
        let page = [before, &[APS, 64, 64]].concat();
        assert_eq!(point(&page), (1717985280, 2063597568));
        assert_eq!(last_line(&page), format!("end 0 {}", page.len()));
    }
    // They close the open command, a TEXT too, before their record.
    let page = [14, 34, 65, APS, 64, 64];
    assert_eq!(record(&page, 1)[8..10], [83886080, 0]);
}

#[test]
fn row_and_column_bytes_from_bodies() {
    let whole = [NSR, 65, 66];
    for in_body in 1..=3 {
        let mut page = vec![27, 64, 33];
        page.extend(&whole[..in_body]);
        page.extend([27, 69, 27, 42, 122, 25, 33]);
        page.extend(&whole[in_body..]);
        assert_eq!(both(&page), (107374080, 1509949440));
        assert_eq!(last_line(&page), format!("end 0 {}", page.len() + in_body));
    }
}

#[test]
fn refused_row_and_column_bytes() {
    for control in [APS, NSR] {
        for byte in [0, 24, 25, 27, 28, 31, 32, 48, 63] {
            assert_eq!(last_line(&[control, byte]), "end 5 1");
            assert_eq!(last_line(&[control, 64, byte]), "end 5 2");
        }
        for byte in [128, 192, 255] {
            assert_eq!(last_line(&[control, byte]), "end 3 1");
            assert_eq!(last_line(&[control, 127, byte]), "end 3 2");
        }
        assert_eq!(last_line(&[control]), "end 10 1");
        assert_eq!(last_line(&[control, 64]), "end 10 2");
        assert_eq!(last_line(&[control, 64, 127]), "end 0 3");
        // Stored in a definition.
        assert_eq!(last_line(&[27, 64, 33, control, 0, 27, 69]), "end 0 7");
    }
    // The record of the control stands, the refused byte wrote nothing.
    assert_eq!(lines(&[APS, 63]).len(), 2);
}

#[test]
fn a_position_waits_for_room() {
    let mut reader = Reader::new(GREATEST_BUDGET);
    assert_eq!(reader.feed(&[NSR, 64], 159), answer(Number::Full, 1, 40));
    assert_eq!(reader.feed(&[64, 64], 119), answer(Number::Full, 0, 0));
    assert_eq!(reader.feed(&[64], 120), answer(Number::Done, 1, 0));
    assert_eq!(reader.end(120), answer(Number::Unfinished, 0, 0));
    assert_eq!(reader.feed(&[64], 120), answer(Number::Unfinished, 0, 0));
}

#[test]
fn what_nsr_resets() {
    // DOMAIN with a pel, SELECT COLOUR twice, TEXT, sets; then NSR.
    let mut page = vec![14, 33, 95, 127, 62, 84, 64, 64, 64, 88, 60, 127, 15];
    page.extend([14, 34, 127, 127, 73, 27, 40, 125, 27, 42, 87, 27, 111]);
    page.extend([NSR, 64, 64]);
    // Its record shows what was before.
    let before = record(&page, 1);
    assert_eq!((before[2], before[3], before[4]), (2, 5, 6));
    assert_eq!((before[14], before[15]), (-QUARTER, -QUARTER));
    let a = "6 0 0 255 255 255 0 65 0 1593835520 53687040 83886080 0 0 0 0";
    let found = lines(&[&page[..], &[65, 14, 38, 73, 64, 64, 7]].concat());
    let found = &found[found.len() - 4..];
    assert_eq!(found[0], a);
    assert_eq!(
        found[1],
        "1 0 0 255 255 255 0 0 536870912 536870912 0 0 0 0 0 0"
    );
    // Both again in step; G2 is supplementary.
    assert_eq!(
        both(&[&page[..], &[65, APD]].concat()),
        (53687040, 1509949440)
    );
    // The map stays.
    let mut reader = Reader::new(GREATEST_BUDGET);
    reader.feed(&[14, 62, 84, 60, 127, 127, 127, NSR, 64, 64], 400);
    assert_eq!(colour(&reader.session, 5), (Number::Done, [252, 252, 252]));
    // Macros stay.
    let page = [27, 64, 33, 65, 27, 69, NSR, 64, 64, 27, 42, 122, 25, 33];
    assert_eq!(
        record(&page, 1)[..10],
        [6, 0, 0, 255, 255, 255, 0, 65, 0, 1593835520]
    );
}

#[test]
fn what_moves_no_cursor() {
    for page in [
        &[14, 32, 127, 127][..],
        &[27, 69],
        &[27, 79],
        &[27, 95],
        &[24],
        &[26],
        &[16],
    ] {
        assert_eq!(both(&[&[65], page].concat()), (53687040, 0));
    }
}

#[test]
fn a_character_closes_and_is_written_in_one_step() {
    // The closing edge leaves room for one record; the next step waits.
    let mut reader = Reader::new(GREATEST_BUDGET);
    let polygon = [14, 52, 73, 64, 64, 73];
    assert_eq!(reader.feed(&polygon, 400), answer(Number::Done, 6, 40));
    assert_eq!(
        reader.feed(&[15, b'a', b'b'], 120),
        answer(Number::Full, 2, 120)
    );
    assert_eq!(reader.feed(b"b", 120), answer(Number::Done, 1, 40));
}
