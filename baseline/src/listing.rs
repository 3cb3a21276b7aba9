//! The listing of a page: its records as text, then the end.

use std::io::{self, Read, Write};

use crate::record::RECORD;
use crate::session::Session;
use crate::{end, feed, open, Number, STORE};

/// The greatest step budget.
pub const GREATEST_BUDGET: u32 = u32::MAX;

const PIECE: usize = 1 << 16;
/// Records that are read between two writes.
const RECORDS: usize = 1 << 11;

/// Reads a page to its end or its refusal and writes its listing.
pub fn list(page: impl Read, text: impl Write) -> io::Result<()> {
    Lister::new(text).list(page)
}

/// The listing of a page that is in memory.
pub fn listing(page: &[u8]) -> Vec<u8> {
    let mut text = Vec::new();
    list(page, &mut text).expect("memory is always read and written");
    text
}

struct Lister<W> {
    session: Session,
    store: Vec<u8>,
    output: Vec<u8>,
    lines: Vec<u8>,
    text: W,
}

impl<W: Write> Lister<W> {
    fn new(text: W) -> Self {
        let mut store = vec![0; STORE];
        let (session, _) = open(&mut store, GREATEST_BUDGET);
        Lister {
            session,
            store,
            output: vec![0; RECORDS * RECORD],
            lines: Vec::with_capacity(RECORDS * 64),
            text,
        }
    }

    fn list(mut self, mut page: impl Read) -> io::Result<()> {
        let mut piece = vec![0; PIECE];
        let mut number = Number::Done;
        while number == Number::Done {
            let length = match page.read(&mut piece) {
                Ok(0) => break,
                Ok(length) => length,
                Err(error) if error.kind() == io::ErrorKind::Interrupted => continue,
                Err(error) => return Err(error),
            };
            number = self.feed(&piece[..length])?;
        }
        let answer = end(&mut self.session, &self.store, &mut self.output);
        self.write_records(answer.written)?;
        let steps = self.session.steps();
        writeln!(self.text, "end {} {}", answer.number as u8, steps)?;
        self.text.flush()
    }

    /// Feeds a whole piece, writing the records whenever the output is full.
    fn feed(&mut self, mut piece: &[u8]) -> io::Result<Number> {
        loop {
            let answer = feed(&mut self.session, &mut self.store, piece, &mut self.output);
            self.write_records(answer.written)?;
            piece = answer.rest(piece);
            if answer.number != Number::Full {
                return Ok(answer.number);
            }
        }
    }

    fn write_records(&mut self, written: usize) -> io::Result<()> {
        self.lines.clear();
        let (records, _) = self.output[..written].as_chunks::<RECORD>();
        for record in records {
            write_record(record, &mut self.lines);
        }
        self.text.write_all(&self.lines)
    }
}

/// The longest line: 8 bytes and 8 signed numbers, a space after each.
const LINE: usize = 8 * 4 + 8 * 12;

/// One record as a line: 8 bytes, then 8 signed numbers.
fn write_record(record: &[u8; RECORD], lines: &mut Vec<u8>) {
    let mut line = [b' '; LINE];
    let mut at = 0;
    let (bytes, numbers) = record.split_at(8);
    for &byte in bytes {
        at += write_number(i32::from(byte), &mut line[at..]) + 1;
    }
    for number in numbers.as_chunks().0 {
        at += write_number(i32::from_le_bytes(*number), &mut line[at..]) + 1;
    }
    // The last field is followed by the end of the line.
    line[at - 1] = b'\n';
    lines.extend_from_slice(&line[..at]);
}

/// Writes a number in front of `text`; answers how many bytes it takes.
#[inline]
fn write_number(number: i32, text: &mut [u8]) -> usize {
    if (0..10).contains(&number) {
        text[0] = b'0' + number as u8;
        return 1;
    }
    let sign = usize::from(number < 0);
    let size = number.unsigned_abs();
    let length = sign + size.ilog10() as usize + 1;
    text[0] = b'-';
    let mut rest = size;
    for digit in text[sign..length].iter_mut().rev() {
        *digit = b'0' + (rest % 10) as u8;
        rest /= 10;
    }
    length
}

#[cfg(test)]
mod tests {
    use super::write_number;

    #[test]
    fn numbers() {
        for number in [0, 9, 10, -1, -9, -10, 99, 100, 255, i32::MAX, i32::MIN] {
            let mut text = [b' '; 12];
            let length = write_number(number, &mut text);
            assert_eq!(text[..length], *number.to_string().as_bytes());
            assert!(text[length..].iter().all(|&byte| byte == b' '));
        }
    }
}
