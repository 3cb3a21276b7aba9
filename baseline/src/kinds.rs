//! Benchmark pages: each of one kind, of any size.

use crate::drawing::MOST_VERTICES;
use crate::random::Random;

/// What a benchmark page consists of.
#[derive(Clone, Copy, Debug, PartialEq, Eq)]
pub enum BenchKind {
    /// Data that writes no records: one POINT SET.
    PointSet,
    /// Data that writes records: one LINE.
    Line,
    /// Characters of the primary set.
    Characters,
    /// Calls of bodies nested eight deep.
    Nested,
    /// Calls of an empty body.
    Calls,
    /// Definitions of bodies of up to 100 bytes.
    Definitions,
    /// Short commands of all sorts.
    Mixed,
    /// Polygons of the most vertices.
    Polygons,
    /// Full lines, each with APR APD after it.
    Text,
    /// Ten characters at a place and of a size of their own, again and again.
    Captions,
    /// Calls of bodies nested eight deep, all left by a CAN in the innermost.
    Cancels,
}

/// The kinds and their names.
pub const KINDS: [(&str, BenchKind); 11] = [
    ("point-set", BenchKind::PointSet),
    ("line", BenchKind::Line),
    ("characters", BenchKind::Characters),
    ("nested", BenchKind::Nested),
    ("calls", BenchKind::Calls),
    ("definitions", BenchKind::Definitions),
    ("mixed", BenchKind::Mixed),
    ("polygons", BenchKind::Polygons),
    ("text", BenchKind::Text),
    ("captions", BenchKind::Captions),
    ("cancels", BenchKind::Cancels),
];

const ESC: u8 = 0x1B;
const SHIFT_OUT: u8 = 0x0E;
const SHIFT_IN: u8 = 0x0F;
const APD: u8 = 0x0A;
const APR: u8 = 0x0D;
const APH: u8 = 0x1E;
const CAN: u8 = 0x18;
const SINGLE_SHIFT: u8 = 0x19;
const MACRO_TO_G0: [u8; 3] = [ESC, 0x28, 0x7A];
const MACRO_TO_G2: [u8; 3] = [ESC, 0x2A, 0x7A];
const END_DEFINITION: [u8; 2] = [ESC, 0x45];

/// A page of about `size` bytes: whole items until the size is reached.
pub fn page(kind: BenchKind, size: usize) -> Vec<u8> {
    let mut random = Random::new(kind as u64, 0);
    let mut page = beginning(kind);
    while page.len() < size {
        item(kind, &mut random, &mut page);
    }
    page
}

fn beginning(kind: BenchKind) -> Vec<u8> {
    match kind {
        BenchKind::PointSet => vec![SHIFT_OUT, 0x24],
        BenchKind::Line => vec![SHIFT_OUT, 0x28],
        BenchKind::Characters | BenchKind::Definitions | BenchKind::Captions => Vec::new(),
        BenchKind::Text => vec![APH],
        BenchKind::Nested => [nested_bodies(&[]), vec![SHIFT_OUT, 0x24]].concat(),
        BenchKind::Cancels => [nested_bodies(&[CAN]), vec![SHIFT_OUT]].concat(),
        BenchKind::Calls => MACRO_TO_G0.to_vec(),
        BenchKind::Mixed | BenchKind::Polygons => vec![SHIFT_OUT],
    }
}

/// Names 2/1 to 2/8: each body has two operands, and between them a call of the
/// one before; the first body has `innermost` there.
fn nested_bodies(innermost: &[u8]) -> Vec<u8> {
    let mut page = MACRO_TO_G2.to_vec();
    for name in 0x21..=0x28 {
        page.extend([ESC, 0x40, name, 0x41, 0x50, 0x48]);
        match name {
            0x21 => page.extend(innermost),
            _ => page.extend([SINGLE_SHIFT, name - 1]),
        }
        page.extend([0x42, 0x60, 0x44]);
        page.extend(END_DEFINITION);
    }
    page
}

fn item(kind: BenchKind, random: &mut Random, page: &mut Vec<u8>) {
    match kind {
        BenchKind::PointSet | BenchKind::Line => data(3, random, page),
        BenchKind::Characters => page.push(random.byte(0x20, 0x7E)),
        BenchKind::Nested => page.extend([SINGLE_SHIFT, 0x28]),
        BenchKind::Cancels => page.extend([0x24, SINGLE_SHIFT, 0x28]),
        BenchKind::Calls => page.push(random.byte(0x20, 0x7F)),
        BenchKind::Definitions => {
            page.extend([ESC, 0x40, random.byte(0x20, 0x5F)]);
            let length = random.range(0, 100);
            data(length, random, page);
            page.extend(END_DEFINITION);
        }
        BenchKind::Mixed => {
            page.push(random.byte(0x24, 0x37));
            let operands = random.range(1, 3);
            data(3 * operands, random, page);
            if random.chance(10) {
                page.push(random.byte(0x07, 0x0D));
            }
        }
        BenchKind::Polygons => {
            let opcode = random.byte(0x34, 0x37);
            page.push(opcode);
            let start = usize::from(opcode >= 0x36);
            data(3 * (start + usize::from(MOST_VERTICES) - 1), random, page);
        }
        BenchKind::Text => {
            characters(40, random, page);
            page.extend([APR, APD]);
        }
        BenchKind::Captions => caption(random, page),
    }
}

fn caption(random: &mut Random, page: &mut Vec<u8>) {
    page.extend([SHIFT_OUT, 0x24]);
    data(3, random, page);
    // Any spacing and interrow spacing, the rest as at first; sides from 1/32
    // to 1/16.
    let spacing = random.byte(0, 3);
    let interrow = random.byte(0, 3);
    page.extend([0x22, 0x40 | spacing << 4, 0x40 | interrow]);
    page.extend([0x40, 0x49, random.byte(0x40, 0x7F)]);
    page.push(SHIFT_IN);
    characters(10, random, page);
}

fn characters(count: usize, random: &mut Random, page: &mut Vec<u8>) {
    page.extend((0..count).map(|_| random.byte(0x20, 0x7E)));
}

fn data(count: usize, random: &mut Random, page: &mut Vec<u8>) {
    page.extend((0..count).map(|_| random.byte(0x40, 0x7F)));
}

#[cfg(test)]
mod tests {
    use super::*;
    use crate::generator::last_number;
    use crate::Number;

    #[test]
    fn every_kind_is_accepted() {
        for (name, kind) in KINDS {
            let page = page(kind, 20_000);
            assert!(page.len() >= 20_000);
            assert_eq!(last_number(&page), Number::Done, "{name}");
        }
    }
}
