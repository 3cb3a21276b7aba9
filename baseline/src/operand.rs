//! Operands: the bits of data bytes, gathered as they come.
//!
//! A point operand is gathered in one 64-bit word, x in the low half and y in
//! the high half, each from the top down. A table gives the bits of one byte
//! at the top of both halves; the byte's place shifts them down. Missing bytes
//! are zero bits, so an operand cut short needs nothing done.

/// The longest operand, in bytes.
const LONGEST: usize = 8;

/// Set in the table for a byte that is no data; no data bit reaches it.
const NO_DATA: u64 = 1;

/// Whether a byte is of columns 4 to 7.
#[inline]
pub fn is_data(byte: u8) -> bool {
    byte & 0xC0 == 0x40
}

/// For each place in an operand the bits of each byte there.
type Table = [[u64; 256]; LONGEST];

const fn spread(axis_bits: usize) -> Table {
    let mut table = [[NO_DATA; 256]; LONGEST];
    let mask = (1 << axis_bits) - 1;
    let mut place = 0;
    while place < LONGEST {
        let mut byte = 0x40;
        while byte < 0x80 {
            let x = (byte as u64 >> (6 - axis_bits)) & mask;
            let y = (byte as u64 >> (6 - 2 * axis_bits)) & mask;
            let top = x << (32 - axis_bits) | y << (64 - axis_bits);
            table[place][byte] = top >> (axis_bits * place);
            byte += 1;
        }
        place += 1;
    }
    table
}

/// The tables of two and three dimensions.
static TABLES: [Table; 2] = [spread(3), spread(2)];

/// How point operands are laid out.
#[derive(Clone, Copy, Debug, PartialEq, Eq)]
pub struct Layout {
    /// Bytes of an operand, 1 to 8.
    pub length: u8,
    pub three_dimensions: bool,
}

impl Layout {
    #[inline]
    fn table(self) -> &'static Table {
        &TABLES[usize::from(self.three_dimensions)]
    }

    /// The bits of the data byte that is at `place` of its operand.
    #[inline]
    pub fn bits(self, byte: u8, place: u8) -> u64 {
        self.table()[usize::from(place) % LONGEST][usize::from(byte)]
    }

    /// Gathers N bytes, if all are data.
    #[inline]
    pub fn gather<const N: usize>(self, bytes: &[u8; N]) -> Option<u64> {
        const { assert!(N <= LONGEST) };
        let bytes = bytes.iter().zip(self.table());
        let operand = bytes.fold(0, |all, (&byte, bits)| all | bits[usize::from(byte)]);
        (operand & NO_DATA == 0).then_some(operand)
    }
}

/// The bits of a SET COLOUR byte at `place` of its operand: G, R and B from
/// the top of bytes 2, 1 and 0. The byte contains two three-tuples, each below
/// those before. Only the first four bytes reach the eight bits of a colour.
#[inline]
pub fn colour_bits(byte: u8, place: u8) -> u64 {
    if place > 3 {
        return 0;
    }
    let first = tuple_bits(byte >> 3 & 7);
    let second = tuple_bits(byte & 7);
    (first | second >> 1) >> (2 * place)
}

/// A three-tuple has one bit of green, of red and of blue, in this order: each
/// at the top of its colour.
#[inline]
fn tuple_bits(tuple: u8) -> u64 {
    let [green, red, blue] = [tuple >> 2 & 1, tuple >> 1 & 1, tuple & 1].map(u64::from);
    green << 23 | red << 15 | blue << 7
}

#[cfg(test)]
mod tests {
    use super::*;

    #[test]
    fn bits_of_two_dimensions() {
        let layout = Layout {
            length: 3,
            three_dimensions: false,
        };
        let dot = Some(0x2000_0000_4000_0000);
        assert_eq!(layout.gather(&[81, 64, 64]), dot);
        assert_eq!(layout.gather(&[81, 64, 32]), None);
        assert_eq!(layout.gather(&[81, 64, 192]), None);
        assert_eq!(layout.bits(81, 0), 0x2000_0000_4000_0000);
    }

    #[test]
    fn the_mark_is_no_data_bit() {
        for axis_bits in [2, 3] {
            for bits in spread(axis_bits) {
                assert!(bits[0x40..0x80].iter().all(|bits| bits & NO_DATA == 0));
            }
        }
    }

    #[test]
    fn bits_of_a_colour() {
        assert_eq!(colour_bits(0x40 | 0b100_100, 0), 0xC0_00_00);
        assert_eq!(colour_bits(0x40 | 0b010_001, 1), 0x00_20_10);
        assert_eq!(colour_bits(0x7F, 4), 0);
    }
}
