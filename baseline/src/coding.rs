//! Code extension: sets, shifts, escape sequences and controls.

use crate::text::{Effector, Positioning};

/// What a G set names.
#[derive(Clone, Copy, Debug, PartialEq, Eq)]
#[repr(u8)]
pub enum Set {
    Primary = 0,
    Supplementary = 1,
    Mosaic = 2,
    Drcs = 3,
    Pdi,
    Macro,
}

impl Set {
    /// Whether a code is a character of the set, one that has characters.
    #[inline]
    pub fn has(self, code: u8) -> bool {
        let last = match self {
            Set::Primary | Set::Supplementary => DELETE - 1,
            _ => DELETE,
        };
        code.wrapping_sub(0x20) <= last - 0x20
    }

    /// Whether a character moves no cursor: column 4 of supplementary.
    #[inline]
    pub fn is_accent(self, code: u8) -> bool {
        self == Set::Supplementary && code >> 4 == 4
    }
}

/// One of G0 to G3.
pub type G = u8;

/// What G0 to G3 name at first.
pub const FIRST_SETS: [Set; 4] = [Set::Primary, Set::Pdi, Set::Supplementary, Set::Mosaic];

/// What the next byte is read as, apart from the set in use.
#[derive(Clone, Copy, Debug, PartialEq, Eq)]
pub enum Coding {
    Plain,
    /// After a single shift.
    Shifted(G),
    /// After ESC.
    Escape,
    /// After ESC and bytes of column 2: the G set that a third byte would
    /// designate, or none where the sequence will be ignored.
    Designate(Option<G>),
    /// After ESC 4/0: the byte is the name to be defined.
    Name,
    /// Inside a definition.
    Body,
    /// Inside a definition, after an ESC that is held.
    BodyEscape,
    /// After APS or NSR: the byte is the row.
    Row(Positioning),
    /// After that row byte: the byte is the column.
    Column(Positioning, u8),
}

impl Coding {
    #[inline]
    pub fn is_definition(self) -> bool {
        matches!(self, Coding::Name | Coding::Body | Coding::BodyEscape)
    }

    /// Whether a row or column byte is due.
    #[inline]
    pub fn is_position(self) -> bool {
        matches!(self, Coding::Row(_) | Coding::Column(..))
    }
}

pub const ESC: u8 = 0x1B;
/// Finals of the two-byte sequences that define.
pub const DEFINE: u8 = 0x40;
pub const END_DEFINITION: u8 = 0x45;
/// 7/15, no character of primary and supplementary.
pub const DELETE: u8 = 0x7F;

/// What a byte of columns 0 and 1 does.
#[derive(Clone, Copy, Debug, PartialEq, Eq)]
pub enum Control {
    Nothing,
    LockingShift(G),
    SingleShift(G),
    Escape,
    /// Closes the open command and writes a record, as do those below.
    Recorded,
    /// CAN, which ends every running body.
    Cancel,
    Format(Effector),
    Position(Positioning),
}

/// The controls 0/0 to 1/15.
pub static CONTROLS: [Control; 32] = {
    let mut table = [Control::Recorded; 32];
    let mut code = 0;
    while code <= 6 {
        table[code] = Control::Nothing;
        code += 1;
    }
    table[0x0F] = Control::LockingShift(0);
    table[0x0E] = Control::LockingShift(1);
    table[0x19] = Control::SingleShift(2);
    table[0x1D] = Control::SingleShift(3);
    table[ESC as usize] = Control::Escape;
    table[0x18] = Control::Cancel;
    table[0x08] = Control::Format(Effector::Apb);
    table[0x09] = Control::Format(Effector::Apf);
    table[0x0A] = Control::Format(Effector::Apd);
    table[0x0B] = Control::Format(Effector::Apu);
    table[0x0C] = Control::Format(Effector::Cs);
    table[0x0D] = Control::Format(Effector::Apr);
    table[0x1E] = Control::Format(Effector::Aph);
    table[0x1C] = Control::Position(Positioning::Aps);
    table[0x1F] = Control::Position(Positioning::Nsr);
    table
};

/// What the byte that finishes a two-byte escape sequence does.
#[derive(Clone, Copy, Debug, PartialEq, Eq)]
pub enum Final {
    Define,
    Refused,
    Close,
    LockingShift(G),
    Ignored,
}

/// Classifies the second byte, 3/0 to 7/15, of a two-byte sequence.
pub fn two_byte_final(byte: u8) -> Final {
    match byte {
        DEFINE => Final::Define,
        0x41..=0x44 => Final::Refused,
        0x45..=0x5F => Final::Close,
        0x6E => Final::LockingShift(2),
        0x6F => Final::LockingShift(3),
        _ => Final::Ignored,
    }
}

/// The G set that a second byte of column 2 names.
pub fn designated(byte: u8) -> Option<G> {
    match byte {
        0x28..=0x2B => Some(byte - 0x28),
        0x2D..=0x2F => Some(byte - 0x2C),
        _ => None,
    }
}

/// The set that the third byte of a designation names.
pub fn designated_set(byte: u8) -> Option<Set> {
    match byte {
        0x42 => Some(Set::Primary),
        0x7C => Some(Set::Supplementary),
        0x57 => Some(Set::Pdi),
        0x7D => Some(Set::Mosaic),
        0x7A => Some(Set::Macro),
        0x7B => Some(Set::Drcs),
        _ => None,
    }
}
