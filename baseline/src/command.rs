//! The opcodes of the PDI set: one row of operand roles for each.

use crate::record::FILLED;

/// What the operand that comes next does.
#[derive(Clone, Copy, Debug, PartialEq, Eq)]
pub enum Role {
    /// Data is dropped.
    Ignore,
    /// The A that a figure starts from.
    Start,
    /// POINT SET.
    MoveTo,
    MoveBy,
    PointAt,
    PointBy,
    LineTo,
    LineBy,
    ArcMiddle,
    ArcEnd,
    Rectangle,
    Edge,
    /// The first byte of DOMAIN.
    Lengths,
    Pel,
    /// The two bytes of TEXT.
    TextFirst,
    TextSecond,
    /// dx and dy of TEXT.
    Field,
    Foreground,
    Background,
    Colour,
}

/// Operands that a pattern is written with, at most.
const PATTERN: usize = 4;

/// A row of the table: the roles of a command's operands in order.
#[derive(Clone, Copy, Debug)]
pub struct Row {
    roles: [Role; PATTERN],
    /// For each role, the place in `roles` that follows it.
    next: [u8; PATTERN],
    /// Flag 1 for a filled figure, else 0.
    pub filled: u8,
    /// Whether opening writes a record by itself.
    pub recorded: bool,
}

/// A place in the pattern of an opcode.
#[derive(Clone, Copy, Debug, PartialEq, Eq)]
pub struct Place {
    pub opcode: u8,
    place: u8,
}

impl Place {
    /// Where the pattern of an opcode starts.
    #[inline]
    pub fn start(opcode: u8) -> Place {
        Place { opcode, place: 0 }
    }

    #[inline]
    pub fn row(self) -> &'static Row {
        &ROWS[usize::from(self.opcode) % ROWS.len()]
    }

    #[inline]
    pub fn role(self) -> Role {
        self.row().roles[usize::from(self.place) % PATTERN]
    }

    /// The place of the next operand.
    #[inline]
    pub fn next(self) -> Place {
        Place {
            opcode: self.opcode,
            place: self.row().next[usize::from(self.place) % PATTERN],
        }
    }
}

/// A pattern that goes on at place `again` after its last role.
const fn pattern(given: &[Role], again: usize) -> Row {
    let mut roles = [Role::Ignore; PATTERN];
    let mut next = [0; PATTERN];
    let mut place = 0;
    while place < given.len() {
        roles[place] = given[place];
        next[place] = if place + 1 < given.len() {
            place as u8 + 1
        } else {
            again as u8
        };
        place += 1;
    }
    Row {
        roles,
        next,
        filled: 0,
        recorded: false,
    }
}

/// A pattern that starts anew while data comes.
const fn repeated(roles: &[Role]) -> Row {
    pattern(roles, 0)
}

/// A pattern whose last role stays.
const fn once(roles: &[Role]) -> Row {
    pattern(roles, roles.len() - 1)
}

const fn filled(row: Row) -> Row {
    Row {
        filled: FILLED,
        ..row
    }
}

const fn recorded(row: Row) -> Row {
    Row {
        recorded: true,
        ..row
    }
}

const OTHER: Row = recorded(repeated(&[Role::Ignore]));

/// TEXT, which also acts when closed.
pub const TEXT: u8 = 0x22;

/// The rows of 2/0 to 3/15.
pub static ROWS: [Row; 32] = {
    use Role::*;
    [
        OTHER,
        once(&[Lengths, Pel, Ignore]),
        recorded(once(&[TextFirst, TextSecond, Field, Ignore])),
        OTHER,
        repeated(&[MoveTo]),
        repeated(&[MoveBy]),
        repeated(&[PointAt]),
        repeated(&[PointBy]),
        repeated(&[LineTo]),
        repeated(&[LineBy]),
        repeated(&[Start, LineTo]),
        repeated(&[Start, LineBy]),
        once(&[ArcMiddle, ArcEnd, Ignore]),
        filled(once(&[ArcMiddle, ArcEnd, Ignore])),
        once(&[Start, ArcMiddle, ArcEnd, Ignore]),
        filled(once(&[Start, ArcMiddle, ArcEnd, Ignore])),
        repeated(&[Rectangle]),
        filled(repeated(&[Rectangle])),
        repeated(&[Start, Rectangle]),
        filled(repeated(&[Start, Rectangle])),
        once(&[Edge]),
        filled(once(&[Edge])),
        once(&[Start, Edge]),
        filled(once(&[Start, Edge])),
        OTHER,
        OTHER,
        OTHER,
        OTHER,
        once(&[Colour, Ignore]),
        OTHER,
        once(&[Foreground, Background, Ignore]),
        OTHER,
    ]
};
