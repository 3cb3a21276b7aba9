//! A reader of 7-bit videotex pages: code sets, macros, domain, colour, text
//! and drawing opcodes.
//!
//! A page is read by [`open`], any number of [`feed`] calls and [`end`]. The
//! caller lends the macro store, each piece of the page and an output buffer;
//! the session is changed in place and nothing is allocated.
//!
//! The session's fields are private and typed so that none can be out of its
//! range; `OutOfRange` is answered only for a store that was changed between
//! the calls.

#![forbid(unsafe_code)]

mod coding;
mod colour;
mod command;
mod drawing;
pub mod generator;
pub mod kinds;
pub mod listing;
mod operand;
pub mod random;
mod record;
mod session;
mod store;
mod text;

pub use colour::Grb;
pub use record::{RECORD, ROOM};
pub use session::Session;
pub use store::STORE;

/// The number that a call answers with.
#[derive(Clone, Copy, Debug, PartialEq, Eq)]
#[repr(u8)]
pub enum Number {
    Done = 0,
    /// A step waits, or end finds a command open, with too little room.
    Full = 1,
    BudgetUsed = 2,
    ByteOver127 = 3,
    /// A macro name below 2/0.
    NameBelow = 4,
    /// ESC 4/1 to 4/4, or a row or column byte below 4/0.
    Unsupported = 5,
    /// The 4/0 of ESC 4/0 read from a body.
    DefinitionInBody = 6,
    StoreFull = 7,
    /// A ninth nested body.
    TooDeep = 8,
    /// Vertex 413.
    TooManyVertices = 9,
    /// End inside an escape sequence or definition, or with a row or column
    /// byte due.
    Unfinished = 10,
    /// End with body bytes left.
    BodyLeft = 11,
    StoreSize = 12,
    OutOfRange = 13,
    /// Feed or end after end.
    AfterEnd = 14,
    /// An address over 15.
    Address = 15,
}

/// What feed and end answer.
#[derive(Clone, Copy, Debug, PartialEq, Eq)]
pub struct Answer {
    pub number: Number,
    /// Bytes of the piece that were read.
    pub consumed: usize,
    /// Bytes of the output that were written.
    pub written: usize,
}

impl Answer {
    /// The unread part of the piece.
    pub fn rest<'a>(&self, piece: &'a [u8]) -> &'a [u8] {
        &piece[self.consumed..]
    }
}

/// Opens a session and clears the store. With a store of the wrong size the
/// session is stopped and the store left as it is.
pub fn open(store: &mut [u8], budget: u32) -> (Session, Number) {
    Session::open(store, budget)
}

/// Reads a piece of the page, as far as there is room for its records.
pub fn feed(session: &mut Session, store: &mut [u8], piece: &[u8], output: &mut [u8]) -> Answer {
    session.feed(store, piece, output)
}

/// Ends the page, closing the open command.
pub fn end(session: &mut Session, store: &[u8], output: &mut [u8]) -> Answer {
    session.end(store, output)
}

/// Reads an address of the colour map; zero for an address over 15.
pub fn colour(session: &Session, address: u8) -> (Number, Grb) {
    session.colour(address)
}
