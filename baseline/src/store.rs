//! The macro store: 256 cells of 32 bytes, lent by the caller at each call.
//!
//! Byte 0 of a cell is the next cell of its chain (zero ends it), byte 1
//! counts the body bytes that follow. Byte 0 of cell 0 heads the free list.

use crate::Number;

/// Bytes of the store.
pub const STORE: usize = 8192;
const CELL: usize = 32;
const CELLS: usize = 256;
/// Body bytes that a cell holds.
pub const CELL_BODY: u8 = 30;

type Cell = [u8; CELL];
/// The store seen as its cells; a cell's number is a byte, so always in it.
pub type Cells = [Cell; CELLS];

/// The store for reading, if it has the right size.
pub fn cells(store: &[u8]) -> Option<&Cells> {
    store
        .as_chunks()
        .0
        .try_into()
        .ok()
        .filter(|_| store.len() == STORE)
}

/// The store for writing, if it has the right size.
pub fn cells_mut(store: &mut [u8]) -> Option<&mut Cells> {
    if store.len() != STORE {
        return None;
    }
    store.as_chunks_mut().0.try_into().ok()
}

/// Links cells 1 to 255 in rising order and clears every other byte.
pub fn clear(cells: &mut Cells) {
    for (number, cell) in cells.iter_mut().enumerate() {
        *cell = [0; CELL];
        // The last cell's link wraps to zero, the end of the chain.
        cell[0] = (number + 1) as u8;
    }
}

/// A place in a running body: a cell and the bytes read of it.
#[derive(Clone, Copy, Debug, Default, PartialEq, Eq)]
pub struct Place {
    pub cell: u8,
    pub read: u8,
}

impl Place {
    /// Whether the body has bytes left.
    #[inline]
    pub fn has_left(self, cells: &Cells) -> bool {
        let cell = &cells[usize::from(self.cell)];
        self.cell != 0 && (self.read < cell[1] || cell[0] != 0)
    }

    /// The bytes left in the cell, after moving on to the next cell if this
    /// one is read to its end. Asked only of a body with bytes left; a count
    /// that cannot be answers `OutOfRange`.
    #[inline]
    pub fn seek(self, cells: &Cells) -> Result<(Place, &[u8]), Number> {
        let cell = &cells[usize::from(self.cell)];
        let count = checked_count(cell)?;
        if self.read > count {
            return Err(Number::OutOfRange);
        }
        if self.read < count {
            return Ok((self, body(cell, self.read, count)));
        }
        let next = &cells[usize::from(cell[0])];
        let count = checked_count(next)?;
        let place = Place {
            cell: cell[0],
            read: 0,
        };
        Ok((place, body(next, 0, count)))
    }
}

#[inline]
fn checked_count(cell: &Cell) -> Result<u8, Number> {
    match cell[1] {
        count @ 1..=CELL_BODY => Ok(count),
        _ => Err(Number::OutOfRange),
    }
}

#[inline]
fn body(cell: &Cell, from: u8, to: u8) -> &[u8] {
    &cell[2 + usize::from(from)..2 + usize::from(to)]
}

/// Puts a body's chain in front of the free list. Nothing is changed if the
/// chain is longer than the store.
pub fn free(cells: &mut Cells, first: u8) -> Result<(), Number> {
    if first == 0 {
        return Ok(());
    }
    let mut last = first;
    for _ in 0..CELLS - 1 {
        let next = cells[usize::from(last)][0];
        if next == 0 {
            cells[usize::from(last)][0] = cells[0][0];
            cells[0][0] = first;
            return Ok(());
        }
        last = next;
    }
    Err(Number::OutOfRange)
}

/// A body being filled: its first cell and its last, zero while it is empty.
#[derive(Clone, Copy, Debug, Default, PartialEq, Eq)]
pub struct Filling {
    pub first: u8,
    pub last: u8,
}

impl Filling {
    /// The free bytes of the last cell.
    fn room(self, cells: &Cells) -> Result<usize, Number> {
        if self.last == 0 {
            return Ok(0);
        }
        let count = checked_count(&cells[usize::from(self.last)])?;
        Ok(usize::from(CELL_BODY - count))
    }

    /// Stores `bytes` (at most 30) at the end of the body, all or none.
    pub fn append(&mut self, cells: &mut Cells, bytes: &[u8]) -> Result<(), Number> {
        if self.room(cells)? < bytes.len() && cells[0][0] == 0 {
            return Err(Number::StoreFull);
        }
        for &byte in bytes {
            self.append_byte(cells, byte);
        }
        Ok(())
    }

    /// Bytes that can be stored in one cell: the last, or a new one if the
    /// last is full.
    pub fn room_for_run(self, cells: &Cells) -> Result<usize, Number> {
        match self.room(cells)? {
            0 if cells[0][0] == 0 => Err(Number::StoreFull),
            0 => Ok(usize::from(CELL_BODY)),
            room => Ok(room),
        }
    }

    /// Stores bytes, one at least, for which there is room in one cell.
    pub fn append_run(&mut self, cells: &mut Cells, bytes: &[u8]) {
        let last = &cells[usize::from(self.last)];
        let mut count = last[1];
        if self.last == 0 || count == CELL_BODY {
            self.take_cell(cells);
            count = 0;
        }
        let cell = &mut cells[usize::from(self.last)];
        let from = 2 + usize::from(count);
        cell[from..from + bytes.len()].copy_from_slice(bytes);
        cell[1] = count + bytes.len() as u8;
    }

    fn append_byte(&mut self, cells: &mut Cells, byte: u8) {
        self.append_run(cells, &[byte]);
    }

    /// Takes a cell from the front of the free list; the links are changed in
    /// the order the rules give.
    fn take_cell(&mut self, cells: &mut Cells) {
        let taken = cells[0][0];
        cells[0][0] = cells[usize::from(taken)][0];
        cells[usize::from(taken)][0] = 0;
        cells[usize::from(taken)][1] = 1;
        match self.last {
            0 => self.first = taken,
            last => cells[usize::from(last)][0] = taken,
        }
        self.last = taken;
    }
}
