//! Records: the 40 bytes that each drawn thing is written as.

/// Bytes of a record.
pub const RECORD: usize = 40;

const HEADER: usize = 8;
const FIELDS: usize = RECORD - HEADER;

/// Bytes that have to be free before a step: three records.
pub const ROOM: usize = 3 * RECORD;

/// Flag of a filled figure.
pub const FILLED: u8 = 1;
/// Flag of a record one of whose own sums left the 32-bit range.
pub const WRAPPED: u8 = 2;
/// Flag of the edge that closes a polygon.
pub const CLOSING: u8 = 4;

/// What a record is about, by its number.
#[derive(Clone, Copy, Debug, PartialEq, Eq)]
#[repr(u8)]
pub enum Kind {
    Point = 1,
    Line = 2,
    Arc = 3,
    Rectangle = 4,
    Edge = 5,
    Character = 6,
    Control = 7,
    MapEntry = 8,
    Opcode = 9,
}

/// A point or displacement in units of 2 to the power -31.
#[derive(Clone, Copy, Debug, Default, PartialEq, Eq)]
pub struct Point {
    pub x: i32,
    pub y: i32,
}

impl Point {
    /// The sum, wrapped at 32 bits, and whether it left the range.
    #[inline]
    pub fn plus(self, by: Point) -> (Point, bool) {
        let (x, over_x) = self.x.overflowing_add(by.x);
        let (y, over_y) = self.y.overflowing_add(by.y);
        (Point { x, y }, over_x | over_y)
    }

    /// What an operand counts from: the point if it is relative, else (0, 0).
    #[inline]
    pub fn base(self, relative: bool) -> Point {
        if relative {
            self
        } else {
            Point::default()
        }
    }

    /// Takes apart the packed form: x in the low half, y in the high half.
    #[inline]
    pub fn unpack(bits: u64) -> Point {
        Point {
            x: bits as u32 as i32,
            y: (bits >> 32) as u32 as i32,
        }
    }

    /// x in the low half, y in the high half: the order in a record.
    #[inline]
    pub fn pack(self) -> u64 {
        u64::from(self.x as u32) | u64::from(self.y as u32) << 32
    }
}

/// The place of one record in the output.
pub type Slot = [u8; RECORD];

/// The caller's output buffer and how much of it is written.
pub struct Output<'a> {
    free: &'a mut [u8],
    written: usize,
}

impl<'a> Output<'a> {
    pub fn new(buffer: &'a mut [u8]) -> Self {
        Output {
            free: buffer,
            written: 0,
        }
    }

    /// Bytes written so far.
    pub fn written(&self) -> usize {
        self.written
    }

    /// Whether a step may be taken.
    #[inline]
    pub fn has_room(&self) -> bool {
        self.free.len() >= ROOM
    }

    /// Writes one record. Callers test `has_room` once for each step, which
    /// writes three records at most.
    #[inline]
    pub fn push(&mut self, header: u64, points: [Point; 3], pel: Point) {
        let free = std::mem::take(&mut self.free);
        let (slot, free) = free
            .split_first_chunk_mut::<RECORD>()
            .expect("a step finds room for three records");
        fill(slot, header, &fields(points, pel));
        self.free = free;
        self.written += RECORD;
    }

    /// Slots for records that are written one a step, each while there is
    /// room for a step; `advance` tells how many were filled.
    #[inline]
    pub fn slots(&mut self) -> &mut [Slot] {
        let steps = match self.free.len().checked_sub(ROOM) {
            Some(over) => over / RECORD + 1,
            None => 0,
        };
        &mut self.free.as_chunks_mut().0[..steps]
    }

    /// The same inside a step that has found room and may have written two
    /// records: the first slot is its own.
    #[inline]
    pub fn slots_in_step(&mut self) -> &mut [Slot] {
        let steps = self.free.len().saturating_sub(ROOM) / RECORD + 1;
        &mut self.free.as_chunks_mut().0[..steps]
    }

    /// Passes the slots that were filled.
    #[inline]
    pub fn advance(&mut self, filled: usize) {
        let free = std::mem::take(&mut self.free);
        self.free = &mut free[filled * RECORD..];
        self.written += filled * RECORD;
    }
}

/// The first eight bytes of a record as a little-endian number. `paint` has
/// the mode and colour bytes in their places.
#[inline]
pub fn header(kind: Kind, flags: u8, paint: u64) -> u64 {
    kind as u64 | u64::from(flags) << 8 | paint
}

/// The bytes of a record after its header.
#[inline]
pub fn fields(points: [Point; 3], pel: Point) -> [u8; FIELDS] {
    let [a, b, c] = points;
    let mut bytes = [0; FIELDS];
    let (words, _) = bytes.as_chunks_mut::<8>();
    for (word, point) in words.iter_mut().zip([a, b, c, pel]) {
        *word = point.pack().to_le_bytes();
    }
    bytes
}

/// Fills a slot with a record.
#[inline]
pub fn fill(slot: &mut Slot, header: u64, fields: &[u8; FIELDS]) {
    slot[..HEADER].copy_from_slice(&header.to_le_bytes());
    slot[HEADER..].copy_from_slice(fields);
}
