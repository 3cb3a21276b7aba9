//! Text: what TEXT sets, the character field, the cursor and its moves.
//!
//! Places are reckoned in 64 bits: a field can be as wide as the screen, and
//! a sum can leave it. What the cursor keeps is held on the screen.

use crate::coding::Set;
use crate::record::{fields, fill, Point, Slot};

/// The side of the unit screen.
const SIDE: i64 = 1 << 31;
/// The greatest place of a cursor: the unit screen is open at its far ends.
const LAST: i64 = SIDE - 256;
/// The top of the display area, 25/32 of the unit screen.
const TOP: i64 = SIDE / 32 * 25;
/// The default field: 1/40, cut to a multiple of 256, and 5/128.
const DEFAULT_FIELD: Point = Point {
    x: 53_687_040,
    y: 83_886_080,
};

/// Spacing 1, 5/4, 3/2 and proportional, which counts as 1, in quarters.
const SPACINGS: [i64; 4] = [4, 5, 6, 4];
/// Interrow spacing 1, 5/4, 3/2 and 2, in quarters.
const INTERROWS: [i64; 4] = [4, 5, 6, 8];

/// Cuts a length, which is not negative, to a multiple of 256.
#[inline]
fn cut(length: i64) -> i64 {
    length & !255
}

/// A path, and every way that the cursor moves.
#[derive(Clone, Copy, Debug, PartialEq, Eq)]
enum Direction {
    Right,
    Left,
    Up,
    Down,
}

use Direction::{Down, Left, Right, Up};

/// The paths by their codes.
const PATHS: [Direction; 4] = [Right, Left, Up, Down];

impl Direction {
    #[inline]
    fn is_horizontal(self) -> bool {
        matches!(self, Right | Left)
    }

    /// Whether it leads to greater coordinates.
    #[inline]
    fn is_rising(self) -> bool {
        matches!(self, Right | Up)
    }

    /// Turned by 180 degrees: against a path.
    #[inline]
    fn back(self) -> Direction {
        match self {
            Right => Left,
            Left => Right,
            Up => Down,
            Down => Up,
        }
    }

    /// Turned by -90 degrees: a row down, for a path.
    #[inline]
    fn row_down(self) -> Direction {
        match self {
            Right => Down,
            Left => Up,
            Up => Right,
            Down => Left,
        }
    }
}

/// The move attribute.
#[derive(Clone, Copy, Debug, PartialEq, Eq)]
enum Moves {
    Together,
    CursorLeads,
    PointLeads,
    Independent,
}

const MOVES: [Moves; 4] = [
    Moves::Together,
    Moves::CursorLeads,
    Moves::PointLeads,
    Moves::Independent,
];

/// The cursor style.
#[derive(Clone, Copy, Debug, PartialEq, Eq)]
enum Style {
    Underscore,
    Block,
    CrossHair,
    Custom,
}

const STYLES: [Style; 4] = [
    Style::Underscore,
    Style::Block,
    Style::CrossHair,
    Style::Custom,
];

/// What TEXT sets.
#[derive(Clone, Copy, Debug, PartialEq, Eq)]
struct Settings {
    /// Quarter turns, counterclockwise.
    rotation: u8,
    path: Direction,
    /// Codes, 0 to 3.
    spacing: u8,
    interrow: u8,
    moves: Moves,
    style: Style,
    /// dx and dy with their signs.
    field: Point,
}

const DEFAULTS: Settings = Settings {
    rotation: 0,
    path: Right,
    spacing: 0,
    interrow: 0,
    moves: Moves::Together,
    style: Style::Underscore,
    field: DEFAULT_FIELD,
};

impl Settings {
    /// How far the field reaches from its origin: left, right, down and up.
    fn reach(&self) -> [i64; 4] {
        let width = i64::from(self.field.x).abs();
        let height = i64::from(self.field.y).abs();
        match self.rotation {
            0 => [0, width, 0, height],
            1 => [height, 0, 0, width],
            2 => [width, 0, height, 0],
            _ => [0, height, width, 0],
        }
    }
}

/// The places along one axis at which the field lies on the screen.
#[derive(Clone, Copy, Debug, PartialEq, Eq)]
struct Span {
    least: i64,
    greatest: i64,
}

impl Span {
    /// For a field that reaches so far below and above its origin.
    fn of(below: i64, above: i64) -> Span {
        Span {
            least: below,
            greatest: SIDE - above,
        }
    }

    /// The size of the field along the axis.
    fn extent(self) -> i64 {
        self.least + (SIDE - self.greatest)
    }

    /// Touching the edge is inside.
    #[inline]
    fn fits(self, place: i64) -> bool {
        self.least <= place && place <= self.greatest
    }

    /// The place held on the screen.
    #[inline]
    fn hold(self, place: i64) -> i32 {
        cut(place.max(self.least).min(self.greatest).min(LAST)) as i32
    }

    /// The edge that a move comes from: opposite to the one it leaves by.
    #[inline]
    fn edge_behind(self, to: Direction) -> i64 {
        if to.is_rising() {
            self.least
        } else {
            self.greatest
        }
    }
}

/// What follows from the settings.
#[derive(Clone, Copy, Debug, PartialEq, Eq)]
struct Measures {
    x: Span,
    y: Span,
    /// The intercharacter spacing along the path.
    advance: i64,
    /// The interrow spacing across it.
    row: i64,
    /// From the cursor to the drawing point that is aligned with it.
    offset: Point,
}

impl Measures {
    fn of(settings: &Settings) -> Measures {
        let [left, right, down, up] = settings.reach();
        let (x, y) = (Span::of(left, right), Span::of(down, up));
        let (along, across) = match settings.path.is_horizontal() {
            true => (x.extent(), y.extent()),
            false => (y.extent(), x.extent()),
        };
        let spacing = SPACINGS[usize::from(settings.spacing & 3)];
        let interrow = INTERROWS[usize::from(settings.interrow & 3)];
        let offset = match settings.style {
            Style::Underscore | Style::Block => Point::default(),
            Style::CrossHair | Style::Custom => Point {
                x: half(right) - half(left),
                y: half(up) - half(down),
            },
        };
        Measures {
            x,
            y,
            advance: cut(along * spacing / 4),
            row: cut(across * interrow / 4),
            offset,
        }
    }
}

/// Half of a length up to the screen's side, cut.
fn half(length: i64) -> i32 {
    cut(length / 2) as i32
}

/// How much has been read of an explicit APR APD, or APD APR, that comes after
/// an automatic one and does nothing.
#[derive(Clone, Copy, Debug, PartialEq, Eq)]
enum Pair {
    None,
    /// The cursor stands where an automatic APR APD has put it.
    Wrapped,
    ReturnSeen,
    /// With the cursor before the APD.
    FeedSeen(Point),
}

/// The controls that move the cursor by themselves.
#[derive(Clone, Copy, Debug, PartialEq, Eq)]
pub enum Effector {
    Apb,
    Apf,
    Apd,
    Apu,
    Cs,
    Apr,
    Aph,
}

/// The controls that are followed by a row and a column byte.
#[derive(Clone, Copy, Debug, PartialEq, Eq)]
pub enum Positioning {
    Aps,
    Nsr,
}

/// What the records of a run of characters share.
#[derive(Clone, Copy)]
pub struct Ink {
    /// The first eight bytes, without the code.
    pub header: u64,
    pub pel: Point,
}

impl Ink {
    #[inline]
    fn write(self, code: u8, cursor: Point, field: Point, slot: &mut Slot) {
        let header = self.header | u64::from(code) << 56;
        fill(
            slot,
            header,
            &fields([cursor, field, Point::default()], self.pel),
        );
    }
}

/// The settings and the cursor.
#[derive(Clone, Debug, PartialEq, Eq)]
pub struct Text {
    settings: Settings,
    /// Made when TEXT is closed: nothing asks for them while it is open.
    measures: Measures,
    /// The origin of the field.
    cursor: Point,
    pair: Pair,
}

impl Text {
    pub fn new() -> Self {
        Text {
            settings: DEFAULTS,
            measures: Measures::of(&DEFAULTS),
            cursor: Point::default(),
            pair: Pair::None,
        }
    }

    // TEXT and NSR.

    /// The first byte of TEXT: spacing, path and rotation.
    pub fn set_first(&mut self, byte: u8) {
        self.settings.spacing = byte >> 4 & 3;
        self.settings.path = PATHS[usize::from(byte >> 2 & 3)];
        self.settings.rotation = byte & 3;
    }

    /// The second byte of TEXT: style, move attribute and interrow spacing.
    pub fn set_second(&mut self, byte: u8) {
        self.settings.style = STYLES[usize::from(byte >> 4 & 3)];
        self.settings.moves = MOVES[usize::from(byte >> 2 & 3)];
        self.settings.interrow = byte & 3;
    }

    pub fn set_field(&mut self, field: Point) {
        self.settings.field = field;
    }

    /// The closing of TEXT: the cursor is held with the new field.
    pub fn close(&mut self) {
        self.measures = Measures::of(&self.settings);
        self.set_cursor(self.cursor.x.into(), self.cursor.y.into());
    }

    /// NSR: the settings are as at first, the cursor stays.
    pub fn reset(&mut self) {
        self.settings = DEFAULTS;
        self.measures = Measures::of(&DEFAULTS);
        self.pair = Pair::None;
    }

    // Cursor and drawing point.

    /// The drawing point that the cursor takes with it, if it does.
    #[inline]
    pub fn aligned(&self) -> Option<Point> {
        match self.settings.moves {
            Moves::Together | Moves::CursorLeads => Some(self.cursor.plus(self.measures.offset).0),
            Moves::PointLeads | Moves::Independent => None,
        }
    }

    /// The drawing point has been moved: takes the cursor with it, if it does.
    pub fn follow(&mut self, point: Point) {
        if matches!(self.settings.moves, Moves::Together | Moves::PointLeads) {
            let offset = self.measures.offset;
            let x = i64::from(point.x) - i64::from(offset.x);
            let y = i64::from(point.y) - i64::from(offset.y);
            self.set_cursor(x, y);
        }
    }

    /// Sets the cursor, held on the screen.
    #[inline]
    fn set_cursor(&mut self, x: i64, y: i64) {
        self.cursor = Point {
            x: self.measures.x.hold(x),
            y: self.measures.y.hold(y),
        };
        self.pair = Pair::None;
    }

    // Characters.

    /// Writes the characters of a set in front of `codes`, one a slot; answers
    /// how many, and whether the cursor was set.
    pub fn write(&mut self, set: Set, ink: Ink, codes: &[u8], slots: &mut [Slot]) -> (usize, bool) {
        let (mut written, mut advanced) = (0, false);
        while let (Some(&code), Some(slot)) = (codes.get(written), slots.get_mut(written)) {
            if !set.has(code) {
                break;
            }
            if set.is_accent(code) {
                ink.write(code, self.cursor, self.settings.field, slot);
                written += 1;
            } else {
                written += self.write_line(set, ink, &codes[written..], &mut slots[written..]);
                advanced = true;
            }
        }
        (written, advanced)
    }

    /// Writes spacing characters, as far as they stand on one line; answers
    /// how many, at least the first.
    #[inline]
    fn write_line(&mut self, set: Set, ink: Ink, codes: &[u8], slots: &mut [Slot]) -> usize {
        let (field, step, line) = (self.settings.field, self.step(), self.line());
        let codes = &codes[..codes.len().min(line)];
        let mut cursor = self.cursor.pack();
        let mut written = 0;
        for (slot, &code) in slots.iter_mut().zip(codes) {
            if !set.has(code) || set.is_accent(code) {
                break;
            }
            ink.write(code, Point::unpack(cursor), field, slot);
            cursor = cursor.wrapping_add(step);
            written += 1;
        }
        self.pair = Pair::None;
        if written < line {
            self.cursor = Point::unpack(cursor);
        } else {
            self.cursor = Point::unpack(cursor.wrapping_sub(step));
            self.advance();
        }
        written
    }

    /// How many characters the line has from the cursor on; only the advance
    /// of the last can leave it, or be held.
    #[inline]
    fn line(&self) -> usize {
        let path = self.settings.path;
        let (span, place) = self.axis(path);
        let room = match path.is_rising() {
            true => span.greatest.min(LAST) - place,
            false => place - span.least,
        };
        let room = room.max(0) as usize;
        match room.checked_div(self.measures.advance as usize) {
            Some(advances) => advances + 1,
            None => usize::MAX,
        }
    }

    /// What an advance adds to the packed cursor.
    #[inline]
    fn step(&self) -> u64 {
        let path = self.settings.path;
        let advance = self.measures.advance as u64;
        let step = match path.is_rising() {
            true => advance,
            false => advance.wrapping_neg(),
        };
        match path.is_horizontal() {
            true => step,
            false => step << 32,
        }
    }

    /// The advance after a character, and APF.
    fn advance(&mut self) {
        let path = self.settings.path;
        self.pair = Pair::None;
        if !self.move_by(path, self.measures.advance) {
            self.move_to_edge(path);
            self.move_row(path.row_down());
            self.pair = Pair::Wrapped;
        }
    }

    // Format effectors.

    /// Carries out a format effector; answers whether it set the cursor.
    pub fn act(&mut self, effector: Effector) -> bool {
        match effector {
            Effector::Apb => self.apb(),
            Effector::Apf => self.advance(),
            Effector::Apd => return self.apd(),
            Effector::Apu => self.apu(),
            Effector::Apr => return self.apr(),
            Effector::Cs | Effector::Aph => self.home(),
        }
        true
    }

    fn apb(&mut self) {
        let back = self.settings.path.back();
        if !self.move_by(back, self.measures.advance) {
            self.move_to_edge(back);
            self.apu();
        }
        self.pair = Pair::None;
    }

    fn apu(&mut self) {
        self.move_row(self.settings.path.row_down().back());
        self.pair = Pair::None;
    }

    fn apd(&mut self) -> bool {
        let (acts, pair) = match self.pair {
            Pair::None | Pair::FeedSeen(_) => (true, Pair::None),
            Pair::Wrapped => (true, Pair::FeedSeen(self.cursor)),
            Pair::ReturnSeen => (false, Pair::None),
        };
        if acts {
            self.move_row(self.settings.path.row_down());
        }
        self.pair = pair;
        acts
    }

    fn apr(&mut self) -> bool {
        let (acts, pair) = match self.pair {
            Pair::None | Pair::FeedSeen(_) => (true, Pair::None),
            Pair::Wrapped | Pair::ReturnSeen => (false, Pair::ReturnSeen),
        };
        if let Pair::FeedSeen(before) = self.pair {
            self.cursor = before;
        } else if acts {
            self.move_to_edge(self.settings.path);
        }
        self.pair = pair;
        acts
    }

    /// CS and APH: the upper left place of the display area.
    fn home(&mut self) {
        let up = SIDE - self.measures.y.greatest;
        self.set_cursor(self.measures.x.least, TOP - up);
    }

    // Row and column bytes.

    /// Puts the cursor to the place that row and column bytes name.
    pub fn position(&mut self, by: Positioning, row: u8, column: u8) {
        match by {
            Positioning::Aps => self.aps(i64::from(row) - 32, i64::from(column) - 32),
            Positioning::Nsr => self.nsr(i64::from(row) - 64, i64::from(column) - 64),
        }
    }

    /// Rows are counted upwards from the lower left, by the field unrotated.
    fn aps(&mut self, row: i64, column: i64) {
        let field = self.settings.field;
        let width = i64::from(field.x).abs();
        let height = i64::from(field.y).abs();
        self.set_cursor(column * width, row * height);
    }

    /// Rows are counted downwards from the top, by the default field.
    fn nsr(&mut self, row: i64, column: i64) {
        let width = i64::from(DEFAULT_FIELD.x);
        let height = i64::from(DEFAULT_FIELD.y);
        self.set_cursor(column * width, TOP - (row + 1) * height);
    }

    // Moves along one axis.

    /// The axis of a direction, and where the cursor stands on it.
    #[inline]
    fn axis(&self, along: Direction) -> (Span, i64) {
        match along.is_horizontal() {
            true => (self.measures.x, self.cursor.x.into()),
            false => (self.measures.y, self.cursor.y.into()),
        }
    }

    /// Sets one coordinate of the cursor, held on the screen.
    #[inline]
    fn set_along(&mut self, axis: Direction, place: i64) {
        match axis.is_horizontal() {
            true => self.cursor.x = self.measures.x.hold(place),
            false => self.cursor.y = self.measures.y.hold(place),
        }
    }

    /// Moves the cursor if its field then fits; answers whether it does.
    #[inline]
    fn move_by(&mut self, to: Direction, amount: i64) -> bool {
        let (span, from) = self.axis(to);
        let place = match to.is_rising() {
            true => from + amount,
            false => from - amount,
        };
        let fits = span.fits(place);
        if fits {
            self.set_along(to, place);
        }
        fits
    }

    /// Puts the cursor to the edge opposite to the one a move leaves by.
    #[inline]
    fn move_to_edge(&mut self, to: Direction) {
        let edge = self.axis(to).0.edge_behind(to);
        self.set_along(to, edge);
    }

    /// Moves by a row, or to the opposite edge.
    #[inline]
    fn move_row(&mut self, to: Direction) {
        if !self.move_by(to, self.measures.row) {
            self.move_to_edge(to);
        }
    }
}
