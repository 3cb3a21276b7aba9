//! Seeded pages that reach every rule of the reader, most of them accepted.
//!
//! A page is a list of items: commands, text, characters, shifts, sequences,
//! definitions, calls, CANs. The generator keeps a rough account of the sets in
//! use so that most items mean what they are meant to; where the account is
//! lost (after a call that shifts) it designates anew.

use crate::drawing::MOST_VERTICES;
use crate::listing::GREATEST_BUDGET;
use crate::random::Random;
use crate::{end, feed, open, Number, STORE};

const ESC: u8 = 0x1B;
const SINGLE_SHIFTS: [u8; 2] = [0x19, 0x1D];
/// Finals of designations.
const PRIMARY: u8 = 0x42;
const SUPPLEMENTARY: u8 = 0x7C;
const PDI: u8 = 0x57;
const MOSAIC: u8 = 0x7D;
const MACRO: u8 = 0x7A;
const DRCS: u8 = 0x7B;
const FINALS: [u8; 6] = [PRIMARY, SUPPLEMENTARY, PDI, MOSAIC, MACRO, DRCS];

/// The controls that set the cursor.
const APB: u8 = 0x08;
const APF: u8 = 0x09;
const APD: u8 = 0x0A;
const APU: u8 = 0x0B;
const CS: u8 = 0x0C;
const APR: u8 = 0x0D;
const APH: u8 = 0x1E;
const APS: u8 = 0x1C;
const NSR: u8 = 0x1F;
/// Ends every running body.
const CAN: u8 = 0x18;
const EFFECTORS: [u8; 7] = [APB, APF, APD, APU, CS, APR, APH];
/// What comes after a line that is full.
const FEEDS: [&[u8]; 12] = [
    &[APR, APD],
    &[APR, APD],
    &[APD, APR],
    &[APD, APR],
    &[APR],
    &[APD],
    &[APR, APR, APD],
    &[APD, APD, APR],
    &[APR, APD, APR, APD],
    &[APD, APR, APD, APR],
    &[APR, APD, APD, APR],
    &[APD, APR, APR, APD],
];
/// The side of the unit screen.
const SIDE: i64 = 1 << 31;

const NAMES: usize = 96;
/// Cells of the store that bodies can take, and bytes of each.
const CELLS: usize = 255;
const CELL: usize = 30;
/// A body calls names of lower levels only, so that no body calls itself,
/// except after a CAN, where the call is never read.
const LEVELS: u8 = 12;
/// Steps that a call may cost, and that a page may.
const CALL_STEPS: usize = 2_000;
const PAGE_STEPS: u32 = 40_000;

/// Page `number` of a seed.
pub fn page(seed: u64, number: u64) -> Vec<u8> {
    let mut random = Random::new(seed, number);
    loop {
        let page = Generator::new(random.bits()).page();
        // Calls that were not meant as such can multiply: draw again.
        if takes_few_steps(&page) {
            return page;
        }
    }
}

fn takes_few_steps(page: &[u8]) -> bool {
    let mut store = [0; STORE];
    let mut output = [0; 1 << 14];
    let (mut session, _) = open(&mut store, PAGE_STEPS);
    let mut rest = page;
    loop {
        let answer = feed(&mut session, &mut store, rest, &mut output);
        rest = answer.rest(rest);
        match answer.number {
            Number::Full => {}
            number => return number != Number::BudgetUsed,
        }
    }
}

/// The number that a page's end call answers, for the tests of the generator.
pub fn last_number(page: &[u8]) -> Number {
    let mut store = [0; STORE];
    let mut output = [0; 1 << 14];
    let (mut session, _) = open(&mut store, GREATEST_BUDGET);
    let mut rest = page;
    loop {
        let answer = feed(&mut session, &mut store, rest, &mut output);
        rest = answer.rest(rest);
        if answer.number != Number::Full {
            return end(&mut session, &store, &mut output).number;
        }
    }
}

/// What a page is mostly about.
#[derive(Clone, Copy, PartialEq, Eq)]
enum Theme {
    Everything,
    Drawing,
    Macros,
    Coding,
    Store,
    Polygons,
    Text,
    Noise,
}

#[derive(Clone, Copy)]
enum Item {
    Command,
    AnyOpcode,
    Interrupted,
    Polygon,
    LongPolygon,
    SelectColour,
    SetColour,
    CutColour,
    Domain,
    StrayData,
    Characters,
    Text,
    Lines,
    FullLine,
    Effectors,
    Accents,
    Captions,
    Position,
    PositionByMacro,
    Control,
    Idle,
    Designate,
    Ignored,
    DroppedSequence,
    LockingShift,
    SingleShift,
    DroppedShift,
    CloseSequence,
    Define,
    DefineMany,
    Chain,
    Cancel,
    CancelledChain,
    Call,
    OperandsByMacro,
    PendingAtEnd,
    Noise,
}

use Item::*;

const EVERYTHING: &[Item] = &[
    Interrupted,
    Interrupted,
    Command,
    Command,
    Command,
    Command,
    AnyOpcode,
    AnyOpcode,
    Polygon,
    SelectColour,
    SetColour,
    CutColour,
    Domain,
    StrayData,
    Characters,
    Characters,
    Text,
    Lines,
    FullLine,
    Effectors,
    Accents,
    Captions,
    Position,
    PositionByMacro,
    Control,
    Idle,
    Designate,
    Ignored,
    DroppedSequence,
    LockingShift,
    SingleShift,
    DroppedShift,
    CloseSequence,
    Define,
    Define,
    Chain,
    Cancel,
    CancelledChain,
    Call,
    Call,
    Call,
    OperandsByMacro,
    Noise,
];
const DRAWING: &[Item] = &[
    Interrupted,
    Interrupted,
    Command,
    Command,
    Command,
    Command,
    AnyOpcode,
    Polygon,
    SelectColour,
    SetColour,
    CutColour,
    CutColour,
    Domain,
    StrayData,
    Text,
    Effectors,
    Control,
    CloseSequence,
    Idle,
];
const MACROS: &[Item] = &[
    Define,
    Define,
    Define,
    Define,
    Chain,
    CancelledChain,
    CancelledChain,
    Call,
    Call,
    Call,
    Call,
    Interrupted,
    Interrupted,
    Command,
    Domain,
    OperandsByMacro,
    PendingAtEnd,
    PositionByMacro,
    Characters,
    Control,
    Designate,
    LockingShift,
];
const CODING: &[Item] = &[
    Designate,
    Designate,
    Designate,
    Ignored,
    Ignored,
    DroppedSequence,
    DroppedSequence,
    LockingShift,
    LockingShift,
    SingleShift,
    SingleShift,
    DroppedShift,
    Cancel,
    Characters,
    Characters,
    Accents,
    Position,
    Interrupted,
    Interrupted,
    Command,
    Control,
    Idle,
    CloseSequence,
    Noise,
    Define,
    Call,
];
const STORE_ITEMS: &[Item] = &[DefineMany, Define, Define, Call, Call, Command, Control];
const POLYGONS: &[Item] = &[
    LongPolygon,
    LongPolygon,
    LongPolygon,
    Polygon,
    Polygon,
    Interrupted,
    Interrupted,
    Command,
    Domain,
    SetColour,
    SelectColour,
    OperandsByMacro,
    Characters,
];
const TEXT: &[Item] = &[
    Text,
    Text,
    Text,
    Lines,
    Lines,
    FullLine,
    FullLine,
    FullLine,
    Effectors,
    Effectors,
    Effectors,
    Accents,
    Captions,
    Captions,
    Captions,
    Position,
    Position,
    PositionByMacro,
    Characters,
    Interrupted,
    Command,
    Polygon,
    Domain,
    SetColour,
    Control,
    CloseSequence,
    Define,
    CancelledChain,
    Call,
    Call,
];
const NOISE: &[Item] = &[
    Noise, Noise, Noise, Noise, Designate, Domain, Command, Define,
];

/// A defined body: its length, the names it calls, whether it shifts, whether
/// it has a CAN.
#[derive(Clone, Default)]
struct Body {
    length: usize,
    calls: Vec<u8>,
    shifts: bool,
    cancels: bool,
}

/// What is known of the sets, zero where nothing is.
#[derive(Clone, Copy)]
struct Sets {
    finals: [u8; 4],
    in_use: Option<usize>,
}

const FRESH: Sets = Sets {
    finals: [PRIMARY, PDI, SUPPLEMENTARY, MOSAIC],
    in_use: Some(0),
};
const UNKNOWN: Sets = Sets {
    finals: [0; 4],
    in_use: None,
};

struct Generator {
    random: Random,
    bytes: Vec<u8>,
    sets: Sets,
    single: usize,
    multi: usize,
    three_dimensions: bool,
    levels: [u8; NAMES],
    bodies: Vec<Body>,
    cells: usize,
    /// The body being written, and the level it may not reach.
    writing: Option<Body>,
    level: u8,
}

impl Generator {
    fn new(seed: u64) -> Self {
        let mut random = Random::new(seed, 0);
        let levels = std::array::from_fn(|_| random.byte(0, LEVELS - 1));
        Generator {
            random,
            bytes: Vec::new(),
            sets: FRESH,
            single: 1,
            multi: 3,
            three_dimensions: false,
            levels,
            bodies: vec![Body::default(); NAMES],
            cells: 0,
            writing: None,
            level: LEVELS,
        }
    }

    fn page(mut self) -> Vec<u8> {
        let theme = self.theme();
        let most = match theme {
            Theme::Store | Theme::Polygons => 8,
            _ => self.random.pick(&[3, 10, 25, 60]),
        };
        let items = self.random.range(0, most);
        let refused_at = match self.random.chance(14) {
            true => self.random.below(items + 1),
            false => items + 1,
        };
        for at in 0..=items {
            if at == refused_at {
                self.refusal();
            } else if at < items {
                let item = self.random.pick(items_of(theme));
                self.item(item);
            }
        }
        self.last_item();
        self.bytes
    }

    fn theme(&mut self) -> Theme {
        use Theme::*;
        self.random.pick(&[
            Everything, Everything, Everything, Everything, Drawing, Drawing, Drawing, Macros,
            Macros, Macros, Coding, Coding, Store, Polygons, Polygons, Text, Text, Text, Text,
            Text, Noise,
        ])
    }

    /// Often a control, whose record shows the drawing point.
    fn last_item(&mut self) {
        if self.random.chance(60) {
            self.control();
        } else if self.random.chance(10) {
            self.begun_shift();
        }
    }

    fn item(&mut self, item: Item) {
        match item {
            Command => self.command(),
            AnyOpcode => self.any_opcode(),
            Interrupted => self.interrupted(),
            Polygon => self.polygon(),
            LongPolygon => self.long_polygon(),
            SelectColour => self.select_colour(),
            SetColour => self.set_colour(),
            CutColour => self.cut_colour(),
            Domain => self.domain(),
            StrayData => self.stray_data(),
            Characters => self.characters(),
            Text => self.text(),
            Lines => self.lines(),
            FullLine => self.full_line(),
            Effectors => self.effectors(),
            Accents => self.accents(),
            Captions => self.captions(),
            Position => self.position(),
            PositionByMacro => self.position_by_macro(),
            Control => self.control(),
            Idle => self.idle(),
            Designate => self.designate_any(),
            Ignored => self.ignored(),
            DroppedSequence => self.dropped_sequence(),
            LockingShift => self.lock_any(),
            SingleShift => self.single_shift(),
            DroppedShift => self.dropped_shift(),
            CloseSequence => self.close_sequence(),
            Define => self.define(),
            DefineMany => self.define_many(),
            Chain => self.chain(),
            Cancel => self.cancel(),
            CancelledChain => self.cancelled_chain(),
            Call => self.call_any(),
            OperandsByMacro => self.operands_by_macro(),
            PendingAtEnd => self.pending_at_end(),
            Noise => self.noise(),
        }
    }

    // Bytes.

    fn put(&mut self, byte: u8) {
        self.bytes.push(byte);
    }

    fn escape(&mut self, bytes: &[u8]) {
        self.put(ESC);
        self.bytes.extend_from_slice(bytes);
    }

    fn data(&mut self, count: usize) {
        let (low, high) = self
            .random
            .pick(&[(0x40, 0x7F), (0x40, 0x7F), (0x40, 0x49)]);
        for _ in 0..count {
            let byte = self.random.byte(low, high);
            self.put(byte);
        }
    }

    /// Operands, the last of them sometimes cut.
    fn operands(&mut self, count: usize) {
        let cut = match self.random.chance(35) {
            true => self.random.below(self.multi),
            false => 0,
        };
        self.data(count * self.multi + cut);
    }

    // Sets.

    /// Marks that the body being written changes sets or lengths.
    fn shifts(&mut self) {
        if let Some(body) = &mut self.writing {
            body.shifts = true;
        }
    }

    fn designate(&mut self, g: usize, last: u8) {
        let second = match g {
            0 => 0x28,
            _ => self.random.pick(&[0x28, 0x2C]) + g as u8,
        };
        self.escape(&[second, last]);
        self.sets.finals[g] = last;
        self.shifts();
    }

    fn designate_any(&mut self) {
        let g = self.random.below(4);
        let last = self.random.pick(&FINALS);
        self.designate(g, last);
    }

    fn lock(&mut self, g: usize) {
        match g {
            0 => self.put(0x0F),
            1 => self.put(0x0E),
            2 => self.escape(&[0x6E]),
            _ => self.escape(&[0x6F]),
        }
        self.sets.in_use = Some(g);
        self.shifts();
    }

    fn lock_any(&mut self) {
        let g = self.random.below(4);
        self.lock(g);
    }

    fn in_use(&self) -> u8 {
        self.sets.in_use.map_or(0, |g| self.sets.finals[g])
    }

    /// Puts a set in use, unless it is known to be.
    fn use_set(&mut self, last: u8) {
        if self.in_use() == last {
            return;
        }
        let known = (0..4).find(|&g| self.sets.finals[g] == last);
        let g = known.unwrap_or_else(|| {
            let g = self.random.below(4);
            self.designate(g, last);
            g
        });
        self.lock(g);
    }

    /// Puts a set in use that is not in G2, and macros in G2.
    fn use_beside_macros(&mut self, last: u8) {
        let g = self.random.pick(&[0, 1, 3]);
        self.designate(g, last);
        self.lock(g);
        self.designate(2, MACRO);
    }

    fn use_pdi(&mut self) {
        if !self.random.chance(4) {
            self.use_set(PDI);
        }
    }

    /// A single shift whose set is the one asked for.
    fn shift_to(&mut self, last: u8) {
        let known = (2..4).find(|&g| self.sets.finals[g] == last);
        let g = known.unwrap_or_else(|| {
            let g = self.random.range(2, 3);
            self.designate(g, last);
            g
        });
        self.put(SINGLE_SHIFTS[g - 2]);
    }

    // Drawing.

    fn command(&mut self) {
        self.use_pdi();
        let opcode = self.random.byte(0x24, 0x37);
        self.put(opcode);
        let count = self.random.pick(&[0, 1, 1, 2, 2, 3, 4, 7]);
        self.operands(count);
    }

    fn any_opcode(&mut self) {
        self.use_pdi();
        let opcode = self.random.byte(0x20, 0x3F);
        self.put(opcode);
        if opcode == 0x21 {
            self.domain_operands();
            return;
        }
        let count = self.random.below(20);
        self.data(count);
    }

    /// A command with things between its data that close nothing.
    fn interrupted(&mut self) {
        self.any_opcode();
        for _ in 0..self.random.range(1, 4) {
            self.interruption();
            self.use_set(PDI);
            let count = self.random.range(0, self.multi + 1);
            self.data(count);
        }
    }

    fn interruption(&mut self) {
        match self.random.below(10) {
            0 => self.idle(),
            1 => self.ignored(),
            2 => {
                self.begun_shift();
                self.idle();
            }
            3 => {
                let second = self.random.byte(0x20, 0x2F);
                self.escape(&[second]);
                self.idle();
            }
            4 => self.designate_any(),
            5 => {
                let set = self.random.pick(&[PRIMARY, SUPPLEMENTARY]);
                self.use_set(set);
                self.put(0x7F);
            }
            6 => {
                let set = self.random.pick(&[PRIMARY, SUPPLEMENTARY]);
                self.shift_to(set);
                self.put(0x7F);
            }
            7 => {
                self.shift_to(PDI);
                self.data(1);
            }
            8 => self.lock_any(),
            _ if self.writing.is_none() => {
                let name = self.any_name();
                let length = self.random.range(0, 4);
                self.define_name(name, |body| body.data(length));
                self.call(name);
            }
            _ => {}
        }
    }

    fn polygon(&mut self) {
        self.use_pdi();
        let opcode = self.random.byte(0x34, 0x37);
        self.put(opcode);
        let count = self.random.range(0, 12);
        self.operands(count);
    }

    /// A polygon of about as many vertices as a byte counts, or of about the
    /// most, seldom more; mostly with short operands.
    fn long_polygon(&mut self) {
        let vertices = match self.random.below(8) {
            0..=3 => self.random.range(255, 260),
            4..=6 => self.random.range(410, MOST_VERTICES.into()),
            _ => self.random.range(usize::from(MOST_VERTICES) + 1, 415),
        };
        let length = self.random.pick(&[1, 1, 1, 2, 3]);
        self.polygon_of(vertices, length, 0);
    }

    /// A polygon of so many vertices, without its last `cut` bytes.
    fn polygon_of(&mut self, vertices: usize, length: usize, cut: usize) {
        self.set_lengths(length);
        let opcode = self.random.byte(0x34, 0x37);
        self.put(opcode);
        let start = usize::from(opcode >= 0x36);
        self.data((start + vertices - 1) * length - cut);
    }

    /// DOMAIN with a multi-value length, in two dimensions.
    fn set_lengths(&mut self, length: usize) {
        self.use_set(PDI);
        self.put(0x21);
        self.put(0x40 | (length as u8 - 1) << 2);
        (self.single, self.multi) = (1, length);
        self.three_dimensions = false;
        self.shifts();
    }

    fn domain(&mut self) {
        self.use_pdi();
        self.put(0x21);
        self.domain_operands();
    }

    fn domain_operands(&mut self) {
        if self.random.chance(8) {
            return;
        }
        let byte = match self.random.chance(70) {
            true => self.random.byte(0x40, 0x5F),
            false => self.random.byte(0x60, 0x7F),
        };
        self.put(byte);
        self.single = usize::from(byte & 3) + 1;
        self.multi = usize::from(byte >> 2 & 7) + 1;
        self.three_dimensions = byte & 0x20 != 0;
        self.shifts();
        let count = self.random.pick(&[0, 0, 1, 1, 1, 2]);
        self.operands(count);
    }

    fn select_colour(&mut self) {
        self.use_pdi();
        self.put(0x3E);
        let count = self.random.pick(&[0, 1, 1, 2, 2, 3]);
        let cut = self.random.pick(&[0, 0, self.single - 1]);
        self.data(count * self.single + cut);
    }

    fn set_colour(&mut self) {
        if self.random.chance(40) {
            self.select_colour();
        }
        self.use_pdi();
        self.put(0x3C);
        let count = self.random.pick(&[0, 1, 1, 1, 2]);
        self.operands(count);
    }

    /// SET COLOUR under any length, in any mode, with data that end anywhere,
    /// and something that closes it or shows its colour.
    fn cut_colour(&mut self) {
        if self.random.chance(50) {
            self.domain();
        }
        if self.random.chance(60) {
            self.select_colour();
        }
        self.use_pdi();
        self.put(0x3C);
        let length = self.random.range(0, self.multi + 2);
        self.data(length);
        match self.random.below(4) {
            0 => self.control(),
            1 => self.close_sequence(),
            2 => self.characters(),
            _ => self.command(),
        }
    }

    fn stray_data(&mut self) {
        self.use_pdi();
        if self.random.chance(50) {
            self.control();
        }
        let count = self.random.range(1, 12);
        self.data(count);
    }

    // Characters and controls.

    fn characters(&mut self) {
        let set = self.random.pick(&[PRIMARY, SUPPLEMENTARY, MOSAIC, DRCS]);
        self.use_set(set);
        let count = self.random.pick(&[1, 2, 5, 40]);
        self.codes(count);
    }

    fn codes(&mut self, count: usize) {
        for _ in 0..count {
            let code = match self.random.chance(6) {
                true => 0x7F,
                false => self.random.byte(0x20, 0x7F),
            };
            self.put(code);
        }
    }

    fn recorded_control(&mut self) -> u8 {
        let ranges = [(0x07, 0x0D), (0x10, 0x18), (0x1A, 0x1A), (0x1E, 0x1E)];
        let (low, high) = self.random.pick(&ranges);
        self.random.byte(low, high)
    }

    fn control(&mut self) {
        let code = self.recorded_control();
        self.put(code);
    }

    fn idle(&mut self) {
        let code = self.random.byte(0x00, 0x06);
        self.put(code);
    }

    fn single_shift(&mut self) {
        let last = self
            .random
            .pick(&[PRIMARY, SUPPLEMENTARY, MOSAIC, DRCS, PDI]);
        self.shift_to(last);
        let code = self.random.byte(0x20, 0x7F);
        // A lone opcode of DOMAIN would take the data that follows.
        self.put(if last == PDI && code == 0x21 {
            0x22
        } else {
            code
        });
    }

    /// A control that drops a pending shift or sequence.
    fn dropping(&mut self) {
        match self.random.below(5) {
            0 => self.idle(),
            1 => self.control(),
            2 => self.single_shift(),
            3 => self.position(),
            _ => {
                let g = self.random.below(2);
                self.lock(g);
            }
        }
    }

    fn begun_shift(&mut self) {
        let shift = self.random.pick(&SINGLE_SHIFTS);
        self.put(shift);
    }

    /// ESC, sometimes with bytes of column 2.
    fn begun_sequence(&mut self) {
        self.put(ESC);
        for _ in 0..self.random.below(4) {
            let byte = self.random.byte(0x20, 0x2F);
            self.put(byte);
        }
    }

    /// A shift or sequence that waits for its next byte.
    fn waiting(&mut self) {
        match self.random.chance(40) {
            true => self.begun_shift(),
            false => self.begun_sequence(),
        }
    }

    fn dropped_shift(&mut self) {
        self.begun_shift();
        if self.random.chance(20) {
            self.ignored();
        } else {
            let at = self.bytes.len();
            self.dropping();
            // A designation in between begins with ESC, which drops too.
            debug_assert!(self.bytes[at] < 0x20);
        }
    }

    fn dropped_sequence(&mut self) {
        self.begun_sequence();
        self.dropping();
    }

    /// An escape sequence without an effect.
    fn ignored(&mut self) {
        match self.random.below(4) {
            0 => {
                let ranges = [(0x30, 0x3F), (0x60, 0x6D), (0x70, 0x7F)];
                let (low, high) = self.random.pick(&ranges);
                let last = self.random.byte(low, high);
                self.escape(&[last]);
            }
            1 => {
                let second = self.random.pick(&[0x20, 0x21, 0x23, 0x24, 0x27, 0x2C]);
                let last = self.random.byte(0x30, 0x7F);
                self.escape(&[second, last]);
            }
            2 => {
                let second = self
                    .random
                    .pick(&[0x28, 0x29, 0x2A, 0x2B, 0x2D, 0x2E, 0x2F]);
                let last = self
                    .random
                    .pick(&[0x30, 0x40, 0x41, 0x45, 0x5F, 0x6E, 0x7E, 0x7F]);
                self.escape(&[second, last]);
            }
            _ => {
                self.put(ESC);
                for _ in 0..self.random.range(2, 4) {
                    let byte = self.random.byte(0x20, 0x2F);
                    self.put(byte);
                }
                let last = self.random.byte(0x30, 0x7F);
                self.put(last);
            }
        }
    }

    /// An escape sequence that closes the open command.
    fn close_sequence(&mut self) {
        let last = self.random.byte(0x45, 0x5F);
        self.escape(&[last]);
    }

    fn noise(&mut self) {
        for _ in 0..self.random.range(1, 40) {
            if self.random.below(60) == 0 {
                self.position();
                continue;
            }
            let byte = match self.random.below(10) {
                0 => self.random.byte(0x00, 0x06),
                1 => self.recorded_control(),
                2 => self.random.pick(&[0x0E, 0x0F, 0x19, 0x1D]),
                3..=5 => self.random.byte(0x20, 0x3F),
                _ => self.random.byte(0x20, 0x7F),
            };
            self.put(byte);
        }
        self.sets.in_use = None;
        self.shifts();
    }

    // Text.

    fn text(&mut self) {
        if self.random.chance(20) {
            self.domain();
        }
        let (first, second) = (self.random.byte(0x40, 0x7F), self.random.byte(0x40, 0x7F));
        self.use_pdi();
        self.put(0x22);
        let bytes = self.random.pick(&[0, 1, 2, 2, 2, 2, 2, 2, 2, 2]);
        self.bytes.extend(&[first, second][..bytes]);
        if bytes == 2 && self.random.chance(75) {
            let (dx, dy) = (self.extent(), self.extent());
            self.field(dx, dy);
            self.after_field();
        }
    }

    /// The field is cut, or more than the field comes.
    fn after_field(&mut self) {
        match self.random.below(10) {
            0 | 1 => {
                let cut = self.random.range(1, self.multi);
                self.bytes.truncate(self.bytes.len() - cut);
            }
            2 => {
                let count = self.random.range(1, 5);
                self.data(count);
            }
            _ => {}
        }
    }

    /// One side of a character field, as a signed number of units.
    fn extent(&mut self) -> i32 {
        let extent = match self.random.below(12) {
            0 => 0,
            1 => 256 * self.random.range(1, 3) as i64,
            2 => SIDE,
            3 => SIDE - 256,
            4 => self.random.range(1 << 29, SIDE as usize) as i64,
            5 => self.random.bits() as u32 as i32 as i64,
            6..=8 => SIDE >> self.random.range(1, 6),
            _ => SIDE / self.random.range(8, 200) as i64,
        };
        let negative = extent == SIDE || self.random.chance(25);
        if negative {
            -extent as i32
        } else {
            extent as i32
        }
    }

    /// A multi-value operand with these coordinates, as far as its bits go.
    fn field(&mut self, dx: i32, dy: i32) {
        let bits = if self.three_dimensions { 2 } else { 3 };
        for place in 1..=self.multi as u32 {
            let part = |side: i32| (side as u32 >> (32 - bits * place)) as u8 & ((1 << bits) - 1);
            let rest = match self.three_dimensions {
                true => self.random.byte(0, 3),
                false => 0,
            };
            self.put(0x40 | part(dx) << (6 - bits) | part(dy) << (6 - 2 * bits) | rest);
        }
    }

    /// Characters, mostly enough to fill lines.
    fn lines(&mut self) {
        let set = self
            .random
            .pick(&[PRIMARY, PRIMARY, MOSAIC, DRCS, SUPPLEMENTARY]);
        self.use_set(set);
        let count = self.random.pick(&[10, 26, 41, 90]);
        self.codes(count);
        if self.random.chance(50) {
            self.effectors();
        }
    }

    /// A line from its first place to its last, and feeds after it.
    fn full_line(&mut self) {
        let line = match self.random.chance(30) {
            true => self.default_line(),
            false => self.wide_line(),
        };
        let count = line + self.random.pick(&[0, 1, 1, 1, 1, 2]) - 1;
        let tabs = self.random.pick(&[0, 0, 50, 100]);
        self.use_set(PRIMARY);
        for _ in 0..count {
            match self.random.chance(tabs) {
                true => self.put(APF),
                false => self.put(b'a'),
            }
        }
        self.feeds();
    }

    /// The default field at the beginning of a row; answers how many
    /// characters fill it.
    fn default_line(&mut self) -> usize {
        let row = self.random.byte(0x40, 0x5F);
        self.bytes.extend([NSR, row, 0x40]);
        self.reset();
        40
    }

    /// A field that is a large part of the screen, at the first place of its
    /// path; answers how many characters fill the line.
    fn wide_line(&mut self) -> usize {
        let (first, second) = (self.random.byte(0x40, 0x7F), self.random.byte(0x40, 0x7F));
        let bits = if self.three_dimensions { 2 } else { 3 };
        let least = (bits * self.multi - 1).min(4);
        let (width, height) = (self.random.range(1, least), self.random.range(1, least));
        self.use_set(PDI);
        self.bytes.extend([0x22, first, second]);
        self.field((SIDE >> width) as i32, (SIDE >> height) as i32);
        self.put(APR);
        // Whether the path is upright, and whether the field is turned.
        let along = match (first & 8 != 0) != (first & 1 != 0) {
            true => height,
            false => width,
        };
        let spacing = [4, 5, 6, 4][usize::from(first >> 4 & 3)];
        let places = 4 * ((1 << along) - 1) / spacing;
        places + 1
    }

    /// Returns and feeds after a full line, sometimes with things between.
    fn feeds(&mut self) {
        let feeds = self.random.pick(&FEEDS);
        let between = self.random.pick(&[0, 30, 50]);
        for &feed in feeds {
            if self.random.chance(between) {
                self.between_feeds();
            }
            self.put(feed);
        }
        if self.random.chance(50) {
            self.use_set(PRIMARY);
            self.put(b'z');
        }
    }

    fn between_feeds(&mut self) {
        match self.random.below(12) {
            0 => self.idle(),
            1 => self.put(0x07),
            2 => self.control(),
            3 => self.accent(),
            4 => self.command(),
            5 => self.text(),
            6 => self.set_colour(),
            7 => self.domain(),
            8 => self.call_any(),
            9 => self.lock_any(),
            10 => {
                self.use_set(PRIMARY);
                self.put(0x7F);
            }
            _ => {
                let effector = self.random.pick(&EFFECTORS);
                self.put(effector);
            }
        }
    }

    fn effectors(&mut self) {
        if self.random.chance(30) {
            self.feeds();
            return;
        }
        // One kind repeated, or all sorts.
        let one = self.random.pick(&EFFECTORS);
        let alike = self.random.chance(30);
        for _ in 0..self.random.pick(&[1, 1, 2, 3, 6, 30]) {
            let any = self.random.pick(&EFFECTORS);
            self.put(if alike { one } else { any });
        }
    }

    fn accent(&mut self) {
        self.shift_to(SUPPLEMENTARY);
        let accent = self.random.byte(0x40, 0x4F);
        self.put(accent);
    }

    /// Accents by single shifts, or among other characters of their set.
    fn accents(&mut self) {
        if self.random.chance(50) {
            self.use_set(PRIMARY);
            for _ in 0..self.random.range(1, 6) {
                self.accent();
                let letters = self.random.range(0, 2);
                self.codes(letters);
            }
        } else {
            self.use_set(SUPPLEMENTARY);
            for _ in 0..self.random.range(1, 50) {
                let code = self.random.byte(0x3C, 0x54);
                self.put(code);
            }
        }
    }

    /// Drawing and text by turns.
    fn captions(&mut self) {
        if self.random.chance(80) {
            self.text();
        }
        for _ in 0..self.random.range(1, 5) {
            match self.random.below(4) {
                0 => self.polygon(),
                1 => self.any_opcode(),
                _ => self.command(),
            }
            match self.random.below(6) {
                0 => self.effectors(),
                1 => self.accent(),
                2 => self.position(),
                _ => self.characters(),
            }
        }
    }

    /// APS or NSR; seldom with a byte that is refused.
    fn position(&mut self) {
        let control = self.random.pick(&[APS, APS, NSR]);
        self.put(control);
        if control == NSR {
            self.reset();
        }
        for _ in 0..2 {
            let byte = self.address();
            self.put(byte);
        }
    }

    /// A row or column byte.
    fn address(&mut self) -> u8 {
        match self.random.below(400) {
            0 => self.random.byte(0x00, 0x3F),
            1..=250 => self.random.byte(0x40, 0x60),
            _ => self.random.byte(0x40, 0x7F),
        }
    }

    /// What NSR resets.
    fn reset(&mut self) {
        self.sets = FRESH;
        (self.single, self.multi, self.three_dimensions) = (1, 3, false);
        self.shifts();
    }

    /// APS or NSR that begins in a body, in the innermost of two if there are
    /// two names for them, and goes on wherever bytes come from next.
    fn position_by_macro(&mut self) {
        if self.writing.is_some() {
            return;
        }
        let control = self.random.pick(&[APS, NSR]);
        let position = [control, self.address(), self.address()];
        let inner = self.random.range(1, 3);
        let outer = self.random.range(inner, 3);
        let count = self.random.range(1, 2);
        let names = self.ladder(count);
        let mut callee = None;
        for &name in &names {
            let part = match callee {
                None => 0..inner,
                Some(_) => inner..outer,
            };
            self.define_name(name, |body| body.part_of_position(callee, &position[part]));
            callee = Some(name);
        }
        self.designate(2, MACRO);
        let Some(outermost) = callee else {
            return;
        };
        self.bytes.extend([SINGLE_SHIFTS[0], outermost]);
        let read = if names.len() == 1 { inner } else { outer };
        self.bytes.extend(&position[read..]);
        self.sets = UNKNOWN;
        // A CAN before the NSR keeps it from being read.
        if control == NSR && !self.is_cancelling(outermost) {
            self.reset();
        }
    }

    /// A body that calls another, then has some bytes of a position.
    fn part_of_position(&mut self, callee: Option<u8>, part: &[u8]) {
        match callee {
            Some(callee) => self.call_by_g2(callee),
            None => self.body_items(1),
        }
        self.bytes.extend(part);
    }

    // Macros.

    fn any_name(&mut self) -> u8 {
        match self.random.chance(70) {
            true => self.random.byte(0x20, 0x30),
            false => self.random.byte(0x20, 0x7F),
        }
    }

    fn level_of(&self, name: u8) -> u8 {
        self.levels[usize::from(name - 0x20)]
    }

    /// Steps that a call of a name takes.
    fn cost(&self, name: u8) -> usize {
        let body = &self.bodies[usize::from(name - 0x20)];
        body.calls.iter().fold(body.length, |sum, &callee| {
            if sum > CALL_STEPS {
                sum
            } else {
                sum + self.cost(callee)
            }
        })
    }

    /// Whether a call of a name reaches a body that shifts.
    fn is_shifting(&self, name: u8) -> bool {
        let body = &self.bodies[usize::from(name - 0x20)];
        body.shifts || body.calls.iter().any(|&callee| self.is_shifting(callee))
    }

    /// Whether a call of a name may reach a CAN.
    fn is_cancelling(&self, name: u8) -> bool {
        let body = &self.bodies[usize::from(name - 0x20)];
        body.cancels || body.calls.iter().any(|&callee| self.is_cancelling(callee))
    }

    fn call_any(&mut self) {
        for _ in 0..self.random.pick(&[1, 1, 2, 4]) {
            let name = self.any_name();
            if self.level_of(name) < self.level && self.cost(name) < CALL_STEPS {
                self.call(name);
            }
        }
    }

    fn call(&mut self, name: u8) {
        let shifting = self.is_shifting(name);
        if self.random.chance(75) {
            // A body may count on the set that its caller designated.
            let trusting = self.writing.is_some() && self.random.chance(40);
            if trusting {
                self.put(SINGLE_SHIFTS[0]);
            } else {
                self.shift_to(MACRO);
            }
        } else {
            self.use_set(MACRO);
        }
        self.put(name);
        if let Some(body) = &mut self.writing {
            body.calls.push(name);
        }
        if shifting {
            self.sets = UNKNOWN;
        }
    }

    /// A call in a body whose caller made G2 the macro set.
    fn call_by_g2(&mut self, name: u8) {
        self.bytes.extend([SINGLE_SHIFTS[0], name]);
        if let Some(body) = &mut self.writing {
            body.calls.push(name);
        }
    }

    /// Writes a definition of `name`; the body is what `write` puts.
    fn define_name(&mut self, name: u8, write: impl FnOnce(&mut Self)) {
        self.define_body(name, write);
        if self.random.chance(85) {
            self.escape(&[0x45]);
        } else {
            // The next definition ends this one.
            let next = self.any_name();
            self.define_body(next, |body| body.body_items(1));
            self.escape(&[0x45]);
        }
    }

    fn define_body(&mut self, name: u8, write: impl FnOnce(&mut Self)) {
        self.escape(&[0x40, name]);
        let index = usize::from(name - 0x20);
        self.cells -= self.bodies[index].length.div_ceil(CELL);
        self.bodies[index] = Body::default();

        let outside = std::mem::take(&mut self.bytes);
        let (sets, lengths) = (self.sets, self.lengths());
        self.writing = Some(Body::default());
        self.level = self.level_of(name);
        self.sets = UNKNOWN;
        write(self);
        let mut body = self.writing.take().unwrap_or_default();
        self.level = LEVELS;
        self.sets = sets;
        (self.single, self.multi, self.three_dimensions) = lengths;
        let mut bytes = std::mem::replace(&mut self.bytes, outside);

        bytes.truncate((CELLS - self.cells) * CELL);
        keep_whole(&mut bytes);
        body.length = bytes.len();
        body.cancels = bytes.contains(&CAN);
        self.cells += bytes.len().div_ceil(CELL);
        self.bodies[index] = body;
        self.bytes.extend_from_slice(&bytes);
    }

    fn lengths(&self) -> (usize, usize, bool) {
        (self.single, self.multi, self.three_dimensions)
    }

    fn body_items(&mut self, most: usize) {
        const ITEMS: &[Item] = &[
            Interrupted,
            Command,
            Command,
            Polygon,
            SelectColour,
            SetColour,
            CutColour,
            Domain,
            StrayData,
            Characters,
            Text,
            Effectors,
            Accents,
            Position,
            Control,
            Idle,
            Designate,
            Ignored,
            DroppedSequence,
            LockingShift,
            SingleShift,
            DroppedShift,
            CloseSequence,
            Cancel,
            Call,
            Call,
            Call,
            Noise,
        ];
        for _ in 0..self.random.range(0, most) {
            let item = self.random.pick(ITEMS);
            self.item(item);
        }
    }

    fn define(&mut self) {
        let name = self.any_name();
        match self.random.below(10) {
            0 => self.define_name(name, |_| ()),
            1 => {
                let length = self.random.pick(&[1, 29, 30, 31, 59, 60, 61, 90, 400]);
                self.define_name(name, |body| body.data(length));
            }
            2 => {
                let length = self.random.range(1, 10);
                self.define_name(name, |body| body.data(length));
            }
            3 => self.define_name(name, |body| {
                // ESC ESC, and an ESC that the body ends with.
                body.body_items(1);
                body.escape(&[ESC, 0x46]);
                body.body_items(1);
            }),
            _ => self.define_name(name, |body| body.body_items(4)),
        }
    }

    /// Fills much of the store, then defines some names again.
    fn define_many(&mut self) {
        for _ in 0..self.random.range(3, 14) {
            let name = self.any_name();
            let length = self.random.range(1, 1500);
            self.define_name(name, |body| body.data(length));
        }
    }

    /// Names of rising level, the lowest first.
    fn ladder(&mut self, count: usize) -> Vec<u8> {
        let mut names: Vec<u8> = Vec::new();
        for level in 0..LEVELS {
            let of_level: Vec<u8> = (0x20..0x80)
                .filter(|&n| self.level_of(n) == level)
                .collect();
            if !of_level.is_empty() {
                names.push(self.random.pick(&of_level));
            }
        }
        while names.len() > count {
            let out = self.random.below(names.len());
            names.remove(out);
        }
        names
    }

    /// Bodies nested up to eight deep, and the outermost called.
    fn chain(&mut self) {
        if self.writing.is_some() {
            return;
        }
        let depth = self.random.range(1, 8);
        self.nest(depth);
    }

    fn nest(&mut self, depth: usize) {
        let names = self.ladder(depth);
        self.define_nested(&names, None);
        self.call_outermost(&names);
    }

    /// Bodies that each call the one before; the one at `cancelling` has a CAN.
    fn define_nested(&mut self, names: &[u8], cancelling: Option<usize>) {
        // How often a body has bytes left when it calls.
        let left = self.random.pick(&[0, 50, 100]);
        let mut callee = None;
        for (at, &name) in names.iter().enumerate() {
            let called_by_cancelling = cancelling == Some(at + 1);
            self.define_name(name, |body| {
                body.nested_call(callee);
                if cancelling == Some(at) {
                    body.cancel();
                    body.unread(names);
                }
                if body.random.chance(left) {
                    body.data(1);
                }
                if called_by_cancelling && body.random.chance(30) {
                    body.waiting();
                }
            });
            callee = Some(name);
        }
    }

    /// Some data and a call, or for the innermost body mostly more data.
    fn nested_call(&mut self, callee: Option<u8>) {
        if self.random.chance(30) {
            let count = self.random.range(0, 5);
            self.data(count);
        }
        match callee {
            Some(callee) => self.call_by_g2(callee),
            None if self.random.chance(70) => self.data(6),
            None => {}
        }
    }

    /// Calls the outermost of nested bodies, mostly while a command is open or
    /// characters are read.
    fn call_outermost(&mut self, names: &[u8]) {
        let set = self.random.pick(&[PDI, PDI, PDI, PRIMARY, MOSAIC]);
        self.use_beside_macros(set);
        if self.random.chance(70) {
            match set {
                PDI => self.command(),
                _ => self.codes(2),
            }
        }
        if let Some(&outermost) = names.last() {
            self.bytes.extend([SINGLE_SHIFTS[0], outermost]);
            self.sets = UNKNOWN;
        }
    }

    // CANs.

    /// A CAN, mostly with something before it that it drops or closes.
    fn cancel(&mut self) {
        match self.random.below(8) {
            0..=4 => self.waiting(),
            5 => self.begun_operand(),
            6 => self.characters(),
            _ => {}
        }
        self.put(CAN);
    }

    /// A command whose last operand is mostly begun.
    fn begun_operand(&mut self) {
        self.command();
        let begun = self.random.below(self.multi);
        self.data(begun);
    }

    /// Bodies nested up to eight deep that are all left by a CAN, mostly of
    /// the innermost; called again, their depth counts from 0.
    fn cancelled_chain(&mut self) {
        if self.writing.is_some() {
            return;
        }
        let depth = self.random.range(1, 8);
        let names = self.ladder(depth);
        let cancelling = match self.random.chance(70) {
            true => 0,
            false => self.random.below(names.len()),
        };
        self.define_nested(&names, Some(cancelling));
        for _ in 0..self.random.range(1, 3) {
            self.call_outermost(&names);
        }
    }

    /// What a body has after its CAN: nothing, anything, what would be refused
    /// if it were read, or a call of one of `names`, the body's own among them.
    fn unread(&mut self, names: &[u8]) {
        match self.random.below(5) {
            0 => self.body_items(2),
            1 => {
                let count = self.random.range(1, 40);
                self.data(count);
            }
            2 => self.bytes.extend([APS, 0x20]),
            3 => {
                let name = self.random.pick(names);
                self.bytes.extend([SINGLE_SHIFTS[0], name]);
            }
            _ => {}
        }
    }

    /// A command whose operands come from a macro.
    fn operands_by_macro(&mut self) {
        if self.writing.is_some() {
            return;
        }
        let name = self.any_name();
        let length = self.random.range(1, 40);
        self.define_name(name, |body| body.data(length));
        self.designate(2, MACRO);
        self.command();
        for _ in 0..self.random.range(1, 4) {
            self.put(SINGLE_SHIFTS[0]);
            self.put(name);
            let count = self.random.below(4);
            self.data(count);
        }
    }

    /// A body that ends in a shift or an escape, which the page goes on with.
    fn pending_at_end(&mut self) {
        let name = self.any_name();
        let ends: [&[u8]; 5] = [&[0x19], &[0x1D], &[ESC], &[ESC, 0x28], &[ESC, 0x2A]];
        let end = self.random.pick(&ends);
        self.define_name(name, |body| {
            body.body_items(1);
            body.bytes.extend_from_slice(end);
        });
        self.designate(2, MACRO);
        self.put(SINGLE_SHIFTS[0]);
        self.put(name);
        let next = self
            .random
            .pick(&[0x46, 0x42, 0x57, 0x7A, 0x6E, 0x24, 0x26, 0x0E, 0x20, CAN]);
        self.put(next);
        self.sets = UNKNOWN;
    }

    // Refusals.

    /// Something that is refused, if what stands before lets it be read.
    fn refusal(&mut self) {
        match self.random.range(3, 10) {
            3 => self.refused_byte(),
            4 => {
                let any = self.random.byte(0x00, 0x1F);
                let name = self.random.pick(&[CAN, any, any, any]);
                self.escape(&[0x40, name]);
            }
            5 => self.refused_code(),
            6 => self.definition_in_body(),
            7 => self.store_full(),
            8 => self.too_deep(),
            9 => self.too_many_vertices(),
            _ => self.unfinished(),
        }
    }

    fn refused_byte(&mut self) {
        if self.random.chance(30) {
            let name = self.any_name();
            self.escape(&[0x40, name, 0x41]);
        }
        if self.random.chance(20) {
            self.begun_position();
        }
        let byte = self.random.byte(0x80, 0xFF);
        self.put(byte);
    }

    fn refused_code(&mut self) {
        let last = self.random.byte(0x41, 0x44);
        let name = self.any_name();
        match self.random.below(5) {
            0 => self.escape(&[last]),
            1 => self.escape(&[0x40, name, 0x41, ESC, last]),
            2 => {
                self.begun_position();
                self.refused_address();
            }
            3 => {
                self.escape(&[0x40, name]);
                self.begun_position();
                self.refused_address();
                self.escape(&[0x45]);
                self.shift_to(MACRO);
                self.put(name);
            }
            _ => {
                self.escape(&[0x40, name]);
                self.begun_position();
                self.escape(&[0x45]);
                self.shift_to(MACRO);
                self.put(name);
                self.refused_address();
            }
        }
    }

    /// APS or NSR, without its column byte or without both.
    fn begun_position(&mut self) {
        let control = self.random.pick(&[APS, NSR]);
        self.put(control);
        if self.random.chance(50) {
            let row = self.random.byte(0x40, 0x7F);
            self.put(row);
        }
    }

    /// A row or column byte below 4/0.
    fn refused_address(&mut self) {
        let any = self.random.byte(0x00, 0x3F);
        let byte = self
            .random
            .pick(&[0x00, CAN, ESC, APS, 0x3F, any, any, any]);
        self.put(byte);
    }

    /// A body that ends in ESC is called by one that goes on with 4/0.
    fn definition_in_body(&mut self) {
        let (ending, calling) = (0x21, 0x22);
        self.escape(&[0x40, ending, ESC, ESC, 0x45]);
        self.escape(&[0x40, calling, SINGLE_SHIFTS[0], ending, 0x40, ESC, 0x45]);
        self.designate(2, MACRO);
        self.put(SINGLE_SHIFTS[0]);
        self.put(calling);
    }

    fn store_full(&mut self) {
        let name = self.any_name();
        self.escape(&[0x40, name]);
        let fill = self.random.pick(&[0, 1, 2, 29]);
        let kept = self.bodies[usize::from(name - 0x20)].length.div_ceil(CELL);
        let free = (CELLS - (self.cells - kept)) * CELL;
        self.data(free.saturating_sub(fill));
        let odd = self.random.chance(50);
        for _ in 0..20 {
            let byte = self.random.byte(0x20, 0x7F);
            match odd {
                true => self.escape(&[0x46]),
                false => self.put(byte),
            }
        }
    }

    fn too_deep(&mut self) {
        if self.random.chance(40) {
            let name = self.any_name();
            self.escape(&[0x40, name, SINGLE_SHIFTS[0], name, ESC, 0x45]);
            self.designate(2, MACRO);
            self.put(SINGLE_SHIFTS[0]);
            self.put(name);
        } else {
            let depth = self.random.range(9, 11);
            self.nest(depth);
        }
    }

    fn too_many_vertices(&mut self) {
        let length = self.random.pick(&[1, 2, 3]);
        let cut = self.random.below(length);
        self.polygon_of(usize::from(MOST_VERTICES) + 1, length, cut);
        if self.random.chance(60) {
            self.control();
        }
    }

    fn unfinished(&mut self) {
        let name = self.any_name();
        let ends: [&[u8]; 10] = [
            &[ESC],
            &[ESC, 0x28],
            &[ESC, 0x40],
            &[ESC, 0x40, name],
            &[ESC, 0x40, name, 0x41],
            &[ESC, 0x40, name, ESC],
            &[APS],
            &[APS, 0x40],
            &[NSR],
            &[NSR, 0x7F],
        ];
        let end = self.random.pick(&ends);
        self.bytes.extend_from_slice(end);
    }
}

/// Keeps a body free of the sequences that would end it or be refused.
fn keep_whole(body: &mut [u8]) {
    for at in 1..body.len() {
        if body[at - 1] == ESC && (0x40..=0x45).contains(&body[at]) {
            body[at] = 0x46;
        }
    }
}

fn items_of(theme: Theme) -> &'static [Item] {
    match theme {
        Theme::Everything => EVERYTHING,
        Theme::Drawing => DRAWING,
        Theme::Macros => MACROS,
        Theme::Coding => CODING,
        Theme::Store => STORE_ITEMS,
        Theme::Polygons => POLYGONS,
        Theme::Text => TEXT,
        Theme::Noise => NOISE,
    }
}

#[cfg(test)]
mod tests {
    use super::*;
    use crate::listing::listing;
    use crate::session::tests::depths_of_cancels;

    #[test]
    fn the_seed_and_number_decide_the_page() {
        assert_eq!(page(1, 7), page(1, 7));
        assert_ne!(page(1, 7), page(1, 8));
        assert_ne!(page(1, 7), page(2, 7));
    }

    #[test]
    fn most_pages_are_accepted_and_each_refusal_is_met() {
        let mut met = [0; 16];
        for number in 0..2000 {
            met[last_number(&page(1, number)) as usize] += 1;
        }
        assert!(met[0] > 1500, "{met:?}");
        for refusal in 3..=10 {
            assert!(met[refusal] > 0, "{met:?}");
        }
    }

    /// The vertices of a page's longest polygon, counted by its records.
    fn most_vertices(page: &[u8]) -> usize {
        let text = String::from_utf8(listing(page)).unwrap();
        let (mut vertices, mut most) = (1, 1);
        for line in text.lines() {
            vertices = match ["5 0 ", "5 1 ", "5 2 ", "5 3 "].contains(&&line[..4]) {
                true => vertices + 1,
                false => 1,
            };
            most = most.max(vertices);
        }
        most
    }

    #[test]
    fn text_is_common() {
        let pages: Vec<String> = (0..2000)
            .map(|number| String::from_utf8(listing(&page(1, number))).unwrap())
            .collect();
        // The kind and code of TEXT, APS and NSR, and of each format effector.
        let codes = [(9, 0x22), (7, APS), (7, NSR)].into_iter();
        for (kind, code) in codes.chain(EFFECTORS.map(|code| (7, code))) {
            let has = |line: &str| {
                let mut fields = line.split(' ').map(str::parse);
                fields.next() == Some(Ok(kind)) && fields.nth(6) == Some(Ok(code))
            };
            let found = pages.iter().filter(|page| page.lines().any(has)).count();
            assert!(found > 200, "{found} pages with kind {kind}, code {code}");
        }
    }

    #[test]
    fn cancels_are_common_at_every_depth() {
        let mut pages = [0; 9];
        for number in 0..2000 {
            let depths = depths_of_cancels(&page(1, number));
            for (depth, found) in pages.iter_mut().enumerate() {
                *found += usize::from(depths.contains(&depth));
            }
        }
        assert!(pages.iter().all(|&found| found > 20), "{pages:?}");
    }

    #[test]
    fn long_polygons_are_common() {
        let most: Vec<usize> = (0..2000)
            .map(|number| most_vertices(&page(1, number)))
            .collect();
        for range in [255..=260, 410..=412] {
            let pages = most
                .iter()
                .filter(|vertices| range.contains(*vertices))
                .count();
            assert!(pages > 40, "{pages} pages of {range:?} vertices");
        }
    }
}
