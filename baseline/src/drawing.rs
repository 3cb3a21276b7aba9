//! The open command: its operands, what they draw, and its closing.

use crate::coding::Set;
use crate::colour::Colours;
use crate::command::{Place, Role, TEXT};
use crate::operand::{colour_bits, is_data, Layout};
use crate::record::{fields, fill, header, Kind, Output, Point, CLOSING, WRAPPED};
use crate::text::{Effector, Ink, Positioning, Text};
use crate::Number;

/// Vertices of a polygon, its start included (02, 1/13).
pub(crate) const MOST_VERTICES: u16 = 412;

/// The lengths at first.
const FIRST_LAYOUT: Layout = Layout {
    length: 3,
    three_dimensions: false,
};
const FIRST_SINGLE: u8 = 1;

/// Domain, colours, text, drawing point and the open command.
#[derive(Clone, Debug, PartialEq, Eq)]
pub struct Drawing {
    /// The drawing point.
    point: Point,
    /// Whether it was moved since the cursor last followed it. Following is
    /// absolute, so it can wait until the cursor is asked for.
    moved: bool,
    text: Text,
    layout: Layout,
    /// Single-value length, 1 to 4.
    single: u8,
    pel: Point,
    pub colours: Colours,
    /// Whether a command is open, and the place in its pattern.
    open: bool,
    place: Place,
    /// The role at that place; `Ignore` with no command open.
    role: Role,
    /// Bytes of the begun operand and their bits.
    begun: u8,
    operand: u64,
    /// Start of the open arc or polygon.
    start: Point,
    /// Middle of the open arc, and whether its sum left the range.
    middle: Point,
    wrapped: bool,
    /// Vertices of the open polygon; zero before the first displacement.
    vertices: u16,
}

impl Drawing {
    pub fn new() -> Self {
        Drawing {
            point: Point::default(),
            moved: false,
            text: Text::new(),
            layout: FIRST_LAYOUT,
            single: FIRST_SINGLE,
            pel: Point::default(),
            colours: Colours::new(),
            open: false,
            place: Place::start(0),
            role: Role::Ignore,
            begun: 0,
            operand: 0,
            start: Point::default(),
            middle: Point::default(),
            wrapped: false,
            vertices: 0,
        }
    }

    pub fn is_open(&self) -> bool {
        self.open
    }

    /// Reads opcodes and data from the front of the input, as far as they go
    /// on and there is room.
    pub fn commands(&mut self, input: &mut &[u8], output: &mut Output) -> Result<(), Number> {
        while let Some(&byte @ 0x20..=0x7F) = input.first() {
            if !output.has_room() {
                break;
            }
            if is_data(byte) {
                self.data(input, output)?;
            } else {
                self.open(byte, output)?;
                *input = &input[1..];
            }
        }
        Ok(())
    }

    /// Closes the open command and opens another.
    #[inline]
    fn open(&mut self, opcode: u8, output: &mut Output) -> Result<(), Number> {
        self.close(output)?;
        self.open = true;
        self.place = Place::start(opcode);
        self.role = self.place.role();
        self.vertices = 0;
        if self.place.row().recorded {
            // TEXT changes what following means.
            self.follow();
            self.write_code(Kind::Opcode, opcode, output);
        }
        Ok(())
    }

    /// Closes the open command, if there is one: completes a begun operand
    /// with zero bits and applies it, then ends the figure.
    #[inline]
    pub fn close(&mut self, output: &mut Output) -> Result<(), Number> {
        if !self.open {
            return Ok(());
        }
        self.close_open(output)
    }

    fn close_open(&mut self, output: &mut Output) -> Result<(), Number> {
        if self.begun > 0 {
            if self.at_vertex_limit() {
                return Err(Number::TooManyVertices);
            }
            self.complete(output);
        }
        match self.role {
            Role::ArcEnd => self.finish_arc(self.start, self.wrapped, output),
            Role::Edge if self.vertices > 0 => {
                let flags = CLOSING | self.filled();
                self.write(Kind::Edge, flags, [self.point, self.start], output);
                self.move_to(self.start);
            }
            // SELECT COLOUR without an operand.
            Role::Foreground => self.colours.select_direct(),
            _ if self.place.opcode == TEXT => self.close_text(),
            _ => {}
        }
        self.open = false;
        self.role = Role::Ignore;
        Ok(())
    }

    /// Reads data bytes from the front of the input, as far as they go on and
    /// there is room; at least one if the input starts with data.
    #[inline]
    fn data(&mut self, input: &mut &[u8], output: &mut Output) -> Result<(), Number> {
        match self.role {
            Role::Ignore => {
                let run = input.iter().take_while(|&&byte| is_data(byte)).count();
                *input = &input[run..];
                Ok(())
            }
            Role::Lengths
            | Role::TextFirst
            | Role::TextSecond
            | Role::Foreground
            | Role::Background
            | Role::Colour => {
                self.value_byte(input[0], output);
                *input = &input[1..];
                Ok(())
            }
            _ => self.points(input, output),
        }
    }

    /// Reads point operands while they come and there is room.
    fn points(&mut self, input: &mut &[u8], output: &mut Output) -> Result<(), Number> {
        loop {
            if self.begun == 0 {
                self.whole_points(input, output);
            }
            // What is left: an operand that does not lie in one piece.
            loop {
                if !output.has_room() || self.role == Role::Ignore {
                    return Ok(());
                }
                match input.split_first() {
                    Some((&byte, rest)) if is_data(byte) => {
                        self.point_byte(byte, output)?;
                        *input = rest;
                    }
                    _ => return Ok(()),
                }
                if self.begun == 0 {
                    break;
                }
            }
        }
    }

    /// Reads the point operands that lie in one piece.
    #[inline]
    fn whole_points(&mut self, input: &mut &[u8], output: &mut Output) {
        match self.layout.length {
            1 => self.points_of::<1>(input, output),
            2 => self.points_of::<2>(input, output),
            3 => self.points_of::<3>(input, output),
            4 => self.points_of::<4>(input, output),
            5 => self.points_of::<5>(input, output),
            6 => self.points_of::<6>(input, output),
            7 => self.points_of::<7>(input, output),
            _ => self.points_of::<8>(input, output),
        }
    }

    /// Reads the operands of N bytes, those of one repeated role in a loop of
    /// their own.
    fn points_of<const N: usize>(&mut self, input: &mut &[u8], output: &mut Output) {
        match self.role {
            Role::MoveTo => self.moves::<N>(false, input),
            Role::MoveBy => self.moves::<N>(true, input),
            Role::LineTo if self.repeats() => self.lines::<N>(false, input, output),
            Role::LineBy if self.repeats() => self.lines::<N>(true, input, output),
            _ => self.any_points::<N>(input, output),
        }
    }

    /// Moves, which need no room.
    #[inline]
    fn moves<const N: usize>(&mut self, relative: bool, input: &mut &[u8]) {
        let (layout, mut point, mut rest) = (self.layout, self.point, *input);
        while let Some((bytes, after)) = rest.split_first_chunk::<N>() {
            let Some(operand) = layout.gather(bytes) else {
                break;
            };
            point = point.base(relative).plus(Point::unpack(operand)).0;
            rest = after;
        }
        if rest.len() < input.len() {
            self.move_to(point);
            *input = rest;
        }
    }

    /// Lines, one a step while there is room.
    #[inline]
    fn lines<const N: usize>(&mut self, relative: bool, input: &mut &[u8], output: &mut Output) {
        let (layout, pel, mut point) = (self.layout, self.pel, self.point);
        let line = header(Kind::Line, 0, self.colours.paint());
        let mut read = 0;
        let operands = input.as_chunks::<N>().0;
        for (slot, bytes) in output.slots().iter_mut().zip(operands) {
            let Some(operand) = layout.gather(bytes) else {
                break;
            };
            let (to, wrapped) = point.base(relative).plus(Point::unpack(operand));
            let header = line | u64::from(wrapped_flag(wrapped)) << 8;
            fill(slot, header, &fields([point, to, Point::default()], pel));
            point = to;
            read += 1;
        }
        if read > 0 {
            self.move_to(point);
            output.advance(read);
            *input = &input[read * N..];
        }
    }

    /// Operands of any roles, while there is room.
    #[inline]
    fn any_points<const N: usize>(&mut self, input: &mut &[u8], output: &mut Output) {
        let layout = self.layout;
        while let Some((bytes, rest)) = input.split_first_chunk::<N>() {
            let Some(operand) = layout.gather(bytes) else {
                return;
            };
            if !output.has_room() || self.role == Role::Ignore || self.at_vertex_limit() {
                return;
            }
            self.apply_point(Point::unpack(operand), output);
            *input = rest;
        }
    }

    /// Whether the pattern is this one role.
    #[inline]
    fn repeats(&self) -> bool {
        self.place.next() == self.place
    }

    /// One byte of a point operand that does not lie in one piece.
    fn point_byte(&mut self, byte: u8, output: &mut Output) -> Result<(), Number> {
        let completes = self.begun + 1 == self.layout.length;
        if completes && self.at_vertex_limit() {
            return Err(Number::TooManyVertices);
        }
        self.operand |= self.layout.bits(byte, self.begun);
        self.begun += 1;
        if completes {
            self.complete(output);
        }
        Ok(())
    }

    /// One byte of an operand that is no point.
    fn value_byte(&mut self, byte: u8, output: &mut Output) {
        let length = match self.role {
            Role::Lengths | Role::TextFirst | Role::TextSecond => 1,
            Role::Colour => self.layout.length,
            _ => self.single,
        };
        if self.role == Role::Colour {
            self.operand |= colour_bits(byte, self.begun);
        } else if self.begun == 0 {
            self.operand = u64::from(byte);
        }
        self.begun += 1;
        if self.begun == length {
            self.complete(output);
        }
    }

    /// Whether one more displacement would be vertex 413.
    #[inline]
    fn at_vertex_limit(&self) -> bool {
        self.role == Role::Edge && self.vertices == MOST_VERTICES
    }

    /// Applies the begun operand as it is.
    fn complete(&mut self, output: &mut Output) {
        let operand = self.operand;
        self.begun = 0;
        self.operand = 0;
        match self.role {
            Role::Lengths => self.set_lengths(operand as u8),
            Role::TextFirst => self.text.set_first(operand as u8),
            Role::TextSecond => self.text.set_second(operand as u8),
            Role::Foreground => self.colours.select_foreground(address(operand)),
            Role::Background => self.colours.select_background(address(operand)),
            Role::Colour => self.set_colour(operand, output),
            _ => return self.apply_point(Point::unpack(operand), output),
        }
        self.advance();
    }

    /// Goes on to the next role of the pattern.
    #[inline]
    fn advance(&mut self) {
        self.place = self.place.next();
        self.role = self.place.role();
    }

    /// The fill flag of the open command.
    #[inline]
    fn filled(&self) -> u8 {
        self.place.row().filled
    }

    /// Applies a point operand in its role and goes on to the next.
    #[inline(never)]
    fn apply_point(&mut self, operand: Point, output: &mut Output) {
        let from = self.point;
        match self.role {
            Role::Start | Role::MoveTo => self.move_to(operand),
            Role::MoveBy => self.move_to(from.plus(operand).0),
            Role::PointAt => {
                self.move_to(operand);
                self.write(Kind::Point, 0, [operand, Point::default()], output);
            }
            Role::PointBy => {
                let flags = self.move_by(operand);
                self.write(Kind::Point, flags, [self.point, Point::default()], output);
            }
            Role::LineTo => {
                self.move_to(operand);
                self.write(Kind::Line, 0, [from, operand], output);
            }
            Role::LineBy => {
                let flags = self.move_by(operand);
                self.write(Kind::Line, flags, [from, self.point], output);
            }
            Role::ArcMiddle => {
                self.start = from;
                (self.middle, self.wrapped) = from.plus(operand);
                self.move_to(self.middle);
            }
            Role::ArcEnd => {
                let (end, wrapped) = from.plus(operand);
                self.finish_arc(end, wrapped | self.wrapped, output);
            }
            Role::Rectangle => self.rectangle(operand, output),
            Role::Edge => self.edge(operand, output),
            Role::Pel => self.pel = operand,
            Role::Field => self.text.set_field(operand),
            // No points; data and complete keep them apart.
            Role::Ignore | Role::Lengths | Role::TextFirst | Role::TextSecond => {}
            Role::Foreground | Role::Background | Role::Colour => {}
        }
        self.advance();
    }

    /// Moves the drawing point; the cursor is to follow.
    #[inline]
    fn move_to(&mut self, to: Point) {
        self.point = to;
        self.moved = true;
    }

    /// Moves the drawing point; answers flag 2 if the sum left the range.
    #[inline]
    fn move_by(&mut self, by: Point) -> u8 {
        let (to, wrapped) = self.point.plus(by);
        self.move_to(to);
        wrapped_flag(wrapped)
    }

    fn finish_arc(&mut self, end: Point, wrapped: bool, output: &mut Output) {
        let flags = self.filled() | wrapped_flag(wrapped);
        let header = header(Kind::Arc, flags, self.colours.paint());
        output.push(header, [self.start, self.middle, end], self.pel);
        self.move_to(end);
    }

    fn rectangle(&mut self, by: Point, output: &mut Output) {
        let from = self.point;
        let (to, wrapped) = from.plus(by);
        let flags = self.filled() | wrapped_flag(wrapped);
        self.write(Kind::Rectangle, flags, [from, to], output);
        // The point moves by dx only.
        self.move_to(Point { x: to.x, ..from });
    }

    fn edge(&mut self, by: Point, output: &mut Output) {
        let from = self.point;
        if self.vertices == 0 {
            self.start = from;
            self.vertices = 1;
        }
        self.vertices += 1;
        let flags = self.move_by(by) | self.filled();
        self.write(Kind::Edge, flags, [from, self.point], output);
    }

    /// The first byte of DOMAIN.
    fn set_lengths(&mut self, byte: u8) {
        self.single = (byte & 3) + 1;
        self.layout = Layout {
            length: (byte >> 2 & 7) + 1,
            three_dimensions: byte & 0x20 != 0,
        };
    }

    /// SET COLOUR; the map's entry is written as a record.
    fn set_colour(&mut self, operand: u64, output: &mut Output) {
        let [b, r, g, ..] = operand.to_le_bytes();
        if self.colours.set([g, r, b]) {
            let green_red = Point {
                x: i32::from(g),
                y: i32::from(r),
            };
            let blue = Point {
                x: i32::from(b),
                y: 0,
            };
            self.write(Kind::MapEntry, 0, [green_red, blue], output);
        }
    }

    #[inline]
    fn write(&self, kind: Kind, flags: u8, points: [Point; 2], output: &mut Output) {
        let header = header(kind, flags, self.colours.paint());
        output.push(header, [points[0], points[1], Point::default()], self.pel);
    }

    /// Writes a control or opcode.
    pub fn write_code(&self, kind: Kind, code: u8, output: &mut Output) {
        let header = header(kind, 0, self.colours.paint()) | u64::from(code) << 56;
        output.push(
            header,
            [self.point, Point::default(), Point::default()],
            self.pel,
        );
    }

    // Text.

    /// The cursor follows the drawing point, if that was moved.
    #[inline]
    fn follow(&mut self) {
        if self.moved {
            self.moved = false;
            self.text.follow(self.point);
        }
    }

    /// The drawing point is aligned with the cursor, which was set.
    #[inline]
    fn align(&mut self) {
        if let Some(point) = self.text.aligned() {
            self.point = point;
        }
    }

    /// The closing of TEXT; bytes that are missing count as zero.
    #[inline(never)]
    fn close_text(&mut self) {
        if self.role == Role::TextFirst {
            self.text.set_first(0);
        }
        if matches!(self.role, Role::TextFirst | Role::TextSecond) {
            self.text.set_second(0);
        }
        self.text.close();
        self.align();
    }

    /// Carries out a format effector whose record is written.
    #[inline(never)]
    pub fn format(&mut self, effector: Effector) {
        self.follow();
        if self.text.act(effector) {
            self.align();
        }
    }

    /// APS or NSR, whose record is written, before the row byte.
    pub fn begin_position(&mut self, by: Positioning) {
        self.follow();
        if by == Positioning::Nsr {
            self.layout = FIRST_LAYOUT;
            self.single = FIRST_SINGLE;
            self.pel = Point::default();
            self.colours.reset();
            self.text.reset();
        }
    }

    /// The column byte of APS or NSR.
    pub fn position(&mut self, by: Positioning, row: u8, column: u8) {
        self.text.position(by, row, column);
        self.align();
    }

    /// Writes characters of a set, one a step while they go on and there is
    /// room; the first in a step that has found it.
    pub fn characters(&mut self, set: Set, input: &mut &[u8], output: &mut Output) {
        self.follow();
        let ink = Ink {
            header: header(Kind::Character, 0, self.colours.paint()) | (set as u64) << 48,
            pel: self.pel,
        };
        let (written, advanced) = self.text.write(set, ink, input, output.slots_in_step());
        output.advance(written);
        *input = &input[written..];
        if advanced {
            self.align();
        }
    }
}

/// The map address in the first byte of a single-value operand.
fn address(operand: u64) -> u8 {
    operand as u8 >> 2 & 15
}

#[inline]
fn wrapped_flag(wrapped: bool) -> u8 {
    if wrapped {
        WRAPPED
    } else {
        0
    }
}
