//! The session: where a page stands between two calls, and the steps.

use crate::coding::{
    designated, designated_set, two_byte_final, Coding, Control, Final, Set, CONTROLS, DEFINE,
    END_DEFINITION, ESC, FIRST_SETS, G,
};
use crate::colour::Grb;
use crate::drawing::Drawing;
use crate::operand::is_data;
use crate::record::{Kind, Output};
use crate::store::{self, Cells, Filling, Place};
use crate::text::Positioning;
use crate::{Answer, Number};

/// Nested bodies.
const MOST_DEPTH: usize = 8;
/// Macro names, 2/0 to 7/15.
const NAMES: usize = 96;

#[derive(Clone, Copy, Debug, PartialEq, Eq)]
enum Status {
    Running,
    /// Repeats its number.
    Stopped(Number),
    Ended,
}

/// What comes after a step that was accepted.
enum Pause {
    /// Nothing has changed for the next step.
    Go,
    /// A macro name was read whose body starts in this cell.
    Call(u8),
    /// A definition was opened.
    Define,
    /// A CAN was read, which ends every running body.
    Cancel,
}

/// A page being read.
#[derive(Clone, Debug, PartialEq, Eq)]
pub struct Session {
    status: Status,
    budget: u32,
    steps: u32,
    sets: [Set; 4],
    in_use: G,
    coding: Coding,
    drawing: Drawing,
    /// The first cell of each name's body, zero for an empty body.
    bodies: [u8; NAMES],
    /// The running bodies, innermost last, and their number.
    stack: [Place; MOST_DEPTH],
    depth: usize,
    /// The name being defined (counted from 2/0) and the last cell filled.
    name: u8,
    last: u8,
}

impl Session {
    pub(crate) fn open(store: &mut [u8], budget: u32) -> (Session, Number) {
        let mut session = Session {
            status: Status::Running,
            budget,
            steps: 0,
            sets: FIRST_SETS,
            in_use: 0,
            coding: Coding::Plain,
            drawing: Drawing::new(),
            bodies: [0; NAMES],
            stack: [Place::default(); MOST_DEPTH],
            depth: 0,
            name: 0,
            last: 0,
        };
        match store::cells_mut(store) {
            Some(cells) => {
                store::clear(cells);
                (session, Number::Done)
            }
            None => {
                session.status = Status::Stopped(Number::StoreSize);
                (session, Number::StoreSize)
            }
        }
    }

    /// Steps taken so far.
    pub fn steps(&self) -> u32 {
        self.steps
    }

    pub(crate) fn colour(&self, address: u8) -> (Number, Grb) {
        match self.drawing.colours.entry(address) {
            Some(colour) => (Number::Done, colour),
            None => (Number::Address, [0; 3]),
        }
    }

    pub(crate) fn feed(&mut self, store: &mut [u8], piece: &[u8], output: &mut [u8]) -> Answer {
        let Some(cells) = store::cells_mut(store) else {
            return unread(Number::StoreSize);
        };
        if let Err(number) = self.ready() {
            return unread(number);
        }
        let mut output = Output::new(output);
        let mut rest = piece;
        let number = match self.read(cells, &mut rest, &mut output) {
            Ok(number) => number,
            Err(number) => self.stop(number),
        };
        Answer {
            number,
            consumed: piece.len() - rest.len(),
            written: output.written(),
        }
    }

    pub(crate) fn end(&mut self, store: &[u8], output: &mut [u8]) -> Answer {
        let Some(cells) = store::cells(store) else {
            return unread(Number::StoreSize);
        };
        if let Err(number) = self.ready() {
            return unread(number);
        }
        if self.running().iter().any(|place| place.has_left(cells)) {
            return unread(Number::BodyLeft);
        }
        let mut output = Output::new(output);
        let number = match self.finish(&mut output) {
            Ok(number) => number,
            Err(number) => self.stop(number),
        };
        Answer {
            number,
            consumed: 0,
            written: output.written(),
        }
    }

    /// Whether a call may go on.
    fn ready(&self) -> Result<(), Number> {
        match self.status {
            Status::Running => Ok(()),
            Status::Stopped(number) => Err(number),
            Status::Ended => Err(Number::AfterEnd),
        }
    }

    fn stop(&mut self, number: Number) -> Number {
        self.status = Status::Stopped(number);
        number
    }

    fn running(&self) -> &[Place] {
        &self.stack[..self.depth]
    }

    /// Closes the open command for end.
    fn finish(&mut self, output: &mut Output) -> Result<Number, Number> {
        match self.coding {
            Coding::Plain | Coding::Shifted(_) => {}
            _ => return Err(Number::Unfinished),
        }
        if self.drawing.is_open() {
            if !output.has_room() {
                return Ok(Number::Full);
            }
            self.drawing.close(output)?;
        }
        self.status = Status::Ended;
        Ok(Number::Done)
    }

    /// Takes steps until nothing is left, the output is full or a step is
    /// refused. Each turn of the loop reads from one stretch of bytes: the
    /// piece, or what is left of a body's cell.
    fn read(
        &mut self,
        cells: &mut Cells,
        piece: &mut &[u8],
        output: &mut Output,
    ) -> Result<Number, Number> {
        loop {
            self.remove_spent(cells);
            if self.depth == 0 && piece.is_empty() {
                return Ok(Number::Done);
            }
            if !output.has_room() {
                return Ok(Number::Full);
            }
            if self.steps == self.budget {
                return Err(Number::BudgetUsed);
            }
            if self.depth > 0 {
                self.read_body(cells, output)?;
            } else if self.coding.is_definition() {
                self.read_piece(piece, |session, input| session.define(cells, input))?;
            } else {
                self.read_piece(piece, |session, input| {
                    session.interpret(input, false, output)
                })?;
            }
        }
    }

    /// Removes innermost bodies while they have no bytes left.
    #[inline]
    fn remove_spent(&mut self, cells: &Cells) {
        while let Some(innermost) = self.running().last() {
            if innermost.has_left(cells) {
                return;
            }
            self.depth -= 1;
        }
    }

    /// The front of `bytes` that the budget allows to be read.
    #[inline]
    fn within_budget<'a>(&self, bytes: &'a [u8]) -> &'a [u8] {
        let left = (self.budget - self.steps) as usize;
        &bytes[..bytes.len().min(left)]
    }

    /// Reads from the piece, counting the steps and passing what was read.
    #[inline]
    fn read_piece(
        &mut self,
        piece: &mut &[u8],
        steps: impl FnOnce(&mut Session, &mut &[u8]) -> Result<Pause, Number>,
    ) -> Result<(), Number> {
        let allowed = self.within_budget(piece);
        let mut input = allowed;
        let outcome = steps(self, &mut input);
        let read = allowed.len() - input.len();
        *piece = &piece[read..];
        self.steps += read as u32;
        self.after(outcome?);
        Ok(())
    }

    /// Reads from the cell that the innermost body is in or moves on to.
    #[inline]
    fn read_body(&mut self, cells: &Cells, output: &mut Output) -> Result<(), Number> {
        let innermost = self.depth - 1;
        let (place, bytes) = self.stack[innermost].seek(cells)?;
        let allowed = self.within_budget(bytes);
        let mut input = allowed;
        let outcome = self.interpret(&mut input, true, output);
        let read = allowed.len() - input.len();
        if read > 0 {
            self.stack[innermost] = Place {
                cell: place.cell,
                read: place.read + read as u8,
            };
        }
        self.steps += read as u32;
        self.after(outcome?);
        Ok(())
    }

    /// Puts a called body on the stack, its name read in the last step, which
    /// has tested the depth; or leaves all bodies after a CAN.
    #[inline]
    fn after(&mut self, pause: Pause) {
        match pause {
            Pause::Go | Pause::Define => {}
            Pause::Call(cell) => {
                self.stack[self.depth] = Place { cell, read: 0 };
                self.depth += 1;
            }
            Pause::Cancel => self.depth = 0,
        }
    }

    /// Takes steps outside a definition. A refused step leaves its byte in
    /// the input.
    fn interpret(
        &mut self,
        input: &mut &[u8],
        from_body: bool,
        output: &mut Output,
    ) -> Result<Pause, Number> {
        while let Some(&byte) = input.first() {
            if !output.has_room() {
                break;
            }
            let pause = match byte {
                0x00..=0x1F => self.control(input, output)?,
                0x20..=0x7F => match self.coding {
                    Coding::Plain => {
                        let set = self.sets[usize::from(self.in_use)];
                        self.graphic(set, input, output)?
                    }
                    Coding::Shifted(g) => self.shifted(g, input, output)?,
                    Coding::Row(_) | Coding::Column(..) => self.position(input)?,
                    _ => self.escape(input, from_body, output)?,
                },
                _ => return Err(Number::ByteOver127),
            };
            match pause {
                Pause::Go => {}
                pause => return Ok(pause),
            }
        }
        Ok(Pause::Go)
    }

    /// A byte of columns 0 and 1, which drops a pending shift or sequence.
    #[inline]
    fn control(&mut self, input: &mut &[u8], output: &mut Output) -> Result<Pause, Number> {
        if self.coding.is_position() {
            return Err(Number::Unsupported);
        }
        let byte = input[0];
        let mut coding = Coding::Plain;
        let mut pause = Pause::Go;
        match CONTROLS[usize::from(byte & 31)] {
            Control::Nothing => {}
            Control::LockingShift(g) => self.in_use = g,
            Control::SingleShift(g) => coding = Coding::Shifted(g),
            Control::Escape => coding = Coding::Escape,
            Control::Recorded => self.recorded(byte, output)?,
            Control::Cancel => {
                self.recorded(byte, output)?;
                pause = Pause::Cancel;
            }
            Control::Format(effector) => {
                self.recorded(byte, output)?;
                self.drawing.format(effector);
            }
            Control::Position(by) => {
                self.recorded(byte, output)?;
                self.begin_position(by);
                coding = Coding::Row(by);
            }
        }
        self.coding = coding;
        *input = &input[1..];
        Ok(pause)
    }

    /// Closes the open command and writes the record of a control.
    #[inline]
    fn recorded(&mut self, byte: u8, output: &mut Output) -> Result<(), Number> {
        self.drawing.close(output)?;
        self.drawing.write_code(Kind::Control, byte, output);
        Ok(())
    }

    /// APS or NSR, before its row byte; NSR resets.
    #[inline(never)]
    fn begin_position(&mut self, by: Positioning) {
        self.drawing.begin_position(by);
        if by == Positioning::Nsr {
            self.sets = FIRST_SETS;
            self.in_use = 0;
        }
    }

    /// A row or column byte of columns 2 to 7, read raw.
    #[inline(never)]
    fn position(&mut self, input: &mut &[u8]) -> Result<Pause, Number> {
        let byte = input[0];
        if !is_data(byte) {
            return Err(Number::Unsupported);
        }
        self.coding = match self.coding {
            Coding::Row(by) => Coding::Column(by, byte),
            Coding::Column(by, row) => {
                self.drawing.position(by, row, byte);
                Coding::Plain
            }
            other => other,
        };
        *input = &input[1..];
        Ok(Pause::Go)
    }

    /// The byte after a single shift.
    fn shifted(&mut self, g: G, input: &mut &[u8], output: &mut Output) -> Result<Pause, Number> {
        let mut one = &input[..1];
        let pause = self.graphic(self.sets[usize::from(g)], &mut one, output)?;
        self.coding = Coding::Plain;
        *input = &input[1..];
        Ok(pause)
    }

    /// A byte of columns 2 to 7 in an escape sequence.
    fn escape(
        &mut self,
        input: &mut &[u8],
        from_body: bool,
        output: &mut Output,
    ) -> Result<Pause, Number> {
        let byte = input[0];
        let mut pause = Pause::Go;
        self.coding = match (self.coding, byte) {
            (Coding::Escape, 0x20..=0x2F) => Coding::Designate(designated(byte)),
            (_, 0x20..=0x2F) => Coding::Designate(None),
            (Coding::Designate(g), _) => {
                if let (Some(g), Some(set)) = (g, designated_set(byte)) {
                    self.sets[usize::from(g)] = set;
                }
                Coding::Plain
            }
            _ => match two_byte_final(byte) {
                Final::Define if from_body => return Err(Number::DefinitionInBody),
                Final::Define => {
                    pause = Pause::Define;
                    Coding::Name
                }
                Final::Refused => return Err(Number::Unsupported),
                Final::Close => {
                    self.drawing.close(output)?;
                    Coding::Plain
                }
                Final::LockingShift(g) => {
                    self.in_use = g;
                    Coding::Plain
                }
                Final::Ignored => Coding::Plain,
            },
        };
        *input = &input[1..];
        Ok(pause)
    }

    /// Bytes of columns 2 to 7 read from a set, as far as they go on alike.
    #[inline]
    fn graphic(
        &mut self,
        set: Set,
        input: &mut &[u8],
        output: &mut Output,
    ) -> Result<Pause, Number> {
        match set {
            Set::Pdi => self.drawing.commands(input, output)?,
            Set::Macro => return self.call(input),
            Set::Primary | Set::Supplementary | Set::Mosaic | Set::Drcs => {
                self.characters(set, input, output)?
            }
        }
        Ok(Pause::Go)
    }

    /// Characters of a set. The first closes the open command.
    #[inline(never)]
    fn characters(
        &mut self,
        set: Set,
        input: &mut &[u8],
        output: &mut Output,
    ) -> Result<(), Number> {
        if set.has(input[0]) {
            self.drawing.close(output)?;
            self.drawing.characters(set, input, output);
        } else {
            *input = &input[1..];
        }
        Ok(())
    }

    /// Macro names. An empty body would be removed before the next step, so
    /// it is tested for depth and passed over.
    #[inline]
    fn call(&mut self, input: &mut &[u8]) -> Result<Pause, Number> {
        if self.depth == MOST_DEPTH {
            return Err(Number::TooDeep);
        }
        while let Some((&name @ 0x20..=0x7F, rest)) = input.split_first() {
            *input = rest;
            let cell = self.bodies[usize::from(name - 0x20)];
            if cell != 0 {
                return Ok(Pause::Call(cell));
            }
        }
        Ok(Pause::Go)
    }

    /// Takes steps inside a definition; they are all read from the piece.
    fn define(&mut self, cells: &mut Cells, input: &mut &[u8]) -> Result<Pause, Number> {
        while let Some(&byte) = input.first() {
            if byte > 127 {
                return Err(Number::ByteOver127);
            }
            match self.coding {
                Coding::Name => self.define_name(cells, byte)?,
                Coding::Body if byte != ESC => {
                    let read = self.fill_run(cells, input)?;
                    *input = &input[read..];
                    continue;
                }
                Coding::Body => self.coding = Coding::BodyEscape,
                Coding::BodyEscape => self.define_escape(cells, byte)?,
                _ => break,
            }
            *input = &input[1..];
        }
        Ok(Pause::Go)
    }

    /// The name to be defined; its old body is freed.
    fn define_name(&mut self, cells: &mut Cells, byte: u8) -> Result<(), Number> {
        if byte < 0x20 {
            return Err(Number::NameBelow);
        }
        let name = byte - 0x20;
        let body = &mut self.bodies[usize::from(name)];
        store::free(cells, *body)?;
        *body = 0;
        self.name = name;
        self.last = 0;
        self.coding = Coding::Body;
        Ok(())
    }

    /// The byte after an ESC that is held.
    fn define_escape(&mut self, cells: &mut Cells, byte: u8) -> Result<(), Number> {
        self.coding = match byte {
            END_DEFINITION => Coding::Plain,
            DEFINE => Coding::Name,
            0x41..=0x44 => return Err(Number::Unsupported),
            ESC => {
                self.fill(|body| body.append(cells, &[ESC]))?;
                Coding::BodyEscape
            }
            _ => {
                self.fill(|body| body.append(cells, &[ESC, byte]))?;
                Coding::Body
            }
        };
        Ok(())
    }

    /// Stores bytes up to an ESC or a byte over 127, as far as a cell goes.
    fn fill_run(&mut self, cells: &mut Cells, input: &[u8]) -> Result<usize, Number> {
        self.fill(|body| {
            let room = body.room_for_run(cells)?;
            let run = &input[..input.len().min(room)];
            let end = run.iter().position(|&byte| byte == ESC || byte > 127);
            let run = &run[..end.unwrap_or(run.len())];
            body.append_run(cells, run);
            Ok(run.len())
        })
    }

    /// Changes the body being filled.
    fn fill<T>(
        &mut self,
        change: impl FnOnce(&mut Filling) -> Result<T, Number>,
    ) -> Result<T, Number> {
        let first = &mut self.bodies[usize::from(self.name)];
        let mut filling = Filling {
            first: *first,
            last: self.last,
        };
        let outcome = change(&mut filling);
        *first = filling.first;
        self.last = filling.last;
        outcome
    }
}

/// The answer of a call that reads and writes nothing.
fn unread(number: Number) -> Answer {
    Answer {
        number,
        consumed: 0,
        written: 0,
    }
}

#[cfg(test)]
pub(crate) mod tests {
    use super::*;
    use crate::{RECORD, ROOM, STORE};

    const CAN: u8 = 0x18;

    /// The depths at which a page's CANs are carried out, found by reading it
    /// one step at a time.
    pub(crate) fn depths_of_cancels(page: &[u8]) -> Vec<usize> {
        let mut store = [0; STORE];
        let (mut session, _) = Session::open(&mut store, 0);
        let mut output = [0; ROOM];
        let mut rest = page;
        let mut depths = Vec::new();
        loop {
            session.status = Status::Running;
            session.budget += 1;
            session.remove_spent(store::cells(&store).expect("a store of the right size"));
            let depth = session.depth;
            let answer = session.feed(&mut store, rest, &mut output);
            rest = answer.rest(rest);
            let (records, _) = output[..answer.written].as_chunks::<RECORD>();
            if records.last().is_some_and(is_cancel) {
                depths.push(depth);
            }
            match answer.number {
                Number::Full | Number::BudgetUsed => {}
                _ => return depths,
            }
        }
    }

    fn is_cancel(record: &[u8; RECORD]) -> bool {
        record[0] == Kind::Control as u8 && record[7] == CAN
    }

    #[test]
    fn no_can_is_read_in_a_body_left() {
        // The first body begins with a CAN; each other calls the one before.
        let mut page = vec![27, 42, 122, 27, 64, 33, CAN, CAN, 27, 69];
        for name in 33..=40 {
            page.extend([25, name, 25, name]);
            page.extend([27, 64, name + 1, 25, name, CAN, 27, 69]);
        }
        page.push(CAN);
        let expected: Vec<usize> = (1..=8).flat_map(|depth| [depth, depth]).collect();
        assert_eq!(depths_of_cancels(&page), [&expected[..], &[0]].concat());
    }
}
