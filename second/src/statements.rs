//! Statements: their form once read, and how they are read.

use crate::bodies::{Bodies, Given, Uses};
use crate::bounds::{MAX_ARGUMENT, MAX_DEPTH, MAX_TURNS};
use crate::data::{Cursor, Form, Item, Piece};
use crate::hex::{Base, Length};
use crate::names::NameTable;
use crate::numbers::decimal;
use crate::pinset::PinSet;
use crate::reader::Reader;
use crate::refusal::*;
use crate::signals::{List, Pins};
use crate::timing::Timing;
use crate::tokens::Token;

/// A range in one of the program's arrays.
#[derive(Clone, Copy, Debug, Default)]
pub struct Range {
    pub first: u32,
    pub end: u32,
}

impl Range {
    pub fn of<T>(self, array: &[T]) -> &[T] {
        &array[self.first as usize..self.end as usize]
    }
}

/// Size and cycles; sums stay at the largest number, above every bound.
#[derive(Clone, Copy, Debug, Default)]
pub struct Extent {
    pub size: u64,
    pub cycles: u64,
}

impl Extent {
    pub fn add(&mut self, other: Extent) {
        self.size = self.size.saturating_add(other.size);
        self.cycles = self.cycles.saturating_add(other.cycles);
    }

    /// One statement around a body played `turns` times.
    fn around(self, turns: u64) -> Extent {
        Extent { size: self.size.saturating_add(1), cycles: self.cycles.saturating_mul(turns) }
    }
}

#[derive(Clone, Copy, Debug)]
pub struct Assign {
    pub list: List,
    pub set: PinSet,
    /// Where its characters, one for each signal, stand in `Program::chars`.
    pub chars: u32,
    pub uses_arguments: bool,
}

#[derive(Clone, Copy, Debug)]
pub struct Argument {
    pub pin: u8,
    first_piece: u32,
    /// Characters in front that are dropped, all of the first piece.
    dropped: u32,
}

impl Argument {
    /// Where its first character stands.
    pub fn start(&self) -> Cursor {
        Cursor { piece: self.first_piece, offset: self.dropped }
    }
}

#[derive(Clone, Copy, Debug)]
pub enum Act {
    Vector {
        place: u32,
        assigns: Range,
    },
    Condition {
        assigns: Range,
    },
    Table(u8),
    Loop {
        turns: u32,
        turn_cycles: u64,
    },
    /// Its V is the next statement; how often it plays is said where the body is used.
    Shift,
    Macro(Use),
    Call(Use),
    /// `X NAME;`, a place that fail reports refer to.
    Mark(Token),
}

#[derive(Clone, Copy, Debug)]
pub struct Use {
    pub body: u8,
    pub shifts: u32,
    pub arguments: Range,
}

/// A statement stands before those in it; `next` is the one after all of them.
#[derive(Clone, Copy, Debug)]
pub struct Statement {
    pub act: Act,
    pub extent: Extent,
    pub next: u32,
}

/// All statements in the order of the text, and what they refer to.
#[derive(Default)]
pub struct Program {
    pub statements: Vec<Statement>,
    pub assigns: Vec<Assign>,
    pub chars: Vec<u8>,
    pub arguments: Vec<Argument>,
    pub pieces: Vec<Piece>,
}

impl Program {
    fn here(&self) -> u32 {
        self.statements.len() as u32
    }

    fn push(&mut self, act: Act, extent: Extent) {
        let next = self.here() + 1;
        self.statements.push(Statement { act, extent, next });
    }

    /// Keeps the place of a Loop or Shift, which stands before what is in it.
    fn open(&mut self) -> u32 {
        self.push(Act::Shift, Extent::default());
        self.here() - 1
    }

    /// Fills that place once what is in it has been read.
    fn close(&mut self, at: u32, act: Act, extent: Extent) {
        self.statements[at as usize] = Statement { act, extent, next: self.here() };
    }
}

/// Reads the statements of one body.
pub struct BodyReader<'r, 't> {
    pub reader: &'r mut Reader<'t>,
    pub pins: &'r Pins,
    pub timing: &'r Timing,
    pub bodies: &'r Bodies,
    pub program: &'r mut Program,
    /// A macro's or procedure's body, where Shift and `#` may stand.
    pub takes_arguments: bool,
    /// The patterns' name space, in a pattern alone: X names are declared there.
    pub marks: Option<&'r mut NameTable>,
    pub uses: Uses,
    pub depth: usize,
    pub has_shift: bool,
}

impl BodyReader<'_, '_> {
    /// Statements up to and with the closing brace, `level` Loops deep.
    pub fn block(&mut self, level: usize) -> Answer<Extent> {
        let mut sum = Extent::default();
        while !self.reader.is(b'}') {
            let extent = self.statement(level)?;
            sum.add(extent);
        }
        self.reader.take();
        Ok(sum)
    }

    fn statement(&mut self, level: usize) -> Answer<Extent> {
        match self.reader.word() {
            b"V" => self.vector(level, false),
            b"C" => self.condition(),
            b"W" => self.table(),
            b"Loop" => self.repeat(level),
            b"Macro" | b"Call" => self.body_use(level),
            b"X" => self.mark(),
            b"Shift" if self.takes_arguments && level == 0 && !self.has_shift => self.shift(),
            _ => Err(self.reader.refuse(TOKEN_NOT_ALLOWED)),
        }
    }

    fn vector(&mut self, level: usize, in_shift: bool) -> Answer<Extent> {
        let place = self.reader.take().place;
        let hash = if self.takes_arguments && level == 0 { Hash::Taken { in_shift } } else { Hash::Misplaced };
        let assigns = self.assignments(hash)?;
        let extent = Extent { size: 1, cycles: 1 };
        self.program.push(Act::Vector { place, assigns }, extent);
        Ok(extent)
    }

    fn condition(&mut self) -> Answer<Extent> {
        self.reader.take();
        let assigns = self.assignments(Hash::Misplaced)?;
        let extent = Extent { size: 1, cycles: 0 };
        self.program.push(Act::Condition { assigns }, extent);
        Ok(extent)
    }

    fn table(&mut self) -> Answer<Extent> {
        self.reader.take();
        let (table, _) = self.reader.known(&self.timing.names)?;
        self.reader.byte(b';')?;
        let extent = Extent { size: 1, cycles: 0 };
        self.program.push(Act::Table(table as u8), extent);
        Ok(extent)
    }

    fn mark(&mut self) -> Answer<Extent> {
        let names = match &mut self.marks {
            Some(names) => names,
            None => return Err(self.reader.refuse(TOKEN_NOT_ALLOWED)),
        };
        self.reader.take();
        let name = self.reader.new_name(names, false)?;
        self.reader.byte(b';')?;
        names.add(self.reader.text, name);
        let extent = Extent { size: 1, cycles: 0 };
        self.program.push(Act::Mark(name), extent);
        Ok(extent)
    }

    fn deepen(&mut self, depth: usize, token: Token) -> Answer<()> {
        self.depth = self.depth.max(depth);
        if depth > MAX_DEPTH {
            Err(token.refuse(TOO_DEEP))
        } else {
            Ok(())
        }
    }

    fn repeat(&mut self, level: usize) -> Answer<Extent> {
        let word = self.reader.take();
        self.deepen(level + 1, word)?;
        let turns = self.reader.number(decimal, 1, MAX_TURNS)?;
        self.reader.byte(b'{')?;
        let at = self.program.open();
        let turn = self.block(level + 1)?;
        let extent = turn.around(turns);
        let act = Act::Loop { turns: turns as u32, turn_cycles: turn.cycles };
        self.program.close(at, act, extent);
        Ok(extent)
    }

    /// Its cycles are counted where the body is used.
    fn shift(&mut self) -> Answer<Extent> {
        let word = self.reader.take();
        self.has_shift = true;
        self.deepen(1, word)?;
        self.reader.byte(b'{')?;
        if !self.reader.is_fixed(b"V") {
            return Err(self.reader.refuse(TOKEN_NOT_ALLOWED));
        }
        let at = self.program.open();
        let turn = self.vector(0, true)?;
        let close = self.reader.byte(b'}')?;
        if self.uses.in_shift.is_empty() {
            return Err(close.refuse(BAD_ARGUMENT));
        }
        let extent = turn.around(0);
        self.program.close(at, Act::Shift, extent);
        Ok(extent)
    }

    fn body_use(&mut self, level: usize) -> Answer<Extent> {
        let is_macro = self.reader.take().first == b'M';
        let bodies = self.bodies;
        let space = if is_macro { &bodies.macros } else { &bodies.procedures };
        let (index, name) = self.reader.known(&space.names)?;
        let which = space.first + index;
        let body = &bodies.bodies[which];
        self.deepen(level + 1 + body.depth, name)?;
        let first = self.program.arguments.len() as u32;
        let shifts = self.arguments(&body.uses)?;
        let arguments = Range { first, end: self.program.arguments.len() as u32 };
        let used = Use { body: which as u8, shifts, arguments };
        let mut extent = body.extent.around(1);
        extent.cycles = extent.cycles.saturating_add(shifts.into());
        self.program.push(if is_macro { Act::Macro(used) } else { Act::Call(used) }, extent);
        Ok(extent)
    }
}

/// What a `#` in V or C data is.
#[derive(Clone, Copy)]
enum Hash {
    Taken { in_shift: bool },
    Misplaced,
}

impl BodyReader<'_, '_> {
    /// `{ NAME = DATA; .. }` of a V or C.
    fn assignments(&mut self, hash: Hash) -> Answer<Range> {
        let first = self.program.assigns.len() as u32;
        let mut assigned = PinSet::EMPTY;
        self.reader.byte(b'{')?;
        while !self.reader.is(b'}') {
            let name = self.assigned_name(&mut assigned)?.0;
            self.reader.byte(b'=')?;
            let assign = self.assignment_data(name, hash)?;
            self.program.assigns.push(assign);
        }
        self.reader.take();
        Ok(Range { first, end: self.program.assigns.len() as u32 })
    }

    /// A signal or group none of whose signals this statement names twice.
    fn assigned_name(&mut self, assigned: &mut PinSet) -> Answer<(usize, Token)> {
        let (name, token) = self.reader.known(&self.pins.names)?;
        let set = self.pins.set(name);
        if assigned.meets(set) {
            return Err(token.refuse(BAD_DATA));
        }
        assigned.add(set);
        Ok((name, token))
    }

    fn assignment_data(&mut self, name: usize, hash: Hash) -> Answer<Assign> {
        let (list, set) = (self.pins.list(name), *self.pins.set(name));
        let due = u64::from(list.length);
        let base = self.pins.based(name).map(|based| based.base);
        let most = due + base.map_or(0, |base| u64::from(base.worth()) - 1);
        let start = self.program.chars.len();
        let (mut form, mut length) = (Form::of(base), Length::default());
        let mut uses_arguments = false;
        loop {
            match form.item(self.reader)? {
                Item::Word(piece) => {
                    // No more are spelled out than are due or dropped: a further surplus is only counted.
                    piece.spell(self.reader.text, most.saturating_sub(length.all), &mut self.program.chars);
                    length.add(&piece);
                }
                Item::Hash(token) => {
                    let hash = if form.takes_hash(length.of_hex) { hash } else { Hash::Misplaced };
                    self.take_hash(token, list, length.all, hash)?;
                    uses_arguments = true;
                    length.all += 1;
                }
                Item::End(end) => {
                    let zeros = || self.zeros(&self.program.chars[start..], base);
                    let dropped = length.surplus(due, base.as_ref(), zeros).ok_or_else(|| end.refuse(BAD_DATA))?;
                    return Ok(Assign { list, set, chars: start as u32 + dropped as u32, uses_arguments });
                }
            }
        }
    }

    /// How many of these characters in front are the first listed.
    fn zeros(&self, chars: &[u8], base: Option<Base>) -> u64 {
        let is_zero = |&&character: &&u8| base.map_or(false, |base| base.is_zero(character));
        chars.iter().take_while(is_zero).count() as u64
    }

    /// Beyond the name's signals a `#` is no use of any; the length is then refused.
    fn take_hash(&mut self, token: Token, list: List, position: u64, hash: Hash) -> Answer<()> {
        let in_shift = match hash {
            Hash::Taken { in_shift } => in_shift,
            Hash::Misplaced => return Err(token.refuse(BAD_ARGUMENT)),
        };
        if let Some(&pin) = self.pins.members(list).get(position as usize) {
            self.uses.note(pin, in_shift);
            self.program.chars.push(b'#');
        }
        Ok(())
    }

    /// What stands after a used name: `;` or arguments. Gives how often the Shift plays.
    fn arguments(&mut self, uses: &Uses) -> Answer<u32> {
        let mut given = Given::new();
        let mut last = self.reader.take();
        match last.first {
            b';' => {}
            b'{' => {
                let mut assigned = PinSet::EMPTY;
                while !self.reader.is(b'}') {
                    self.argument(uses, &mut assigned, &mut given)?;
                }
                last = self.reader.take();
            }
            _ => return Err(last.refuse(TOKEN_NOT_ALLOWED)),
        }
        uses.turns(&given).ok_or_else(|| last.refuse(BAD_ARGUMENT))
    }

    fn argument(&mut self, uses: &Uses, assigned: &mut PinSet, given: &mut Given) -> Answer<()> {
        let (name, token) = self.assigned_name(assigned)?;
        let pin = match *self.pins.members(self.pins.list(name)) {
            [pin] if uses.anywhere.contains(pin) => pin,
            _ => return Err(token.refuse(BAD_ARGUMENT)),
        };
        self.reader.byte(b'=')?;
        let first_piece = self.program.pieces.len() as u32;
        let based = self.pins.based(name);
        let (mut form, mut length) = (Form::of(based.map(|based| based.base)), Length::default());
        let end = loop {
            match form.item(self.reader)? {
                Item::Word(piece) => {
                    self.program.pieces.push(piece);
                    length.add(&piece);
                }
                Item::Hash(token) => return Err(token.refuse(BAD_ARGUMENT)),
                Item::End(end) => break end,
            }
        };
        let due = based.and_then(|based| based.scan).unwrap_or(length.all);
        let zeros = || {
            // A surplus is shorter than a digit, so the first word's first one holds it.
            let mut digit = Vec::new();
            let first = self.program.pieces.get(first_piece as usize).filter(|piece| piece.base.is_some());
            first.into_iter().for_each(|piece| piece.spell(self.reader.text, 4, &mut digit));
            self.zeros(&digit, form.base)
        };
        let dropped = length.surplus(due, form.base.as_ref(), zeros);
        let dropped = dropped.filter(|_| due <= MAX_ARGUMENT).ok_or_else(|| end.refuse(BAD_DATA))?;
        self.program.arguments.push(Argument { pin, first_piece, dropped: dropped as u32 });
        given.give(pin, due as u32);
        Ok(())
    }
}
