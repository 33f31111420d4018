//! MacroDefs and Procedures: bodies that statements use by name.

use crate::bounds::{MAX_BODIES, MAX_SIGNALS};
use crate::names::NameTable;
use crate::pinset::PinSet;
use crate::reader::Reader;
use crate::refusal::Answer;
use crate::signals::Pins;
use crate::statements::{BodyReader, Extent, Program, Range};
use crate::timing::Timing;

/// The `#` of one body, by signal.
#[derive(Clone)]
pub struct Uses {
    pub anywhere: PinSet,
    pub in_shift: PinSet,
    outside_shift: [u32; MAX_SIGNALS],
}

impl Uses {
    pub fn new() -> Uses {
        Uses { anywhere: PinSet::EMPTY, in_shift: PinSet::EMPTY, outside_shift: [0; MAX_SIGNALS] }
    }

    pub fn note(&mut self, pin: u8, in_shift: bool) {
        self.anywhere.insert(pin);
        if in_shift {
            self.in_shift.insert(pin);
        } else {
            self.outside_shift[pin as usize] += 1;
        }
    }

    /// How often the Shift plays with these arguments, or none if they do not fit.
    pub fn turns(&self, given: &Given) -> Option<u32> {
        if given.pins != self.anywhere {
            return None;
        }
        let mut turns = None;
        for pin in self.anywhere.pins() {
            let left = given.lengths[pin as usize].checked_sub(self.outside_shift[pin as usize])?;
            let due = if self.in_shift.contains(pin) { *turns.get_or_insert(left) } else { 0 };
            if left != due {
                return None;
            }
        }
        Some(turns.unwrap_or(0))
    }
}

impl Default for Uses {
    fn default() -> Uses {
        Uses::new()
    }
}

/// The lengths of the arguments at one use.
pub struct Given {
    pins: PinSet,
    lengths: [u32; MAX_SIGNALS],
}

impl Given {
    pub fn new() -> Given {
        Given { pins: PinSet::EMPTY, lengths: [0; MAX_SIGNALS] }
    }

    pub fn give(&mut self, pin: u8, length: u32) {
        self.pins.insert(pin);
        self.lengths[pin as usize] = length;
    }
}

impl Default for Given {
    fn default() -> Given {
        Given::new()
    }
}

/// A macro, a procedure or a pattern, complete.
#[derive(Clone)]
pub struct Body {
    pub statements: Range,
    /// Without the cycles of its Shift, which each use decides.
    pub extent: Extent,
    pub depth: usize,
    pub uses: Uses,
}

/// One kind's names; their bodies stand in a row from `first`.
#[derive(Default)]
pub struct BodyNames {
    pub names: NameTable,
    pub first: usize,
}

#[derive(Default)]
pub struct Bodies {
    pub macros: BodyNames,
    pub procedures: BodyNames,
    pub bodies: Vec<Body>,
}

#[derive(Clone, Copy, PartialEq, Eq)]
pub enum Kind {
    Macro,
    Procedure,
}

impl Bodies {
    fn space(&mut self, kind: Kind) -> &mut BodyNames {
        match kind {
            Kind::Macro => &mut self.macros,
            Kind::Procedure => &mut self.procedures,
        }
    }

    /// The two blocks, each at most once, in either order.
    pub fn read(reader: &mut Reader, pins: &Pins, timing: &Timing, program: &mut Program) -> Answer<Bodies> {
        let mut bodies = Bodies::default();
        let mut seen = [false; 2];
        loop {
            let (kind, seen) = match reader.word() {
                b"MacroDefs" => (Kind::Macro, &mut seen[0]),
                b"Procedures" => (Kind::Procedure, &mut seen[1]),
                _ => return Ok(bodies),
            };
            // A second block is left for PatternBurst to refuse.
            if *seen {
                return Ok(bodies);
            }
            *seen = true;
            reader.take();
            bodies.block(kind, reader, pins, timing, program)?;
        }
    }

    fn block(
        &mut self,
        kind: Kind,
        reader: &mut Reader,
        pins: &Pins,
        timing: &Timing,
        program: &mut Program,
    ) -> Answer<()> {
        reader.byte(b'{')?;
        self.space(kind).first = self.bodies.len();
        while !reader.is(b'}') {
            let full = self.bodies.len() == MAX_BODIES;
            let name = reader.new_name(&self.space(kind).names, full)?;
            let body = body(reader, pins, timing, self, program, None)?;
            self.bodies.push(body);
            self.space(kind).names.add(reader.text, name);
        }
        reader.take();
        Ok(())
    }
}

/// `{ statements }` of a macro or procedure; or of a pattern, with the patterns' name space, which takes no arguments.
pub fn body(
    reader: &mut Reader,
    pins: &Pins,
    timing: &Timing,
    bodies: &Bodies,
    program: &mut Program,
    marks: Option<&mut NameTable>,
) -> Answer<Body> {
    reader.byte(b'{')?;
    let first = program.statements.len() as u32;
    let (uses, takes_arguments) = (Uses::new(), marks.is_none());
    let mut inner =
        BodyReader { reader, pins, timing, bodies, program, takes_arguments, marks, uses, depth: 0, has_shift: false };
    let extent = inner.block(0)?;
    let (uses, depth) = (inner.uses, inner.depth);
    let statements = Range { first, end: program.statements.len() as u32 };
    Ok(Body { statements, extent, depth, uses })
}
