//! The arguments of one use of a body, while it plays.

use crate::bounds::MAX_SIGNALS;
use crate::data::Cursor;
use crate::document::Document;
use crate::statements::{Act, Assign, Statement, Use};

#[derive(Clone)]
pub struct Frame {
    pub shifts: u32,
    cursors: [Cursor; MAX_SIGNALS],
}

impl Frame {
    /// A pattern's: there is no argument to take from.
    pub fn none() -> Frame {
        Frame { shifts: 0, cursors: [Cursor::default(); MAX_SIGNALS] }
    }

    pub fn of(document: &Document, used: &Use) -> Frame {
        let mut frame = Frame::none();
        frame.shifts = used.shifts;
        for argument in used.arguments.of(&document.program.arguments) {
            frame.cursors[argument.pin as usize] = argument.start();
        }
        frame
    }

    /// The next character of that signal's argument.
    pub fn take(&mut self, document: &Document, pin: u8) -> u8 {
        self.cursors[pin as usize].take(document.text, &document.program.pieces)
    }

    pub fn skip(&mut self, document: &Document, pin: u8, count: u32) {
        self.cursors[pin as usize].skip(&document.program.pieces, count);
    }

    pub fn take_once(&mut self, document: &Document, pin: u8, count: u32, show: impl FnMut(u8)) {
        self.cursors[pin as usize].take_once(document.text, &document.program.pieces, count, show);
    }

    /// A Shift's cycles are said by the use, all others by the statement.
    pub fn cycles(&self, statement: &Statement) -> u64 {
        match statement.act {
            Act::Shift => self.shifts.into(),
            _ => statement.extent.cycles,
        }
    }
}

impl Document<'_> {
    /// Each signal of an assignment with the character it is given there, `#` as written.
    pub fn assigned<'d>(&'d self, assign: &Assign) -> impl Iterator<Item = (u8, u8)> + 'd {
        let pins = self.pins.members(assign.list);
        let chars = &self.program.chars[assign.chars as usize..][..pins.len()];
        pins.iter().copied().zip(chars.iter().copied())
    }
}
