//! Rows of the run from any cycle on, and the visits it takes to get there.

use crate::bounds::MAX_SIGNALS;
use crate::document::Document;
use crate::frame::Frame;
use crate::statements::{Act, Range, Statement, Use};

/// How a signal without a value is shown where nothing else is chosen.
pub const MARK: u8 = b'?';
/// The mark of filed listings.
pub const DOT: u8 = b'.';

/// The row as it would be written now.
#[derive(Clone, Copy)]
struct Row([u8; MAX_SIGNALS + 2]);

impl Row {
    fn fresh(signals: usize, mark: u8) -> Row {
        let mut row = Row([mark; MAX_SIGNALS + 2]);
        row.0[signals + 1] = b'\n';
        row
    }
}

/// Fills `rows`, a whole number of rows that are all there, from cycle `first` on; gives the visits.
pub fn write(document: &Document, first: u64, mark: u8, rows: &mut [u8]) -> u64 {
    let row = Row::fresh(document.pins.signals, mark);
    let mut player = Player { document, mark, row, width: document.row_width(), rows, written: 0, visits: 0 };
    player.run(first);
    player.visits
}

struct Player<'d, 't, 'b> {
    document: &'d Document<'t>,
    mark: u8,
    row: Row,
    width: usize,
    rows: &'b mut [u8],
    written: usize,
    visits: u64,
}

impl<'d> Player<'d, '_, '_> {
    fn statement(&self, at: u32) -> &'d Statement {
        &self.document.program.statements[at as usize]
    }

    fn body(&self, used: &Use) -> Range {
        self.document.bodies.bodies[used.body as usize].statements
    }

    fn full(&self) -> bool {
        self.written == self.rows.len()
    }

    fn run(&mut self, first: u64) {
        let mut left = Some(first);
        for &pattern in &self.document.run {
            let body = &self.document.patterns[pattern];
            self.row = Row::fresh(self.document.pins.signals, self.mark);
            left = match left {
                Some(place) => {
                    self.visits += 1 + body.extent.size;
                    self.seek(body.statements, body.extent.cycles, place)
                }
                None => {
                    self.play(body.statements, &mut Frame::none());
                    None
                }
            };
            if left.is_none() && self.full() {
                return;
            }
        }
    }

    /// Goes past a pattern, or into the one that holds the place; gives the place left over.
    fn seek(&mut self, statements: Range, cycles: u64, place: u64) -> Option<u64> {
        if place >= cycles {
            return Some(place - cycles);
        }
        self.reach(statements, place, &mut Frame::none());
        None
    }

    /// The walk: past what lies before the place, into the statement that holds it, then on with rows.
    fn reach(&mut self, statements: Range, mut place: u64, frame: &mut Frame) {
        let mut at = statements.first;
        while at < statements.end {
            let statement = self.statement(at);
            let cycles = frame.cycles(statement);
            self.visits += statement.extent.size;
            if place < cycles {
                self.enter(at, place, frame);
                at = statement.next;
                break;
            }
            place -= cycles;
            self.pass(at, frame);
            at = statement.next;
        }
        self.play(Range { first: at, end: statements.end }, frame);
    }

    /// Into the statement that holds the place.
    fn enter(&mut self, at: u32, place: u64, frame: &mut Frame) {
        let statement = self.statement(at);
        match statement.act {
            Act::Loop { turns, turn_cycles } => {
                let turn = Range { first: at + 1, end: statement.next };
                let before = place / turn_cycles;
                if before > 0 {
                    self.pass_all(turn, frame);
                }
                self.reach(turn, place % turn_cycles, frame);
                self.turns(turn, before + 1, turns.into(), turn_cycles, frame);
            }
            Act::Shift => {
                self.visits += self.statement(at + 1).extent.size;
                self.shift(at + 1, place as u32, frame);
            }
            Act::Macro(used) => {
                let body = self.body(&used);
                self.reach(body, place, &mut Frame::of(self.document, &used));
            }
            Act::Call(used) => {
                let caller = self.begin_procedure();
                let body = self.body(&used);
                self.reach(body, place, &mut Frame::of(self.document, &used));
                self.row = caller;
            }
            _ => self.play_one(at, frame),
        }
    }

    /// The caller's table stays, its values are put by.
    fn begin_procedure(&mut self) -> Row {
        let caller = self.row;
        self.row.0[..self.document.pins.signals].fill(self.mark);
        caller
    }
}

/// Going past: values and table only, no rows. Any turn of a Loop leaves what one turn leaves.
impl Player<'_, '_, '_> {
    fn pass_all(&mut self, statements: Range, frame: &mut Frame) {
        let mut at = statements.first;
        while at < statements.end {
            self.pass(at, frame);
            at = self.statement(at).next;
        }
    }

    fn pass(&mut self, at: u32, frame: &mut Frame) {
        let statement = self.statement(at);
        match statement.act {
            Act::Vector { assigns, .. } | Act::Condition { assigns } => self.assign(assigns, frame),
            Act::Table(table) => self.row.0[self.document.pins.signals] = b'0' + table,
            Act::Loop { .. } => self.pass_all(Range { first: at + 1, end: statement.next }, frame),
            Act::Shift if frame.shifts > 0 => {
                self.skip_shifted(at + 1, frame.shifts - 1, frame);
                self.pass(at + 1, frame);
            }
            Act::Macro(used) => {
                let body = self.body(&used);
                self.pass_all(body, &mut Frame::of(self.document, &used));
            }
            Act::Shift | Act::Call(_) | Act::Mark(_) => {}
        }
    }

    fn assign(&mut self, assigns: Range, frame: &mut Frame) {
        let document = self.document;
        for assign in assigns.of(&document.program.assigns) {
            for (pin, character) in document.assigned(assign) {
                let taken = assign.uses_arguments && character == b'#';
                self.row.0[pin as usize] = if taken { frame.take(document, pin) } else { character };
            }
        }
    }

    /// Leaves out `count` characters of each argument that the Shift's V takes from.
    fn skip_shifted(&self, vector: u32, count: u32, frame: &mut Frame) {
        let document = self.document;
        if let Act::Vector { assigns, .. } = self.statement(vector).act {
            let assigns = assigns.of(&document.program.assigns);
            for (pin, character) in assigns.iter().flat_map(|assign| document.assigned(assign)) {
                if character == b'#' {
                    frame.skip(document, pin, count);
                }
            }
        }
    }
}

/// Playing: a row for each cycle until the rows are full.
impl Player<'_, '_, '_> {
    fn play(&mut self, statements: Range, frame: &mut Frame) {
        let mut at = statements.first;
        while at < statements.end && !self.full() {
            self.play_one(at, frame);
            at = self.statement(at).next;
        }
    }

    fn play_one(&mut self, at: u32, frame: &mut Frame) {
        let statement = self.statement(at);
        match statement.act {
            Act::Vector { assigns, .. } => {
                self.assign(assigns, frame);
                self.write_row();
            }
            Act::Loop { turns, turn_cycles } => {
                let turn = Range { first: at + 1, end: statement.next };
                self.turns(turn, 0, turns.into(), turn_cycles, frame);
            }
            Act::Shift => self.shift(at + 1, 0, frame),
            Act::Macro(used) => {
                let body = self.body(&used);
                self.play(body, &mut Frame::of(self.document, &used));
            }
            Act::Call(used) => {
                let caller = self.begin_procedure();
                let body = self.body(&used);
                self.play(body, &mut Frame::of(self.document, &used));
                self.row = caller;
            }
            Act::Condition { .. } | Act::Table(_) | Act::Mark(_) => self.pass(at, frame),
        }
    }

    fn write_row(&mut self) {
        let end = self.written + self.width;
        if let Some(room) = self.rows.get_mut(self.written..end) {
            room.copy_from_slice(&self.row.0[..self.width]);
            self.written = end;
        }
    }

    /// Turns from number `turn` on. All but the first turn start alike, so one of them is copied.
    fn turns(&mut self, body: Range, mut turn: u64, turns: u64, turn_cycles: u64, frame: &mut Frame) {
        if turn_cycles == 0 {
            return self.pass_all(body, frame);
        }
        while turn < turns && !self.full() {
            let start = self.written;
            self.play(body, frame);
            turn += 1;
            if turn > 1 && !self.full() {
                let rest = ((turns - turn) * turn_cycles).saturating_mul(self.width as u64);
                self.copy_on(start, rest);
                return;
            }
        }
    }

    /// Repeats what was written since `start` for `bytes` more, or until the rows are full.
    fn copy_on(&mut self, start: usize, bytes: u64) {
        let room = self.rows.len() - self.written;
        let mut left = usize::try_from(bytes).unwrap_or(room).min(room);
        while left > 0 {
            // What stands there is whole turns, so it can be copied in ever longer parts.
            let part = (self.written - start).min(left);
            self.rows.copy_within(start..start + part, self.written);
            self.written += part;
            left -= part;
        }
    }

    /// The Shift's turns from number `turn` on; only the shifted characters change between them.
    fn shift(&mut self, vector: u32, turn: u32, frame: &mut Frame) {
        self.skip_shifted(vector, turn, frame);
        if let Act::Vector { assigns, .. } = self.statement(vector).act {
            for _ in turn..frame.shifts {
                if self.full() {
                    return;
                }
                self.assign(assigns, frame);
                self.write_row();
            }
        }
    }
}
