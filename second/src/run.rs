//! Refusal 17 without playing a Loop at all: what a stretch of the run does to the signals and the
//! table, and what its cycles ask of whatever it starts from, composed from its statements.
//!
//! Assigned characters are constants, so a second turn starts from the first turn's outcome and every
//! later turn from the same: two turns of a Loop are one composition, and the cost is the run's size.

use crate::bodies::Body;
use crate::bounds::{MAX_BODIES, MAX_TABLES};
use crate::document::Document;
use crate::frame::Frame;
use crate::pinset::PinSet;
use crate::refusal::*;
use crate::statements::{Act, Range, Statement, Use};
use std::collections::HashMap;

#[derive(Clone, Copy)]
struct Effect {
    /// Signals it assigns, and for each table those whose character then lacks a waveform there.
    assigned: PinSet,
    lacking: [PinSet; MAX_TABLES],
    table: Option<u8>,
    /// A cycle fails whatever it starts from.
    fails: bool,
    /// A cycle comes before any W: it needs one of the fitting tables from the start.
    needs_table: bool,
    fitting_tables: u8,
    /// Signals whose start value meets a cycle under the start table, or under table t.
    kept_under_start: PinSet,
    kept_under: [PinSet; MAX_TABLES],
}

impl Effect {
    const NOTHING: Effect = Effect {
        assigned: PinSet::EMPTY,
        lacking: [PinSet::EMPTY; MAX_TABLES],
        table: None,
        fails: false,
        needs_table: false,
        fitting_tables: 0xff,
        kept_under_start: PinSet::EMPTY,
        kept_under: [PinSet::EMPTY; MAX_TABLES],
    };

    /// A procedure's start: the caller's table and every signal unassigned.
    fn entered(&self) -> Effect {
        Effect { table: self.table, ..Effect::NOTHING }
    }

    /// From a pattern's start, where there is no table and no value.
    fn faulty(&self) -> bool {
        self.fails || self.needs_table
    }

    /// New characters for these signals, lacking nothing until `lack` says so.
    fn assign(&mut self, pins: &PinSet) {
        self.assigned.add(pins);
        self.lacking.iter_mut().for_each(|lacking| lacking.drop(pins));
    }

    fn lack(&mut self, pin: u8, tables: u8) {
        if tables != 0 {
            let lacking = self.lacking.iter_mut().enumerate();
            lacking.filter(|(table, _)| tables >> table & 1 == 1).for_each(|(_, lacking)| lacking.insert(pin));
        }
    }

    fn lacking_somewhere(&self) -> u8 {
        let bits = self.lacking.iter().enumerate();
        bits.fold(0, |some, (table, lacking)| some | u8::from(!lacking.is_empty()) << table)
    }

    fn cycle(&mut self) {
        let kept = self.assigned.outside();
        match self.table {
            Some(table) => {
                self.fails |= !self.lacking[table as usize].is_empty();
                self.kept_under[table as usize].add(&kept);
            }
            None => {
                self.needs_table = true;
                self.fitting_tables &= !self.lacking_somewhere();
                self.kept_under_start.add(&kept);
            }
        }
    }

    /// This, then `later`.
    fn then(&mut self, later: &Effect) {
        self.fails |= later.fails;
        for table in 0..MAX_TABLES {
            let asked = &later.kept_under[table];
            self.fails |= asked.meets(&self.lacking[table]);
            self.kept_under[table].add(&asked.without(&self.assigned));
        }
        if later.needs_table {
            self.meet_start_table(later);
        }
        self.assigned.add(&later.assigned);
        for table in 0..MAX_TABLES {
            self.lacking[table].drop(&later.assigned);
            self.lacking[table].add(&later.lacking[table]);
        }
        self.table = later.table.or(self.table);
    }

    /// What `later` asks of its start table and of the values under it.
    fn meet_start_table(&mut self, later: &Effect) {
        let asked = &later.kept_under_start;
        let kept = asked.without(&self.assigned);
        let mut fitting = later.fitting_tables;
        for table in 0..MAX_TABLES {
            fitting &= !(u8::from(asked.meets(&self.lacking[table])) << table);
        }
        match self.table {
            Some(table) => {
                self.fails |= fitting >> table & 1 == 0;
                self.kept_under[table as usize].add(&kept);
            }
            None => {
                self.needs_table = true;
                self.fitting_tables &= fitting;
                self.kept_under_start.add(&kept);
            }
        }
    }
}

/// Refuses the first cycle in run order that has no table, or a character without a waveform in it.
pub fn check_cycles(document: &Document) -> Answer<()> {
    let mut judge = Judge { document, plain_bodies: [None; MAX_BODIES], inner_uses: HashMap::new() };
    let mut seen = vec![false; document.patterns.len()];
    for &pattern in &document.run {
        // Every start of a pattern is the same, so a repeat cannot fail first.
        if std::mem::replace(&mut seen[pattern], true) {
            continue;
        }
        let statements = document.patterns[pattern].statements;
        if judge.stretch(statements, &mut Frame::none()).faulty() {
            let place = judge.fault(statements, Effect::NOTHING, &mut Frame::none());
            return Err(Refusal::new(CYCLE_WITHOUT_WAVEFORM, place as usize));
        }
    }
    Ok(())
}

struct Judge<'d, 't> {
    document: &'d Document<'t>,
    /// Effects of bodies that take no argument: they are the same at each use.
    plain_bodies: [Option<Effect>; MAX_BODIES],
    /// Effects of uses with arguments that stand in a body, which may itself be used often.
    inner_uses: HashMap<u32, Effect>,
}

impl<'d> Judge<'d, '_> {
    fn statement(&self, at: u32) -> &'d Statement {
        &self.document.program.statements[at as usize]
    }

    fn body(&self, used: &Use) -> &'d Body {
        &self.document.bodies.bodies[used.body as usize]
    }

    fn stretch(&mut self, statements: Range, frame: &mut Frame) -> Effect {
        let mut effect = Effect::NOTHING;
        let mut at = statements.first;
        while at < statements.end {
            self.step(at, frame, &mut effect);
            at = self.statement(at).next;
        }
        effect
    }

    /// Adds one statement to what came before it.
    fn step(&mut self, at: u32, frame: &mut Frame, effect: &mut Effect) {
        let statement = self.statement(at);
        match statement.act {
            Act::Vector { assigns, .. } => {
                self.assign(assigns, frame, effect);
                effect.cycle();
            }
            Act::Condition { assigns } => self.assign(assigns, frame, effect),
            Act::Table(table) => effect.table = Some(table),
            Act::Loop { turns, .. } => {
                let turn = self.stretch(Range { first: at + 1, end: statement.next }, frame);
                effect.then(&turn);
                if turns > 1 {
                    effect.then(&turn);
                }
            }
            Act::Shift => self.shift(at + 1, frame, effect),
            Act::Macro(used) => effect.then(&self.used(at, &used)),
            Act::Call(used) => {
                let mut inside = effect.entered();
                inside.then(&self.used(at, &used));
                effect.fails |= inside.fails;
                effect.needs_table |= inside.needs_table;
                effect.fitting_tables &= inside.fitting_tables;
            }
            Act::Mark(_) => {}
        }
    }

    fn used(&mut self, at: u32, used: &Use) -> Effect {
        let body = self.body(used);
        let (plain, inner) = (body.uses.anywhere.is_empty(), at < self.document.patterns[0].statements.first);
        let known = match (plain, inner) {
            (true, _) => self.plain_bodies[used.body as usize],
            (false, true) => self.inner_uses.get(&at).copied(),
            (false, false) => None,
        };
        if let Some(effect) = known {
            return effect;
        }
        let effect = self.stretch(body.statements, &mut Frame::of(self.document, used));
        if plain {
            self.plain_bodies[used.body as usize] = Some(effect);
        } else if inner {
            self.inner_uses.insert(at, effect);
        }
        effect
    }

    fn assign(&self, assigns: Range, frame: &mut Frame, effect: &mut Effect) {
        let document = self.document;
        for assign in assigns.of(&document.program.assigns) {
            effect.assign(&assign.set);
            for (pin, character) in document.assigned(assign) {
                let character = match character {
                    b'#' => frame.take(document, pin),
                    plain => plain,
                };
                effect.lack(pin, document.timing.lacks(pin, character));
            }
        }
    }

    /// All turns are the same V, so one cycle with every character shifted stands for them.
    fn shift(&self, vector: u32, frame: &mut Frame, effect: &mut Effect) {
        let document = self.document;
        let assigns = match self.statement(vector).act {
            Act::Vector { assigns, .. } if frame.shifts > 0 => assigns,
            _ => return,
        };
        let mut outcome = Effect::NOTHING;
        for assign in assigns.of(&document.program.assigns) {
            effect.assign(&assign.set);
            outcome.assign(&assign.set);
            for (pin, character) in document.assigned(assign) {
                let (mut any, mut last) = (0, document.timing.lacks(pin, character));
                if character == b'#' {
                    frame.take_once(document, pin, frame.shifts, |shifted| {
                        last = document.timing.lacks(pin, shifted);
                        any |= last;
                    });
                }
                effect.lack(pin, any | last);
                outcome.lack(pin, last);
            }
        }
        effect.cycle();
        effect.then(&outcome);
    }

    /// The place of the first failing cycle in a stretch that is known to fail after `before`.
    fn fault(&mut self, statements: Range, mut before: Effect, frame: &mut Frame) -> u32 {
        let mut at = statements.first;
        while at < statements.end {
            let start = before;
            self.step(at, frame, &mut before);
            if before.faulty() {
                return self.fault_in(at, start, frame);
            }
            at = self.statement(at).next;
        }
        0
    }

    fn fault_in(&mut self, at: u32, before: Effect, frame: &mut Frame) -> u32 {
        let statement = self.statement(at);
        match statement.act {
            Act::Vector { place, .. } => place,
            Act::Shift => self.fault_in(at + 1, before, frame),
            Act::Loop { .. } => {
                let turn = Range { first: at + 1, end: statement.next };
                let mut after = before;
                after.then(&self.stretch(turn, frame));
                let start = if after.faulty() { before } else { after };
                self.fault(turn, start, frame)
            }
            Act::Macro(used) => {
                let body = self.body(&used);
                self.fault(body.statements, before, &mut Frame::of(self.document, &used))
            }
            Act::Call(used) => {
                let body = self.body(&used);
                self.fault(body.statements, before.entered(), &mut Frame::of(self.document, &used))
            }
            Act::Condition { .. } | Act::Table(_) | Act::Mark(_) => 0,
        }
    }
}
