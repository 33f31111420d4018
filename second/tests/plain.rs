//! The plain way, every turn of every Loop played, against the clever one.

use second::data::Cursor;
use second::document::Document;
use second::generate::{nested, text};
use second::run::check_cycles;
use second::statements::{Act, Range, Statement, Use};
use second::{Refusal, DOT};
use std::collections::HashMap;

const MOST_CYCLES: u64 = 6_000;

/// One use's arguments: for each signal where its data goes on, and the Shift's turns.
#[derive(Default)]
struct Arguments {
    cursors: HashMap<u8, Cursor>,
    shifts: u32,
}

struct Plain<'d> {
    document: &'d Document<'d>,
    values: Vec<Option<u8>>,
    table: Option<u8>,
    rows: Vec<u8>,
    fault: Option<u64>,
}

impl<'d> Plain<'d> {
    fn run(document: &'d Document<'d>) -> Plain<'d> {
        let mut plain = Plain { document, values: Vec::new(), table: None, rows: Vec::new(), fault: None };
        for &pattern in &document.run {
            plain.values = vec![None; document.pins.signals];
            plain.table = None;
            plain.all(document.patterns[pattern].statements, &mut Arguments::default());
        }
        plain
    }

    fn statement(&self, at: u32) -> &'d Statement {
        &self.document.program.statements[at as usize]
    }

    fn arguments(&self, used: &Use) -> Arguments {
        let given = used.arguments.of(&self.document.program.arguments);
        let cursors = given.iter().map(|argument| (argument.pin, argument.start())).collect();
        Arguments { cursors, shifts: used.shifts }
    }

    fn all(&mut self, range: Range, arguments: &mut Arguments) {
        let mut at = range.first;
        while at < range.end {
            self.one(at, arguments);
            at = self.statement(at).next;
        }
    }

    fn one(&mut self, at: u32, arguments: &mut Arguments) {
        let statement = self.statement(at);
        let inner = Range { first: at + 1, end: statement.next };
        match statement.act {
            Act::Vector { place, assigns } => {
                self.assign(assigns, arguments);
                self.cycle(place.into());
            }
            Act::Condition { assigns } => self.assign(assigns, arguments),
            Act::Table(table) => self.table = Some(table),
            Act::Mark(_) => {}
            Act::Loop { turns, .. } => (0..turns).for_each(|_| self.all(inner, arguments)),
            Act::Shift => (0..arguments.shifts).for_each(|_| self.all(inner, arguments)),
            Act::Macro(used) => self.body(&used),
            Act::Call(used) => {
                let (values, table) = (self.values.clone(), self.table);
                self.values.iter_mut().for_each(|value| *value = None);
                self.body(&used);
                (self.values, self.table) = (values, table);
            }
        }
    }

    fn body(&mut self, used: &Use) {
        let statements = self.document.bodies.bodies[used.body as usize].statements;
        self.all(statements, &mut self.arguments(used));
    }

    fn assign(&mut self, assigns: Range, arguments: &mut Arguments) {
        let program = &self.document.program;
        for assign in assigns.of(&program.assigns) {
            for (pin, character) in self.document.assigned(assign) {
                self.values[pin as usize] = Some(match character {
                    b'#' => arguments.cursors.get_mut(&pin).expect("given").take(self.document.text, &program.pieces),
                    plain => plain,
                });
            }
        }
    }

    fn cycle(&mut self, place: u64) {
        let timing = &self.document.timing;
        let lacks = |table: u8, pin: usize, value: Option<u8>| {
            value.map_or(false, |value| timing.lacks(pin as u8, value) >> table & 1 == 1)
        };
        let fails = self
            .table
            .map_or(true, |table| self.values.iter().enumerate().any(|(pin, &value)| lacks(table, pin, value)));
        if fails && self.fault.is_none() {
            self.fault = Some(place);
        }
        self.rows.extend(self.values.iter().map(|value| value.unwrap_or(b'.')));
        self.rows.push(b'0' + self.table.unwrap_or(0));
        self.rows.push(b'\n');
    }
}

/// Document 01's definition, statement by statement.
fn visits(document: &Document, range: Range, shifts: u32, mut place: u64) -> u64 {
    let mut sum = 0;
    let mut at = range.first;
    while at < range.end {
        let statement = &document.program.statements[at as usize];
        let cycles = if let Act::Shift = statement.act { shifts.into() } else { statement.extent.cycles };
        sum += statement.extent.size;
        if place < cycles {
            let inner = Range { first: at + 1, end: statement.next };
            return sum
                + match statement.act {
                    Act::Loop { turn_cycles, .. } => visits(document, inner, 0, place % turn_cycles),
                    Act::Shift => visits(document, inner, 0, 0),
                    Act::Macro(used) | Act::Call(used) => {
                        let body = document.bodies.bodies[used.body as usize].statements;
                        visits(document, body, used.shifts, place)
                    }
                    _ => 0,
                };
        }
        place -= cycles;
        at = statement.next;
    }
    sum
}

fn visits_of_run(document: &Document, mut place: u64) -> u64 {
    let mut sum = 0;
    for &pattern in &document.run {
        let body = &document.patterns[pattern];
        sum += 1 + body.extent.size;
        if place < body.extent.cycles {
            return sum + visits(document, body.statements, 0, place);
        }
        place -= body.extent.cycles;
    }
    sum
}

fn compare(seed: u64, document: &Document) -> bool {
    let plain = Plain::run(document);
    let due = plain.fault.map_or(Ok(()), |place| Err(Refusal { number: 17, place }));
    assert_eq!(check_cycles(document), due, "seed {seed}");
    if due.is_err() {
        return false;
    }
    let (width, cycles) = (document.row_width(), document.extent.cycles);
    assert_eq!(plain.rows.len(), cycles as usize * width, "seed {seed}");
    let mut from = 0;
    while from <= cycles + 1 {
        for wanted in [0, 1, 7, cycles] {
            let mut buffer = vec![b'-'; plain.rows.len() + 3];
            let window = document.window(from, wanted, DOT, &mut buffer).expect("room");
            let rows = wanted.min(cycles.saturating_sub(from));
            assert_eq!(window.rows, rows, "seed {seed}");
            assert_eq!(window.visits, visits_of_run(document, from), "seed {seed} at {from}");
            assert!(window.visits <= 10 * document.extent.size, "seed {seed} at {from}");
            let start = from.min(cycles) as usize * width;
            let end = rows as usize * width;
            assert!(buffer[..end] == plain.rows[start..start + end], "seed {seed} at {from} of {wanted}");
            assert!(buffer[end..].iter().all(|&byte| byte == b'-'), "seed {seed}");
        }
        from += 1 + cycles / 23;
    }
    true
}

#[test]
fn rows_visits_and_faults_are_the_plain_ones() {
    let (mut accepted, mut failing) = (0, 0);
    for seed in 0..12_000 {
        let text = text(seed);
        match Document::read_unplayed(&text) {
            Ok(document) if document.extent.cycles <= MOST_CYCLES && document.extent.size < 3_000 => {
                if compare(seed, &document) {
                    accepted += 1;
                } else {
                    failing += 1;
                }
            }
            _ => {}
        }
    }
    println!("{accepted} runs and {failing} faults compared");
    assert!(accepted > 1_000 && failing > 50);
}

#[test]
fn faults_in_nested_loops_are_the_plain_ones() {
    let (mut accepted, mut failing) = (0, 0);
    for seed in 0..20_000 {
        let text = nested(seed);
        let document = Document::read_unplayed(&text).unwrap_or_else(|refusal| panic!("text {seed}: {refusal:?}"));
        if document.extent.cycles > MOST_CYCLES {
            continue;
        }
        let plain = Plain::run(&document);
        let due = plain.fault.map_or(Ok(()), |place| Err(Refusal { number: 17, place }));
        assert_eq!(check_cycles(&document), due, "text {seed}");
        accepted += u32::from(due.is_ok());
        failing += u32::from(due.is_err());
    }
    println!("{accepted} without and {failing} with a fault");
    assert!(accepted > 3_000 && failing > 3_000);
}
