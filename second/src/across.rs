//! Events across the cycle's edge (request 8): within a category, a cycle's last event comes before the next cycle's first.
//!
//! A cycle is a table and the signals' values, and a pair of neighbours is decided signal by signal. What a Loop's turn leaves of values and
//! table is what every turn leaves, so the second turn's cycles are those of every later one, and the only pair that is new
//! behind them is the one into the third turn: of a third turn no more is played than its first cycle.

use crate::bounds::MAX_SIGNALS;
use crate::document::Document;
use crate::frame::Frame;
use crate::pinset::PinSet;
use crate::refusal::*;
use crate::statements::{Act, Range, Use};
use crate::timing::Reach;
use std::collections::HashMap;

/// Refuses the first pair in run order whose events are not in order, at the later cycle's V. All cycles must have their waveforms.
pub fn check_edges(document: &Document) -> Answer<()> {
    if always_in_order(document) {
        return Ok(());
    }
    let reaches = Reaches::of(document);
    let mut seen = vec![false; document.patterns.len()];
    for &pattern in &document.run {
        // Every start of a pattern is the same, so a repeat cannot fail first.
        if std::mem::replace(&mut seen[pattern], true) {
            continue;
        }
        let mut player =
            Player { document, reaches: &reaches, now: State::START, until_cycle: false, played: HashMap::new() };
        let played = player.play(document.patterns[pattern].statements, &mut Frame::none());
        if let Err(Stop::Fault(place)) = played {
            return Err(Refusal::new(EVENTS_OUT_OF_ORDER, place as usize));
        }
    }
    Ok(())
}

/// No two waveforms of a signal could follow each other out of order, whatever is played: so it is in most texts.
fn always_in_order(document: &Document) -> bool {
    let mut latest = [[i64::MIN; 2]; MAX_SIGNALS];
    let mut soonest = [[i64::MAX; 2]; MAX_SIGNALS];
    for shape in document.timing.shapes(document.text, &document.pins) {
        let period = document.timing.periods[shape.table as usize] as i64;
        for (category, (first, last)) in spans(&shape.reach) {
            for &pin in shape.pins {
                let (latest, soonest) = (&mut latest[pin as usize][category], &mut soonest[pin as usize][category]);
                *latest = last.saturating_sub(period).max(*latest);
                *soonest = first.min(*soonest);
            }
        }
    }
    latest.iter().flatten().zip(soonest.iter().flatten()).all(|(latest, soonest)| latest < soonest)
}

/// The categories that a waveform has events of, with its first and last time there.
fn spans(reach: &Reach) -> impl Iterator<Item = (usize, (i64, i64))> + '_ {
    reach.iter().enumerate().filter_map(|(category, span)| span.map(|span| (category, span)))
}

/// Word bytes are ASCII.
const BYTES: usize = 128;

/// Each waveform's reach, by signal, character and table.
struct Reaches {
    tables: usize,
    periods: Vec<i64>,
    found: Vec<Reach>,
    /// Where in `found`.
    of: Vec<u32>,
}

impl Reaches {
    fn of(document: &Document) -> Reaches {
        let periods: Vec<i64> = document.timing.periods.iter().map(|&period| period as i64).collect();
        let tables = periods.len();
        let mut reaches =
            Reaches { tables, periods, found: Vec::new(), of: vec![0; document.pins.signals * BYTES * tables] };
        for shape in document.timing.shapes(document.text, &document.pins) {
            for &pin in shape.pins {
                let at = reaches.at(pin, shape.character, shape.table);
                reaches.of[at] = reaches.found.len() as u32;
            }
            reaches.found.push(shape.reach);
        }
        reaches
    }

    fn at(&self, pin: u8, character: u8, table: u8) -> usize {
        (pin as usize * BYTES + character as usize) * self.tables + table as usize
    }

    fn reach(&self, pin: u8, character: u8, table: u8) -> &Reach {
        &self.found[self.of[self.at(pin, character, table)] as usize]
    }

    /// Whether these waveforms of a signal may follow each other, each a character and its table.
    fn in_order(&self, pin: u8, before: (u8, u8), then: (u8, u8)) -> bool {
        let period = self.periods[before.1 as usize];
        let (before, then) = (self.reach(pin, before.0, before.1), self.reach(pin, then.0, then.1));
        before.iter().zip(then).all(|categories| match categories {
            (Some((_, last)), Some((first, _))) => *last < period + *first,
            _ => true,
        })
    }
}

/// From so many cycles on, what a statement leaves is kept, so that Loops one in the other are not played over and over.
const REMEMBERED: u64 = 64;

/// A signal without a value has this one: no text holds it.
const UNASSIGNED: u8 = 0;

#[derive(Clone, Copy, PartialEq, Eq, Hash)]
struct Cycle {
    values: [u8; MAX_SIGNALS],
    table: u8,
}

/// What is in force, and what the last cycle was.
#[derive(Clone, Copy, PartialEq, Eq, Hash)]
struct State {
    now: Cycle,
    last: Option<Cycle>,
    /// Signals whose waveform may be another than in the last cycle, and in the last one another than in the one before it: the
    /// others were looked at with the same waveforms on both sides.
    changed: PinSet,
    changed_last: PinSet,
}

impl State {
    /// The table doesn't matter before the first W, where no cycle can be.
    const START: State = State {
        now: Cycle { values: [UNASSIGNED; MAX_SIGNALS], table: 0 },
        last: None,
        changed: PinSet::EMPTY,
        changed_last: PinSet::EMPTY,
    };

    fn change_all(&mut self) {
        self.changed = PinSet::EMPTY.outside();
    }
}

enum Stop {
    /// The V of the later cycle.
    Fault(u32),
    /// A cycle was reached, and no more is asked for.
    Cycle,
}

type Played = Result<(), Stop>;

struct Player<'d, 't> {
    document: &'d Document<'t>,
    reaches: &'d Reaches,
    now: State,
    until_cycle: bool,
    /// What long Loops and uses left, by their place among the statements and what they began with.
    played: HashMap<(u32, State), State>,
}

impl Player<'_, '_> {
    fn play(&mut self, statements: Range, frame: &mut Frame) -> Played {
        let mut at = statements.first;
        while at < statements.end {
            self.play_one(at, frame)?;
            at = self.document.program.statements[at as usize].next;
        }
        Ok(())
    }

    /// A Loop takes no argument, and those of a use are written there: where it stands and what it begins with decide all that a statement does.
    fn play_one(&mut self, at: u32, frame: &mut Frame) -> Played {
        let statement = &self.document.program.statements[at as usize];
        if statement.extent.cycles < REMEMBERED {
            return self.act(at, frame);
        }
        let before = self.now;
        match self.played.get(&(at, before)) {
            Some(_) if self.until_cycle => return Err(Stop::Cycle),
            Some(&left) => self.now = left,
            None => {
                self.act(at, frame)?;
                self.played.insert((at, before), self.now);
            }
        }
        Ok(())
    }

    fn act(&mut self, at: u32, frame: &mut Frame) -> Played {
        let statement = &self.document.program.statements[at as usize];
        let inner = Range { first: at + 1, end: statement.next };
        match statement.act {
            Act::Vector { place, assigns } => {
                self.assign(assigns, frame);
                self.cycle(place)
            }
            Act::Condition { assigns } => {
                self.assign(assigns, frame);
                Ok(())
            }
            Act::Table(table) => {
                self.now.now.table = table;
                self.now.change_all();
                Ok(())
            }
            Act::Loop { turns, .. } => self.turns(inner, turns, frame),
            Act::Shift => (0..frame.shifts).try_for_each(|_| self.play(inner, frame)),
            Act::Macro(used) => self.body(&used),
            Act::Call(used) => {
                let caller = self.now.now;
                self.now.now.values = [UNASSIGNED; MAX_SIGNALS];
                self.now.change_all();
                self.body(&used)?;
                self.now.now = caller;
                self.now.change_all();
                Ok(())
            }
            Act::Mark(_) => Ok(()),
        }
    }

    fn body(&mut self, used: &Use) -> Played {
        let body = &self.document.bodies.bodies[used.body as usize];
        self.play(body.statements, &mut Frame::of(self.document, used))
    }

    fn turns(&mut self, turn: Range, turns: u32, frame: &mut Frame) -> Played {
        (0..turns.min(2)).try_for_each(|_| self.play(turn, frame))?;
        if turns > 2 {
            let (left, until_cycle) = (self.now, std::mem::replace(&mut self.until_cycle, true));
            if let Err(Stop::Fault(place)) = self.play(turn, frame) {
                return Err(Stop::Fault(place));
            }
            (self.now, self.until_cycle) = (left, until_cycle);
        }
        Ok(())
    }

    fn assign(&mut self, assigns: Range, frame: &mut Frame) {
        let document = self.document;
        for assign in assigns.of(&document.program.assigns) {
            self.now.changed.add(&assign.set);
            for (pin, character) in document.assigned(assign) {
                self.now.now.values[pin as usize] = match character {
                    b'#' => frame.take(document, pin),
                    plain => plain,
                };
            }
        }
    }

    fn cycle(&mut self, place: u32) -> Played {
        let State { now, last, changed, changed_last } = self.now;
        if let Some(last) = last {
            let mut looked = changed;
            looked.add(&changed_last);
            let fails = |pin: u8| {
                let (before, then) = (last.values[pin as usize], now.values[pin as usize]);
                let both = before != UNASSIGNED && then != UNASSIGNED;
                both && !self.reaches.in_order(pin, (before, last.table), (then, now.table))
            };
            if looked.pins().any(fails) {
                return Err(Stop::Fault(place));
            }
        }
        // Behind the first cycle there is no pair yet that anything was looked at in.
        let changed_last = if last.is_some() { changed } else { PinSet::EMPTY.outside() };
        self.now = State { now, last: Some(now), changed: PinSet::EMPTY, changed_last };
        if self.until_cycle {
            return Err(Stop::Cycle);
        }
        Ok(())
    }
}
