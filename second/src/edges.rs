//! Where statements of the run begin and end: the cycles at which a window is most easily wrong.

use crate::document::Document;
use crate::generate::random::Random;
use crate::statements::{Act, Range};

/// A cycle at which some statement of the run begins or ends, drawn by going down into the run.
pub fn edge(document: &Document, random: &mut Random) -> u64 {
    if document.run.is_empty() {
        return 0;
    }
    let body = |listed: usize| &document.patterns[document.run[listed]];
    let chosen = random.below(document.run.len());
    let before: u64 = (0..chosen).map(|listed| body(listed).extent.cycles).sum();
    before + edge_in(document, body(chosen).statements, 0, random)
}

/// An edge in a body whose Shift plays `shifts` times, counted from the body's first cycle.
fn edge_in(document: &Document, body: Range, shifts: u32, random: &mut Random) -> u64 {
    let statement = |at: u32| &document.program.statements[at as usize];
    let cycles = |at: u32| match statement(at).act {
        Act::Shift => shifts.into(),
        _ => statement(at).extent.cycles,
    };
    let after = |&at: &u32| Some(statement(at).next).filter(|&next| next < body.end);
    let starts: Vec<u32> = std::iter::successors(Some(body.first).filter(|&at| at < body.end), after).collect();
    if starts.is_empty() {
        return 0;
    }
    let chosen = random.below(starts.len());
    let (at, before) = (starts[chosen], starts[..chosen].iter().map(|&at| cycles(at)).sum::<u64>());
    if random.percent(40) {
        return before + if random.percent(50) { cycles(at) } else { 0 };
    }
    before
        + match statement(at).act {
            Act::Loop { turns, turn_cycles } => {
                let turn = Range { first: at + 1, end: statement(at).next };
                turn_at(turns, random) * turn_cycles + edge_in(document, turn, 0, random)
            }
            Act::Shift => turn_at(shifts, random),
            Act::Macro(used) | Act::Call(used) => {
                let body = document.bodies.bodies[used.body as usize].statements;
                edge_in(document, body, used.shifts, random)
            }
            Act::Vector { .. } | Act::Condition { .. } | Act::Table(_) | Act::Mark(_) => cycles(at),
        }
}

/// The first turn, the second, one in the middle or the last; 0 where there is none.
fn turn_at(turns: u32, random: &mut Random) -> u64 {
    let last = turns.saturating_sub(1);
    u64::from([0, 1, turns / 2, last][random.below(4)].min(last))
}
