//! One call of one service, made of either reader.

use crate::lent::{Lent, Rooms, Slices};
use crate::reader::Reader;
use second::generate::random::Random;
use std::fmt::Debug;

/// The arguments of a call, and how it is made.
pub trait Call: Debug {
    fn rooms(&self) -> Rooms;
    fn make(&self, reader: &dyn Reader, lent: Slices) -> u64;

    /// What is lent, as it is before the call.
    fn lend(&self) -> Lent {
        Lent::new(self.rooms())
    }

    /// Whether all that was lent must be as it was, by this answer.
    fn keeps(&self, answer: u64) -> bool {
        answer != 0
    }
}

/// What a call leaves: its answer, and all that was lent.
pub fn outcome(call: &dyn Call, reader: &dyn Reader) -> (u64, Lent) {
    let mut lent = call.lend();
    let answer = call.make(reader, lent.slices());
    (answer, lent)
}

/// A number of one of `count` items: within, at the edges, past them, or one that a narrower number would cut to one within.
pub fn number_around(count: u64, random: &mut Random) -> u64 {
    let within = random.draw() % count.max(1);
    let edges = [
        0,
        count.wrapping_sub(1),
        count,
        count.wrapping_add(1),
        within.wrapping_add(1 << 8),
        within.wrapping_add(1 << 16),
        1 << 32,
        within.wrapping_add(1 << 32),
        1 << 63,
        u64::MAX,
        u64::MAX - within,
        random.draw(),
    ];
    if random.percent(50) {
        within
    } else {
        edges[random.below(edges.len())]
    }
}

/// The room for `due` numbers: mostly exact, else too short or longer.
pub fn room_around(due: usize, random: &mut Random) -> usize {
    match random.below(10) {
        0 => random.below(due.max(1)),
        1 => due.saturating_sub(1),
        2 => due + random.between(1, 9),
        _ => due,
    }
}
