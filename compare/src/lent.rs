//! What is lent to a call, with a margin around each slice, so that a write outside of it shows too.

use std::collections::hash_map::DefaultHasher;
use std::hash::{Hash, Hasher};

/// Items before and behind each slice.
const MARGIN: usize = 16;

/// The lengths of the slices that a call lends.
#[derive(Clone, Copy, Debug, Default)]
pub struct Rooms {
    pub numbers: usize,
    pub times: usize,
    pub bytes: usize,
    pub counts: usize,
}

#[derive(Clone, Hash, PartialEq, Eq)]
pub struct Lent {
    numbers: Vec<u64>,
    times: Vec<u64>,
    bytes: Vec<u8>,
    counts: Vec<u64>,
}

/// The slices alone, without their margins.
pub struct Slices<'l> {
    pub numbers: &'l mut [u64],
    pub times: &'l mut [u64],
    pub bytes: &'l mut [u8],
    pub counts: &'l mut [u64],
}

#[cfg(test)]
impl Slices<'_> {
    /// The same slices, lent for a shorter time.
    pub fn again(&mut self) -> Slices<'_> {
        Slices { numbers: self.numbers, times: self.times, bytes: self.bytes, counts: self.counts }
    }

    pub fn rooms(&self) -> Rooms {
        let Slices { numbers, times, bytes, counts } = self;
        Rooms { numbers: numbers.len(), times: times.len(), bytes: bytes.len(), counts: counts.len() }
    }
}

impl Lent {
    /// Filled with what is in no answer: numbers and bytes in the upper half, and times, which have a sign there, with the largest ones.
    pub fn new(rooms: Rooms) -> Lent {
        let fill = |room: usize| (0..room + 2 * MARGIN).map(|at| u64::MAX - at as u64);
        Lent {
            numbers: fill(rooms.numbers).collect(),
            times: fill(rooms.times).map(|fill| fill & i64::MAX as u64).collect(),
            bytes: fill(rooms.bytes).map(|fill| fill as u8 | 128).collect(),
            counts: fill(rooms.counts).collect(),
        }
    }

    pub fn slices(&mut self) -> Slices<'_> {
        Slices {
            numbers: within(&mut self.numbers),
            times: within(&mut self.times),
            bytes: within(&mut self.bytes),
            counts: within(&mut self.counts),
        }
    }

    /// One number for all that it holds, so that what two processes were lent can be held against each other.
    pub fn digest(&self) -> u64 {
        let mut hasher = DefaultHasher::new();
        self.hash(&mut hasher);
        hasher.finish()
    }

    /// The first item at which the two are not the same, and what each holds there.
    pub fn difference(&self, other: &Lent) -> Option<String> {
        // Whole slices at once: nearly all are the same.
        if self == other {
            return None;
        }
        differ("number", &self.numbers, &other.numbers)
            .or_else(|| differ("time", &self.times, &other.times))
            .or_else(|| differ("byte", &self.bytes, &other.bytes))
            .or_else(|| differ("count", &self.counts, &other.counts))
    }
}

fn within<T>(all: &mut [T]) -> &mut [T] {
    let end = all.len() - MARGIN;
    &mut all[MARGIN..end]
}

/// An item of the margin before the slice has a negative number.
fn differ<T: PartialEq + std::fmt::Display>(what: &str, ours: &[T], theirs: &[T]) -> Option<String> {
    let at = ours.iter().zip(theirs).position(|(ours, theirs)| ours != theirs)?;
    let number = at as i64 - MARGIN as i64;
    let room = ours.len() - 2 * MARGIN;
    Some(format!("{what} {number} of {room}: {} against {}", ours[at], theirs[at]))
}
