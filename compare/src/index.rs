//! Calls of the index, and of what is asked of one.

use crate::call::{room_around, Call};
use crate::lent::{Rooms, Slices};
use crate::reader::Reader;
use crate::window::draw_first;
use second::bounds::MAX_INDEX;
use second::generate::random::Random;
use second::Document;
use std::fmt::{self, Debug};

/// An index that is handed over, shown as it reads.
pub struct Given(pub Vec<u8>);

impl Debug for Given {
    fn fmt(&self, f: &mut fmt::Formatter) -> fmt::Result {
        write!(f, "\"{}\"", self.0.escape_ascii())
    }
}

#[derive(Debug)]
pub struct Index {
    pub bytes: usize,
    pub room: usize,
}

#[derive(Debug)]
pub struct Belongs {
    pub index: Given,
}

#[derive(Debug)]
pub struct Holds {
    pub index: Given,
    pub cycle: u64,
    pub room: usize,
}

impl Index {
    pub const DUE: usize = 1;

    pub fn draw(document: Option<&Document>, random: &mut Random) -> Index {
        let due = document.map_or(20, |document| right(document).len());
        let bytes = if random.percent(20) { MAX_INDEX } else { room_around(due, random) };
        Index { bytes, room: room_around(Index::DUE, random) }
    }
}

impl Belongs {
    pub fn draw(document: Option<&Document>, random: &mut Random) -> Belongs {
        Belongs { index: draw_index(document, 40, random) }
    }
}

impl Holds {
    pub const DUE: usize = 2;

    pub fn draw(document: Option<&Document>, random: &mut Random) -> Holds {
        let cycles = document.map_or(7, |document| document.extent.cycles);
        let cycle = draw_first(document, cycles, random);
        Holds { index: draw_index(document, 75, random), cycle, room: room_around(Holds::DUE, random) }
    }

    /// The first and the last cycle of each listed pattern, those beside them, and the largest number.
    pub fn edges(document: &Document) -> Vec<Holds> {
        let mut cycles = vec![0, u64::MAX];
        let mut end = 0;
        for &pattern in &document.run {
            end += document.patterns[pattern].extent.cycles;
            cycles.extend([end.saturating_sub(1), end, end + 1]);
        }
        let ask = |cycle| Holds { index: Given(right(document)), cycle, room: Holds::DUE };
        cycles.into_iter().map(ask).collect()
    }
}

pub fn right(document: &Document) -> Vec<u8> {
    let mut buffer = vec![0; MAX_INDEX];
    let length = document.index(&mut buffer).unwrap_or(0);
    buffer.truncate(length as usize);
    buffer
}

/// The right one in so many of a hundred; else one that is near to it, or no index at all.
fn draw_index(document: Option<&Document>, chance: usize, random: &mut Random) -> Given {
    let mut index = document.map_or_else(|| b"PATTERNS 1\np 0 7 312\nTABLES 1\nt0\n".to_vec(), right);
    if random.percent(chance) {
        return Given(index);
    }
    let (at, byte) = (random.below(index.len()), b" \n0129ptPT\r\0\xff"[random.below(13)]);
    match random.below(8) {
        0 => index.truncate(at),
        1 => index.truncate(index.len() - 1),
        2 => index.push(byte),
        3 => index.insert(at, byte),
        4 => index[at] ^= 1 << random.below(8),
        5 => drop(index.remove(at)),
        6 => index = [&index[..], &index[at..]].concat(),
        _ => index = vec![byte; random.below(3)],
    }
    Given(index)
}

impl Call for Index {
    fn rooms(&self) -> Rooms {
        Rooms { numbers: self.room, bytes: self.bytes, ..Rooms::default() }
    }

    fn make(&self, reader: &dyn Reader, lent: Slices) -> u64 {
        reader.index(lent.bytes, lent.numbers)
    }
}

impl Call for Belongs {
    fn rooms(&self) -> Rooms {
        Rooms::default()
    }

    fn make(&self, reader: &dyn Reader, _: Slices) -> u64 {
        reader.belongs(&self.index.0)
    }
}

impl Call for Holds {
    fn rooms(&self) -> Rooms {
        Rooms { numbers: self.room, ..Rooms::default() }
    }

    fn make(&self, reader: &dyn Reader, lent: Slices) -> u64 {
        reader.holds(&self.index.0, self.cycle, lent.numbers)
    }
}
