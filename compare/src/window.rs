//! Calls of Window.

use crate::call::{room_around, Call};
use crate::lent::{Rooms, Slices};
use crate::reader::Reader;
use second::bounds::MAX_CYCLES;
use second::edges::edge;
use second::generate::random::Random;
use second::{Document, DOT, MARK};

#[derive(Debug)]
pub struct Window {
    pub first: u64,
    pub wanted: u64,
    pub mark: u8,
    pub rows: usize,
    pub room: usize,
}

/// No more than these are lent for rows, nor so many for most calls.
const MOST_BYTES: u64 = 1 << 20;
const FEW_BYTES: u64 = 1 << 13;

impl Window {
    pub const DUE: usize = 2;

    /// Any cycles, any mark and any room.
    pub fn draw(document: Option<&Document>, random: &mut Random) -> Window {
        let cycles = document.map_or(7, |document| document.extent.cycles);
        let first = draw_first(document, cycles, random);
        let left = cycles.saturating_sub(first);
        let wanted = draw_wanted(left, random);
        let width = document.map_or(4, |document| document.row_width()) as u64;
        let rows = draw_room(wanted.min(left) * width, random);
        let mark = draw_mark(random);
        Window { first, wanted, mark, rows, room: room_around(Window::DUE, random) }
    }

    /// At every cycle of a short run: none, one and two rows, and all in just enough room and in too little.
    pub fn every(document: &Document) -> Vec<Window> {
        let (cycles, width) = (document.extent.cycles, document.row_width() as u64);
        let at = |first: u64, wanted: u64, more: i64| {
            let need = wanted.min(cycles.saturating_sub(first)) * width;
            Window { first, wanted, mark: MARK, rows: (need as i64 + more).max(0) as usize, room: Window::DUE }
        };
        let asks = [(0, 0), (1, 0), (2, 3), (u64::MAX, 0), (u64::MAX, -1)];
        (0..=cycles + 1).flat_map(|first| asks.map(|(wanted, more)| at(first, wanted, more))).collect()
    }
}

/// A cycle of the run or past it, most often where a statement begins or ends.
pub fn draw_first(document: Option<&Document>, cycles: u64, random: &mut Random) -> u64 {
    let ends = [
        0,
        cycles.saturating_sub(1),
        cycles,
        cycles + 1,
        MAX_CYCLES - 1,
        MAX_CYCLES,
        (random.draw() % cycles.max(1)).wrapping_add(1 << 32),
        1 << 63,
        u64::MAX,
        random.draw(),
    ];
    match (document, random.below(10)) {
        (Some(document), 0..=2) => edge(document, random),
        (Some(document), 3) => edge(document, random).saturating_sub(1),
        (Some(document), 4) => edge(document, random) + 1,
        (_, 5..=7) => random.draw() % cycles.max(1),
        _ => ends[random.below(ends.len())],
    }
}

fn draw_wanted(left: u64, random: &mut Random) -> u64 {
    let few = random.between(3, 40) as u64;
    let wanted =
        [0, 1, 2, few, few, left.saturating_sub(1), left, left + 1, left.saturating_add(1 << 32), 1 << 63, u64::MAX];
    wanted[random.below(wanted.len())]
}

/// Mostly one that is allowed; else one next to those that are not, or any.
fn draw_mark(random: &mut Random) -> u8 {
    let near = *b"/0 9:@AMZ[`amz{\t\n\x0b\r.?\x80\xb0\xe1\x8a\xff\0";
    match random.below(4) {
        0 => near[random.below(near.len())],
        1 => random.draw() as u8,
        2 => DOT,
        _ => MARK,
    }
}

/// Room around the bytes that are due, as far as so many are lent at all; seldom very many.
fn draw_room(due: u64, random: &mut Random) -> usize {
    let rooms = [due, due, due, due + 1, due + 100, due.saturating_sub(1), due / 2, 0];
    let most = if random.percent(3) { MOST_BYTES } else { FEW_BYTES };
    rooms[random.below(rooms.len())].min(most) as usize
}

impl Call for Window {
    fn rooms(&self) -> Rooms {
        Rooms { numbers: self.room, bytes: self.rows, ..Rooms::default() }
    }

    fn make(&self, reader: &dyn Reader, lent: Slices) -> u64 {
        reader.window(self.first, self.wanted, self.mark, lent.bytes, lent.numbers)
    }
}
