//! Calls of the line and column of a place.

use crate::call::{number_around, room_around, Call};
use crate::lent::{Rooms, Slices};
use crate::reader::{Reader, Second};
use second::generate::random::Random;

#[derive(Debug)]
pub struct Line {
    pub place: u64,
    pub room: usize,
}

impl Line {
    pub const DUE: usize = 2;

    /// At each byte, at the end and past it.
    pub fn every(text: &[u8]) -> Vec<Line> {
        (0..=text.len() as u64 + 1).chain([u64::MAX]).map(Line::with_room).collect()
    }

    pub fn with_room(place: u64) -> Line {
        Line { place, room: Line::DUE }
    }

    /// Where the text is refused, beside a LF, or anywhere; and with any room.
    pub fn draw(second: &Second, random: &mut Random) -> Line {
        let text = second.text;
        let anywhere = number_around(text.len() as u64, random);
        let after = text.iter().skip(anywhere.min(text.len() as u64) as usize).position(|&byte| byte == b'\n');
        let place = match (random.below(4), second.document(), after) {
            (0, Err(refusal), _) => refusal.place,
            (1 | 2, _, Some(after)) => anywhere + after as u64 + random.below(2) as u64,
            _ => anywhere,
        };
        Line { place, room: room_around(Line::DUE, random) }
    }
}

impl Call for Line {
    fn rooms(&self) -> Rooms {
        Rooms { numbers: self.room, ..Rooms::default() }
    }

    fn make(&self, reader: &dyn Reader, lent: Slices) -> u64 {
        reader.line(self.place, lent.numbers)
    }
}
