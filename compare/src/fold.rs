//! Calls of the folding.

use crate::call::{room_around, Call};
use crate::lent::{Rooms, Slices};
use crate::reader::Reader;
use second::bounds::MAX_TEXT;
use second::generate::random::Random;
use second::Document;

#[derive(Debug)]
pub struct Fold {
    pub bytes: usize,
    pub room: usize,
}

impl Fold {
    pub const DUE: usize = 1;

    pub fn draw(document: Option<&Document>, random: &mut Random) -> Fold {
        let due = document.and_then(|document| document.folded().ok()).map_or(MAX_TEXT, |folded| folded.len());
        let bytes = if random.percent(30) { MAX_TEXT + random.below(100) } else { room_around(due, random) };
        Fold { bytes, room: room_around(Fold::DUE, random) }
    }
}

impl Call for Fold {
    fn rooms(&self) -> Rooms {
        Rooms { numbers: self.room, bytes: self.bytes, ..Rooms::default() }
    }

    fn make(&self, reader: &dyn Reader, lent: Slices) -> u64 {
        reader.fold(lent.bytes, lent.numbers)
    }
}
