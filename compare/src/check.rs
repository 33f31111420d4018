//! Calls of Check.

use crate::call::{room_around, Call};
use crate::lent::{Rooms, Slices};
use crate::reader::Reader;
use second::generate::random::Random;

#[derive(Debug)]
pub struct Check {
    pub room: usize,
}

impl Check {
    pub const DUE: usize = 5;

    pub fn draw(random: &mut Random) -> Check {
        Check { room: room_around(Check::DUE, random) }
    }
}

impl Call for Check {
    fn rooms(&self) -> Rooms {
        Rooms { numbers: self.room, ..Rooms::default() }
    }

    fn make(&self, reader: &dyn Reader, lent: Slices) -> u64 {
        reader.check(lent.numbers)
    }
}
