//! Calls of Name.

use crate::call::{number_around, room_around, Call};
use crate::lent::{Rooms, Slices};
use crate::reader::Reader;
use second::generate::random::Random;
use second::Document;

#[derive(Debug)]
pub struct Name {
    /// 0 for a signal, any other for a table.
    pub table: u8,
    pub number: u64,
    pub room: usize,
}

impl Name {
    pub const DUE: usize = 2;

    pub fn draw(document: Option<&Document>, random: &mut Random) -> Name {
        let table = [0, 1, 0, 1, 2, 255][random.below(6)];
        let count = document.map_or(1, |document| {
            let sum = document.summary();
            if table == 0 {
                sum.signals
            } else {
                sum.tables
            }
        });
        Name { table, number: number_around(count, random), room: room_around(Name::DUE, random) }
    }
}

impl Call for Name {
    fn rooms(&self) -> Rooms {
        Rooms { numbers: self.room, ..Rooms::default() }
    }

    fn make(&self, reader: &dyn Reader, lent: Slices) -> u64 {
        reader.name(self.table, self.number, lent.numbers)
    }
}
