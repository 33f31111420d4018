//! Calls with a fail report.

use crate::call::{room_around, Call};
use crate::index::Given;
use crate::lent::{Rooms, Slices};
use crate::reader::Reader;
use second::bounds::MAX_TEXT;
use second::generate::random::Random;
use second::generate::report;
use second::Document;

#[derive(Debug)]
pub struct Report {
    pub report: Given,
    pub cycles: usize,
    pub signals: usize,
    pub letters: usize,
    pub room: usize,
}

impl Report {
    pub const DUE: usize = 1;

    pub fn draw(document: Option<&Document>, random: &mut Random) -> Report {
        let report = report(document, random);
        let due = document.and_then(|document| document.fails(&report).ok()).map_or(1, |fails| fails.len());
        let [cycles, signals, letters] = [0; 3].map(|_| room_around(due, random));
        Report { report: Given(report), cycles, signals, letters, room: room_around(Report::DUE, random) }
    }

    /// With room for any report.
    pub fn with_room(report: Vec<u8>) -> Report {
        let most = MAX_TEXT / 2;
        Report { report: Given(report), cycles: most, signals: most, letters: most, room: Report::DUE }
    }
}

impl Call for Report {
    fn rooms(&self) -> Rooms {
        Rooms { numbers: self.room, times: self.cycles, bytes: self.letters, counts: self.signals }
    }

    fn make(&self, reader: &dyn Reader, lent: Slices) -> u64 {
        reader.report(&self.report.0, lent)
    }
}
