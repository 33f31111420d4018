//! Calls of Waveform.

use crate::call::{number_around, room_around, Call};
use crate::lent::{Rooms, Slices};
use crate::reader::Reader;
use second::bounds::MAX_EVENTS;
use second::generate::random::Random;
use second::timing::Asked;
use second::Document;

#[derive(Debug)]
pub struct Waveform {
    pub asked: Asked,
    pub times: usize,
    pub letters: usize,
    pub count: usize,
}

/// No letter or digit, most of them next to one.
const NO_CHARACTERS: [u8; 14] = *b"/:@[`{_.# \n\0\x7f\xff";

impl Waveform {
    pub const DUE: usize = 1;

    pub fn draw(document: Option<&Document>, random: &mut Random) -> Waveform {
        let asked = draw_asked(document, random);
        let events = document.and_then(|document| document.timing.waveform(document.text, &document.pins, asked));
        let due = events.map_or_else(|| random.between(1, MAX_EVENTS), |events| events.len());
        let (times, letters) = draw_rooms(due, random);
        Waveform { asked, times, letters, count: room_around(Waveform::DUE, random) }
    }

    /// Every byte as character, of every signal in every table, and of one more of each.
    pub fn every(document: &Document) -> Vec<Waveform> {
        let sum = document.summary();
        let pairs = (0..=sum.tables).flat_map(|table| (0..=sum.signals).map(move |signal| (table, signal)));
        let asked = |(table, signal)| (0..=255).map(move |character| Asked { table, signal, character });
        pairs.flat_map(asked).map(Waveform::with_room).collect()
    }

    /// With room for any waveform.
    pub fn with_room(asked: Asked) -> Waveform {
        Waveform { asked, times: MAX_EVENTS, letters: MAX_EVENTS, count: Waveform::DUE }
    }
}

/// How many tables and signals there are, or would be.
fn counts(document: Option<&Document>) -> (u64, u64) {
    document.map_or((1, 1), |document| (document.summary().tables, document.summary().signals))
}

fn draw_asked(document: Option<&Document>, random: &mut Random) -> Asked {
    let asked = draw_there(document, random);
    if random.percent(60) {
        return asked;
    }
    draw_near(document, asked, random)
}

/// Any table and signal, with a character that has a waveform there, if there is one.
pub fn draw_there(document: Option<&Document>, random: &mut Random) -> Asked {
    let (tables, signals) = counts(document);
    let mut asked = Asked { table: random.draw() % tables, signal: random.draw() % signals, character: b'0' };
    let having = document.map_or(Vec::new(), |document| characters(document, asked));
    if !having.is_empty() {
        asked.character = having[random.below(having.len())];
    }
    asked
}

/// Another table, signal or character, or all of them; most often one that is not there.
pub fn draw_near(document: Option<&Document>, mut asked: Asked, random: &mut Random) -> Asked {
    let (tables, signals) = counts(document);
    let which = random.below(4);
    if which == 0 || which == 3 {
        asked.table = number_around(tables, random);
    }
    if which == 1 || which == 3 {
        asked.signal = number_around(signals, random);
    }
    if which > 1 {
        asked.character = draw_character(asked.character, random);
    }
    asked
}

/// Those that the signal has in the table.
fn characters(document: &Document, asked: Asked) -> Vec<u8> {
    let has = |&byte: &u8| document.timing.lacks(asked.signal as u8, byte) >> asked.table & 1 == 0;
    (0..128).filter(u8::is_ascii_alphanumeric).filter(has).collect()
}

/// Near the one given, no character at all, or any byte.
fn draw_character(near: u8, random: &mut Random) -> u8 {
    match random.below(6) {
        0 => near ^ 128,
        1 => near ^ 32,
        2 => near.wrapping_add(1),
        3 => near.wrapping_sub(1),
        4 => NO_CHARACTERS[random.below(NO_CHARACTERS.len())],
        _ => random.draw() as u8,
    }
}

/// Rooms for times and letters: enough, or one of them too short or empty.
fn draw_rooms(due: usize, random: &mut Random) -> (usize, usize) {
    let (short, long) = (due - 1, due + random.between(1, 20));
    let enough = [(due, due), (due, long), (long, due), (long, long)];
    let scant =
        [(due, short), (short, due), (long, short), (short, long), (short, short), (0, long), (long, 0), (0, 0)];
    if random.percent(60) {
        enough[random.below(enough.len())]
    } else {
        scant[random.below(scant.len())]
    }
}

impl Call for Waveform {
    fn rooms(&self) -> Rooms {
        Rooms { numbers: self.count, times: self.times, bytes: self.letters, ..Rooms::default() }
    }

    fn make(&self, reader: &dyn Reader, lent: Slices) -> u64 {
        reader.waveform(self.asked, lent.times, lent.bytes, lent.numbers)
    }
}
