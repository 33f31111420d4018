//! Calls of the waveforms by the list.

use crate::call::{room_around, Call};
use crate::lent::{Rooms, Slices};
use crate::reader::Reader;
use crate::waveform::{draw_near, draw_there};
use second::bounds::{MAX_EVENTS, MAX_WAVEFORMS};
use second::generate::random::Random;
use second::refusal::{BUFFER_TOO_SHORT, NO_SUCH_ITEM};
use second::timing::Asked;
use second::waveforms::ASKED;
use second::Document;

#[derive(Debug)]
pub struct Waveforms {
    pub list: Vec<u64>,
    pub times: usize,
    pub letters: usize,
    pub counts: usize,
    pub room: usize,
}

impl Waveforms {
    pub const DUE: usize = 1;

    pub fn draw(document: Option<&Document>, random: &mut Random) -> Waveforms {
        let list = draw_list(document, random);
        let groups = groups(document, &list);
        let (times, letters) = draw_rooms(&groups, random);
        let counts = room_around(list.chunks(ASKED).len(), random);
        Waveforms { list, times, letters, counts, room: room_around(Waveforms::DUE, random) }
    }

    /// With room for any list of as many waveforms.
    pub fn with_room(list: Vec<u64>) -> Waveforms {
        let counts = list.chunks(ASKED).len();
        let events = counts * MAX_EVENTS;
        Waveforms { list, times: events, letters: events, counts, room: Waveforms::DUE }
    }

    /// All waveforms of a text in full lists, the first few in all rooms, and the same with one that is not there.
    pub fn every(document: &Document) -> Vec<Waveforms> {
        let there = all_there(document);
        let few = &there[..there.len().min(3 * ASKED)];
        let full = there.chunks(MAX_WAVEFORMS * ASKED).map(|list| Waveforms::with_room(list.to_vec()));
        let stopped = [few, &[u64::MAX; ASKED], few].concat();
        let left_over = [few, &[0]].concat();
        full.chain([few.to_vec(), stopped, left_over].iter().flat_map(|list| in_all_rooms(document, list))).collect()
    }
}

/// Up to one more of each than is due.
fn in_all_rooms(document: &Document, list: &[u64]) -> Vec<Waveforms> {
    let due: usize = groups(Some(document), list).iter().sum();
    let mut calls = Vec::new();
    for (times, letters) in (0..=due + 1).flat_map(|times| (0..=due + 1).map(move |letters| (times, letters))) {
        for counts in 0..=list.chunks(ASKED).len() + 1 {
            let call = |room| Waveforms { list: list.to_vec(), times, letters, counts, room };
            calls.extend((0..=Waveforms::DUE + 1).map(call));
        }
    }
    calls
}

/// Every waveform of the text, as the numbers of a list.
fn all_there(document: &Document) -> Vec<u64> {
    let sum = document.summary();
    let pairs = (0..sum.tables).flat_map(|table| (0..sum.signals).map(move |signal| (table, signal)));
    let asked = pairs.flat_map(|(table, signal)| (0..=255).map(move |character| [table, signal, character]));
    asked.filter(|asked| events(document, asked).is_some()).flatten().collect()
}

/// How many events the waveform has that these numbers ask for, if they ask for one that is there.
fn events(document: &Document, numbers: &[u64]) -> Option<usize> {
    let character = u8::try_from(*numbers.get(2)?).ok()?;
    let asked = Asked { table: numbers[0], signal: numbers[1], character };
    document.timing.waveform(document.text, &document.pins, asked).map(|events| events.len())
}

/// The events of each waveform of the list up to the first that is not there.
fn groups(document: Option<&Document>, list: &[u64]) -> Vec<usize> {
    let events = |numbers| document.and_then(|document| events(document, numbers));
    list.chunks(ASKED).map_while(events).collect()
}

/// Waveforms that are there, in most lists; else one of them is not, or many; and now and then numbers are left over.
fn draw_list(document: Option<&Document>, random: &mut Random) -> Vec<u64> {
    let count = draw_count(random);
    let chance = [0, 0, 0, 100 / (count + 1), 30][random.below(5)];
    let mut list = Vec::new();
    for _ in 0..count {
        let there = draw_there(document, random);
        let wrong = random.percent(chance);
        let Asked { table, signal, character } = if wrong { draw_near(document, there, random) } else { there };
        let character = u64::from(character);
        let wide = [character, character, character + (1 << 8), character + (1 << 32), u64::MAX];
        list.extend([table, signal, if wrong { wide[random.below(wide.len())] } else { character }]);
    }
    if random.percent(15) {
        list.extend((0..random.between(1, ASKED - 1)).map(|_| [0, 1, u64::MAX][random.below(3)]));
    }
    list
}

/// Few, or about as many as are allowed; seldom far more.
fn draw_count(random: &mut Random) -> usize {
    match random.below(20) {
        0 => 0,
        1..=10 => random.between(1, 6),
        11..=13 => random.between(7, MAX_WAVEFORMS - 2),
        14..=16 => random.between(MAX_WAVEFORMS - 1, MAX_WAVEFORMS),
        17 => MAX_WAVEFORMS + 1,
        18 => random.between(MAX_WAVEFORMS + 1, MAX_WAVEFORMS + 6),
        _ => [128, 256, 320][random.below(3)],
    }
}

/// Rooms for times and letters: enough, or at least one of them ending in a group, between two or before them all.
fn draw_rooms(groups: &[usize], random: &mut Random) -> (usize, usize) {
    let due: usize = groups.iter().sum();
    let enough = [due, due + random.between(1, 20)];
    let mut scant = || {
        let front: usize = groups[..random.below(groups.len() + 1)].iter().sum();
        let rooms = [due, due + 1, due.saturating_sub(1), front, front + 1, front.saturating_sub(1), 0];
        rooms[random.below(rooms.len())]
    };
    let scant = (scant(), scant());
    match random.below(6) {
        0 => scant,
        1 => (scant.0, enough[random.below(2)]),
        2 => (enough[random.below(2)], scant.1),
        _ => (enough[random.below(2)], enough[random.below(2)]),
    }
}

impl Call for Waveforms {
    fn rooms(&self) -> Rooms {
        Rooms { numbers: self.room, times: self.times, bytes: self.letters, counts: self.counts }
    }

    fn make(&self, reader: &dyn Reader, lent: Slices) -> u64 {
        reader.waveforms(&self.list, lent)
    }

    /// Only the refusal of one waveform of the list may follow writing.
    fn keeps(&self, answer: u64) -> bool {
        ![0, NO_SUCH_ITEM, BUFFER_TOO_SHORT].map(u64::from).contains(&(answer % 32))
    }
}
