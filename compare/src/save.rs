//! Calls of the saving of a hurt text.

use crate::call::{room_around, Call};
use crate::lent::{Lent, Rooms, Slices};
use crate::reader::Reader;
use second::bounds::MAX_SPANS;
use second::generate::random::Random;
use second::save::{saved, SPAN};
use std::fmt::{self, Debug};

pub struct Save<'t> {
    text: &'t [u8],
    pub spans: usize,
    pub room: usize,
}

/// Without its text, which is the one that is named.
impl Debug for Save<'_> {
    fn fmt(&self, f: &mut fmt::Formatter) -> fmt::Result {
        let Save { spans, room, .. } = self;
        write!(f, "Save {{ spans: {spans}, room: {room} }}")
    }
}

impl<'t> Save<'t> {
    pub const DUE: usize = 1;

    /// Mostly room for all spans, else for one less, or any other.
    pub fn draw(text: &'t [u8], random: &mut Random) -> Save<'t> {
        let due = SPAN * saved(text).map_or(1, |(_, spans)| spans.len());
        let spans = if random.percent(20) { MAX_SPANS * SPAN } else { room_around(due, random) };
        Save { text, spans, room: room_around(Save::DUE, random) }
    }

    pub fn with_room(text: &'t [u8]) -> Save<'t> {
        Save { text, spans: MAX_SPANS * SPAN, room: Save::DUE }
    }
}

impl Call for Save<'_> {
    fn rooms(&self) -> Rooms {
        Rooms { numbers: self.room, bytes: self.text.len(), counts: self.spans, ..Rooms::default() }
    }

    fn make(&self, reader: &dyn Reader, lent: Slices) -> u64 {
        reader.save(lent.bytes, lent.counts, lent.numbers)
    }

    fn lend(&self) -> Lent {
        let mut lent = Lent::new(self.rooms());
        lent.slices().bytes.copy_from_slice(self.text);
        lent
    }
}
