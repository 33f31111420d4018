//! The index that is kept beside a text: its listed patterns with their cycles and places, and its tables.

use crate::document::Document;
use crate::listing::{names, section};
use crate::refusal::*;
use crate::services::Declared;
use std::ops::Range;

/// Writes the index to the front of the buffer; gives its length.
pub fn index(text: &[u8], buffer: &mut [u8]) -> Answer<u64> {
    Document::read(text)?.index(buffer)
}

/// Refuses an index that is not byte for byte what a rebuild writes.
pub fn belongs(text: &[u8], index: &[u8]) -> Answer<()> {
    Document::read(text)?.belongs(index)
}

/// The listed pattern that holds the cycle, by its number in the list; none at or past the end.
pub fn holds(text: &[u8], index: &[u8], cycle: u64) -> Answer<Option<u64>> {
    Document::read(text)?.holds(index, cycle)
}

impl Document<'_> {
    /// Each listed pattern with its cycles of the run.
    pub(crate) fn listed(&self) -> impl Iterator<Item = (usize, Range<u64>)> + '_ {
        self.run.iter().scan(0, move |end, &pattern| {
            let first = *end;
            *end += self.patterns[pattern].extent.cycles;
            Some((pattern, first..*end))
        })
    }

    fn rebuilt(&self) -> Vec<u8> {
        let mut out = Vec::new();
        section(&mut out, "PATTERNS", self.run.len() as u64);
        for (pattern, cycles) in self.listed() {
            let heading = &self.headings[pattern];
            let (first, count, place) = (cycles.start, cycles.end - cycles.start, heading.keyword.place);
            out.extend_from_slice(heading.name.bytes(self.text));
            out.extend_from_slice(format!(" {first} {count} {place}\n").as_bytes());
        }
        section(&mut out, "TABLES", self.timing.names.count() as u64);
        names(&mut out, self, Declared::Table);
        out
    }

    pub fn index(&self, buffer: &mut [u8]) -> Answer<u64> {
        let index = self.rebuilt();
        let front = buffer.get_mut(..index.len()).ok_or_else(|| Refusal::new(BUFFER_TOO_SHORT, 0))?;
        front.copy_from_slice(&index);
        Ok(index.len() as u64)
    }

    pub fn belongs(&self, index: &[u8]) -> Answer<()> {
        if index == self.rebuilt() {
            Ok(())
        } else {
            Err(Refusal::new(INDEX_NOT_OF_TEXT, 0))
        }
    }

    pub fn holds(&self, index: &[u8], cycle: u64) -> Answer<Option<u64>> {
        self.belongs(index)?;
        let number = self.listed().position(|(_, cycles)| cycles.contains(&cycle));
        Ok(number.map(|number| number as u64))
    }
}
