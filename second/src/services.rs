//! The answers document 01 names. A refused call writes to no buffer.

use crate::document::Document;
use crate::refusal::*;
use crate::rows;
use crate::timing::Asked;
use crate::tokens::{Located, Token};

/// The five numbers of an accepted text.
#[derive(Clone, Copy, Debug, PartialEq, Eq)]
pub struct Summary {
    pub signals: u64,
    pub tables: u64,
    pub patterns: u64,
    pub cycles: u64,
    pub size: u64,
}

#[derive(Clone, Copy, Debug, PartialEq, Eq)]
pub struct Window {
    pub rows: u64,
    pub visits: u64,
}

#[derive(Clone, Copy, Debug, PartialEq, Eq)]
pub enum Declared {
    Signal,
    Table,
}

pub fn check(text: &[u8]) -> Answer<Summary> {
    Ok(Document::read(text)?.summary())
}

pub fn name(text: &[u8], declared: Declared, number: u64) -> Answer<Located> {
    let document = Document::read(text)?;
    let number = usize::try_from(number).unwrap_or(usize::MAX);
    let name = document.name(declared, number).ok_or_else(|| Refusal::new(NO_SUCH_ITEM, 0))?;
    Ok(name.located(text))
}

/// The mark shows a signal that is unassigned.
pub fn window(text: &[u8], first: u64, wanted: u64, mark: u8, buffer: &mut [u8]) -> Answer<Window> {
    Document::read(text)?.window(first, wanted, mark, buffer)
}

/// A mark that could be taken for a waveform character, or for a row's end, is refused, whatever rows are due.
pub fn accept_mark(mark: u8) -> Answer<()> {
    if mark.is_ascii_alphanumeric() || mark == b'\n' {
        return Err(Refusal::new(BAD_DATA, 0));
    }
    Ok(())
}

pub fn waveform(
    text: &[u8],
    table: u64,
    signal: u64,
    character: u8,
    times: &mut [i64],
    letters: &mut [u8],
) -> Answer<u64> {
    Document::read(text)?.waveform(Asked { table, signal, character }, times, letters)
}

/// The same answers from a text that was read once.
impl Document<'_> {
    pub fn summary(&self) -> Summary {
        Summary {
            signals: self.pins.signals as u64,
            tables: self.timing.names.count() as u64,
            patterns: self.run.len() as u64,
            cycles: self.extent.cycles,
            size: self.extent.size,
        }
    }

    pub fn name(&self, declared: Declared, number: usize) -> Option<Token> {
        match declared {
            Declared::Signal if number < self.pins.signals => self.pins.names.get(number),
            Declared::Signal => None,
            Declared::Table => self.timing.names.get(number),
        }
    }

    pub fn window(&self, first: u64, wanted: u64, mark: u8, buffer: &mut [u8]) -> Answer<Window> {
        accept_mark(mark)?;
        let rows = wanted.min(self.extent.cycles.saturating_sub(first));
        let bytes = rows * self.row_width() as u64;
        let due = usize::try_from(bytes).ok().and_then(|bytes| buffer.get_mut(..bytes));
        let due = due.ok_or_else(|| Refusal::new(BUFFER_TOO_SHORT, 0))?;
        Ok(Window { rows, visits: rows::write(self, first, mark, due) })
    }

    pub fn waveform(&self, asked: Asked, times: &mut [i64], letters: &mut [u8]) -> Answer<u64> {
        let events = self.timing.waveform(self.text, &self.pins, asked);
        let events = events.ok_or_else(|| Refusal::new(NO_SUCH_ITEM, 0))?;
        if times.len() < events.len() || letters.len() < events.len() {
            return Err(Refusal::new(BUFFER_TOO_SHORT, 0));
        }
        for (at, &(time, letter)) in events.iter().enumerate() {
            times[at] = time;
            letters[at] = letter;
        }
        Ok(events.len() as u64)
    }
}
