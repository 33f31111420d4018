//! The proved reader of STIL texts for programs in Rust: a safe face over its C interface, which `include/stil.h`
//! documents. A text is read anew at each call, and nothing is kept between calls.

mod raw;
mod refusal;

use refusal::answered;
pub use refusal::{Refusal, Refused};

/// Bounds of every accepted text: its bytes, and those of a row (256 signals, the table's digit and LF).
pub const TEXT_MOST: usize = 65_536;
pub const ROW_MOST: usize = 258;
const EVENTS_MOST: usize = 16;

/// What Check counts.
#[derive(Clone, Copy, Debug, PartialEq, Eq)]
pub struct Counts {
    pub signals: u64,
    pub tables: u64,
    pub listed: u64,
    pub cycles: u64,
    pub size: u64,
}

/// How many rows a window has, and the visits at its first cycle.
#[derive(Clone, Copy, Debug, PartialEq, Eq)]
pub struct Window {
    pub rows: u64,
    pub visits: u64,
}

/// An event of a waveform; its time is in ps, negative before the cycle's start.
#[derive(Clone, Copy, Debug, PartialEq, Eq)]
pub struct Event {
    pub time: i64,
    pub letter: u8,
}

/// A token's place in the text, and its length.
#[derive(Clone, Copy, Debug, PartialEq, Eq)]
pub struct Token {
    pub place: usize,
    pub length: usize,
}

/// Where an editor shows a place: both from 1, the column in bytes.
#[derive(Clone, Copy, Debug, PartialEq, Eq)]
pub struct Position {
    pub line: usize,
    pub column: usize,
}

#[derive(Clone, Copy, Debug, PartialEq, Eq)]
pub enum Kind {
    Signal,
    Table,
}

/// Any bytes; whether they are a STIL text, each call says.
#[derive(Clone, Copy)]
pub struct Text<'t>(pub &'t [u8]);

// SAFETY, for every call: each pointer and length is a slice's, which lives through the call; those that are written
// are lent to it alone; and the function is proved for any bytes, numbers and lengths.
impl<'t> Text<'t> {
    pub fn check(self) -> Result<Counts, Refused> {
        let mut n = [0; 5];
        answered(unsafe { raw::lutemeteor_check(self.0.as_ptr(), self.0.len(), n.as_mut_ptr(), n.len()) })?;
        let [signals, tables, listed, cycles, size] = n;
        Ok(Counts { signals, tables, listed, cycles, size })
    }

    /// The name of a signal or a table, by its number in the text's order.
    pub fn name(self, kind: Kind, number: u64) -> Result<&'t [u8], Refused> {
        let table = (kind == Kind::Table) as u8;
        let mut n = [0; 2];
        answered(unsafe {
            raw::lutemeteor_name(self.0.as_ptr(), self.0.len(), table, number, n.as_mut_ptr(), n.len())
        })?;
        let [place, length] = n.map(|number| number as usize);
        Ok(&self.0[place..place + length])
    }

    /// The rows of `wanted` cycles from the cycle `first` on, as far as there are so many, to the front of `rows`; `mark`
    /// stands for an unassigned pin.
    pub fn window(self, first: u64, wanted: u64, mark: u8, rows: &mut [u8]) -> Result<Window, Refused> {
        let mut n = [0; 2];
        answered(unsafe {
            raw::lutemeteor_window(
                self.0.as_ptr(),
                self.0.len(),
                first,
                wanted,
                mark,
                rows.as_mut_ptr(),
                rows.len(),
                n.as_mut_ptr(),
                n.len(),
            )
        })?;
        Ok(Window { rows: n[0], visits: n[1] })
    }

    /// The events of a character of a signal in a table.
    pub fn waveform(self, table: u64, signal: u64, character: u8) -> Result<Vec<Event>, Refused> {
        let (mut times, mut letters, mut count) = ([0; EVENTS_MOST], [0; EVENTS_MOST], [0]);
        answered(unsafe {
            raw::lutemeteor_waveform(
                self.0.as_ptr(),
                self.0.len(),
                table,
                signal,
                character,
                times.as_mut_ptr(),
                times.len(),
                letters.as_mut_ptr(),
                letters.len(),
                count.as_mut_ptr(),
                count.len(),
            )
        })?;
        let events = times.iter().zip(&letters).take(count[0] as usize);
        Ok(events.map(|(&time, &letter)| Event { time, letter }).collect())
    }

    /// The first token at or behind a place, by the rules of bytes, words and comments alone.
    pub fn token(self, at: u64) -> Result<Option<Token>, Refused> {
        let mut n = [0; 3];
        answered(unsafe { raw::lutemeteor_token(self.0.as_ptr(), self.0.len(), at, n.as_mut_ptr(), n.len()) })?;
        Ok((n[0] == 1).then(|| Token { place: n[1] as usize, length: n[2] as usize }))
    }

    /// The line and the column of a place. Two numbers are room enough, and nothing else is refused.
    pub fn position(self, place: u64) -> Position {
        let mut n = [0; 2];
        unsafe { raw::lutemeteor_line(self.0.as_ptr(), self.0.len(), place, n.as_mut_ptr(), n.len()) };
        Position { line: n[0] as usize, column: n[1] as usize }
    }
}
