//! Slips in the mark of a window.

use super::{Slip, Slipping};
use crate::reader::Reader;
use second::{accept_mark, DOT, MARK};

impl Slipping<'_> {
    /// The window with the mark that a slip takes for the one given.
    pub(super) fn marked(&self, first: u64, wanted: u64, mark: u8, rows: &mut [u8], numbers: &mut [u64]) -> u64 {
        if accept_mark(mark).is_ok() {
            return self.second.window(first, wanted, self.shown(mark), rows, numbers);
        }
        let late = self.second.window(first, wanted, DOT, &mut rows.to_vec(), &mut numbers.to_vec());
        match self.slip {
            Slip::WindowMarkBeforeText => 12,
            Slip::WindowMarkUnshown if wanted == 0 => self.second.window(first, wanted, DOT, rows, numbers),
            Slip::WindowMarkBehindRoom if late == 19 => late,
            Slip::WindowMarkBehindRows if late == 19 && numbers.len() > 1 => late,
            Slip::WindowMarkBehindNumbers if late == 19 && numbers.len() < 2 => late,
            _ if self.is_taken(mark) => self.second.window(first, wanted, DOT, rows, numbers),
            _ => self.second.window(first, wanted, mark, rows, numbers),
        }
    }

    /// One that is allowed, as a slip shows it; a refused one is shown for what a slip refuses.
    fn shown(&self, mark: u8) -> u8 {
        match self.slip {
            Slip::WindowMarkDot => DOT,
            Slip::WindowMarkOther if mark != DOT => MARK,
            Slip::WindowMarkCut => mark & 127,
            Slip::WindowMarkReturn if mark == b'\r' => b'\n',
            Slip::WindowMarkHigh if !mark.is_ascii() => b'a',
            _ => mark,
        }
    }

    /// One that is not allowed, but for a slip.
    fn is_taken(&self, mark: u8) -> bool {
        match self.slip {
            Slip::WindowMarkLetter => mark.is_ascii_alphabetic(),
            Slip::WindowMarkDigit => mark.is_ascii_digit(),
            Slip::WindowMarkEnd => mark == b'\n',
            _ => false,
        }
    }
}
