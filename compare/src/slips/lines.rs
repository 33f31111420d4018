//! Slips in lines and columns.

use super::{Slip, Slipping};
use crate::reader::line_of;
use second::tokens::check_bytes;

impl Slipping<'_> {
    pub(super) fn slipped_line(&self, place: u64, numbers: &mut [u64]) -> u64 {
        let text = self.second.text;
        let length = text.len() as u64;
        let room = numbers.len();
        match self.slip {
            Slip::LineBytes if check_bytes(text).is_err() => return 2,
            Slip::LinePastEnd if place > length => return 18,
            Slip::LineEndOfText if place == length => return 18,
            Slip::LineRoom if room == 1 => return 0,
            Slip::LineWritesThoughShort if room == 1 => numbers[0] = 1,
            _ => {}
        }
        let answer = line_of(&self.text_read(), self.place_read(place), numbers);
        if answer == 0 {
            self.told_otherwise(numbers);
        }
        answer
    }

    /// The text as a slip reads it.
    fn text_read(&self) -> Vec<u8> {
        let ends = |byte: u8| if byte == b'\r' { b'\n' } else { byte };
        let text = self.second.text;
        match self.slip {
            Slip::LineReturn => text.iter().map(|&byte| ends(byte)).collect(),
            Slip::LineOutsideComments => outside(text),
            _ => text.to_vec(),
        }
    }

    fn place_read(&self, place: u64) -> u64 {
        match self.slip {
            Slip::LineEnd if self.second.text.get(place as usize) == Some(&b'\n') => place + 1,
            Slip::LineCut => place & 0xffff,
            Slip::LineColumnCut => place & 0xffff_ffff,
            _ => place,
        }
    }

    /// Line and column that are right, as a slip tells them.
    fn told_otherwise(&self, numbers: &mut [u64]) {
        match self.slip {
            Slip::LineFromNone => numbers[0] -= 1,
            Slip::LineColumnFromNone => numbers[1] -= 1,
            Slip::LineSwapped => numbers.swap(0, 1),
            Slip::LineRest if numbers.len() > 2 => numbers[2] = 0,
            _ => {}
        }
    }
}

/// Comments by `/*` with blanks for their LF.
fn outside(text: &[u8]) -> Vec<u8> {
    let mut read = text.to_vec();
    let mut within = false;
    for at in 0..read.len() {
        within = (within || text[at..].starts_with(b"/*")) && !text[..at].ends_with(b"*/");
        if within && read[at] == b'\n' {
            read[at] = b' ';
        }
    }
    read
}
