//! Hex data (request 5): a group's base, and the characters that hex digits stand for.

use crate::bounds::MAX_SCAN;
use crate::data::Piece;
use crate::numbers::decimal;
use crate::reader::Reader;
use crate::refusal::*;

/// The characters of a base, the first standing for zero.
#[derive(Clone, Copy, Debug)]
pub struct Base {
    chars: [u8; 4],
    count: u8,
}

/// What stands behind a group's expression.
#[derive(Clone, Copy, Debug)]
pub struct Based {
    pub base: Base,
    /// The N of ScanIn or ScanOut, where one is given.
    pub scan: Option<u64>,
}

impl Base {
    fn of(chars: &[u8]) -> Base {
        let mut base = Base { chars: [0; 4], count: chars.len() as u8 };
        base.chars[..chars.len()].copy_from_slice(chars);
        base
    }

    /// How many characters one hex digit stands for: each has one bit of two, or two bits of three or four.
    pub fn worth(&self) -> u32 {
        if self.count == 2 {
            4
        } else {
            2
        }
    }

    /// A digit's character at this position, from its highest bits on, if it has one.
    fn find(&self, digit: u8, position: u32) -> Option<u8> {
        let bits = 4 / self.worth();
        let value = (digit as char).to_digit(16)? >> (4 - bits * (position + 1)) & ((1 << bits) - 1);
        self.chars[..self.count.into()].get(value as usize).copied()
    }

    /// Of a digit that is known to stand for characters.
    pub fn character(&self, digit: u8, position: u32) -> u8 {
        self.find(digit, position).unwrap_or(0)
    }

    pub fn reads(&self, word: &[u8]) -> bool {
        word.iter().all(|&digit| (0..self.worth()).all(|position| self.find(digit, position).is_some()))
    }

    pub fn is_zero(&self, character: u8) -> bool {
        character == self.chars[0]
    }
}

/// `{ Base Hex CHARS; }` behind the expression of a group with so many signals, on one of them also after `ScanIn N;` or `ScanOut N;`.
pub fn read(reader: &mut Reader, signals: usize) -> Answer<Based> {
    reader.byte(b'{')?;
    let mut scan = None;
    if signals == 1 && matches!(reader.word(), b"ScanIn" | b"ScanOut") {
        reader.take();
        scan = Some(reader.number(decimal, 1, MAX_SCAN)?);
        reader.byte(b';')?;
    }
    reader.fixed(b"Base")?;
    reader.fixed(b"Hex")?;
    let word = reader.any_word()?;
    let chars = word.bytes(reader.text);
    if (1..chars.len()).any(|at| chars[..at].contains(&chars[at])) {
        return Err(word.refuse(BAD_WAVEFORM));
    }
    if !(2..=4).contains(&chars.len()) || !chars.iter().all(u8::is_ascii_alphanumeric) {
        return Err(word.refuse(BAD_DATA));
    }
    reader.bytes(b";}")?;
    Ok(Based { base: Base::of(chars), scan })
}

/// The characters of one DATA so far: how many there are, and how many of them came from hex, which stand in front.
#[derive(Clone, Copy, Debug, Default)]
pub struct Length {
    pub all: u64,
    pub of_hex: u64,
}

impl Length {
    pub fn add(&mut self, piece: &Piece) {
        let count = u64::from(piece.count());
        self.all += count;
        self.of_hex += if piece.base.is_some() { count } else { 0 };
    }

    /// How many characters in front are dropped, of which `zeros` in a row are the first listed; none if the length is wrong.
    pub fn surplus(&self, due: u64, base: Option<&Base>, zeros: impl FnOnce() -> u64) -> Option<u64> {
        let surplus = self.all.checked_sub(due)?;
        let worth = base.map_or(1, |base| u64::from(base.worth()));
        let dropped = surplus < worth && surplus <= self.of_hex && (surplus == 0 || surplus <= zeros());
        Some(surplus).filter(|_| dropped)
    }
}
