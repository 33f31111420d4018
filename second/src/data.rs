//! DATA: words, repeats and `#`, one item at a time.

use crate::bounds::MAX_REPEAT;
use crate::hex::Base;
use crate::numbers::decimal;
use crate::reader::Reader;
use crate::refusal::*;
use crate::tokens::Token;

/// A word of data that stands `repeat` times, one after another; it is spelled out only where its characters are due.
#[derive(Clone, Copy, Debug)]
pub struct Piece {
    repeat: u32,
    place: u32,
    length: u32,
    /// Of hex digits; else the word's bytes are its characters.
    pub base: Option<Base>,
}

impl Piece {
    fn worth(&self) -> u32 {
        self.base.map_or(1, |base| base.worth())
    }

    /// The characters of the word once.
    fn once(&self) -> u32 {
        self.length * self.worth()
    }

    /// The largest repeat of a word as long as a text is below the largest u32, also of hex digits.
    pub fn count(&self) -> u32 {
        self.repeat * self.once()
    }

    /// Spells out its first characters, `most` at most.
    pub fn spell(&self, text: &[u8], most: u64, chars: &mut Vec<u8>) {
        let most = u64::from(self.count()).min(most) as usize;
        let start = chars.len();
        let once = most.min(self.once() as usize);
        match self.base {
            Some(_) => chars.extend((0..once as u32).map(|offset| self.character(text, offset))),
            None => chars.extend_from_slice(&text[self.place as usize..][..once]),
        }
        // What stands there is whole words, so it can be copied in ever longer parts.
        while chars.len() < start + most {
            let part = (chars.len() - start).min(start + most - chars.len());
            chars.extend_from_within(start..start + part);
        }
    }

    pub fn character(&self, text: &[u8], offset: u32) -> u8 {
        match self.base {
            Some(base) => {
                let digit = text[(self.place + offset / base.worth() % self.length) as usize];
                base.character(digit, offset % base.worth())
            }
            None => text[(self.place + offset % self.length) as usize],
        }
    }
}

pub enum Item {
    Word(Piece),
    Hash(Token),
    End(Token),
}

/// How the words of one DATA are read: on a name with a base as hex, until `\e` ends that.
pub struct Form {
    pub base: Option<Base>,
    hex: Option<Base>,
}

impl Form {
    pub fn of(base: Option<Base>) -> Form {
        Form { base, hex: base }
    }

    /// What comes next in DATA; `;` is its end.
    pub fn item(&mut self, reader: &mut Reader) -> Answer<Item> {
        let token = reader.peek();
        match token.first {
            b';' => Ok(Item::End(reader.take())),
            b'#' => Ok(Item::Hash(reader.take())),
            b'\\' => {
                reader.take();
                if self.base.is_some() && reader.is_fixed(b"e") {
                    reader.take();
                    self.hex = None;
                    return self.item(reader);
                }
                let repeat = repeat_count(reader)?;
                self.word(reader, repeat)
            }
            _ => self.word(reader, 1),
        }
    }

    fn word(&self, reader: &mut Reader, repeat: u32) -> Answer<Item> {
        let token = reader.any_word()?;
        let word = token.bytes(reader.text);
        let reads = match &self.hex {
            Some(base) => base.reads(word),
            // A word has letters, digits, `_` and `.`; only the first two are waveform characters.
            None => !word.iter().fold(false, |other, &byte| other | matches!(byte, b'_' | b'.')),
        };
        if !reads {
            return Err(token.refuse(BAD_DATA));
        }
        Ok(Item::Word(Piece { repeat, place: token.place, length: token.length, base: self.hex }))
    }

    /// On a name with a base a `#` may stand only where hex has ended and none came before.
    pub fn takes_hash(&self, of_hex: u64) -> bool {
        self.base.is_none() || (self.hex.is_none() && of_hex == 0)
    }
}

fn repeat_count(reader: &mut Reader) -> Answer<u32> {
    if !reader.is(b'r') {
        return Err(reader.refuse(TOKEN_NOT_ALLOWED));
    }
    let count = reader.number(|word| decimal(&word[1..]), 1, MAX_REPEAT)?;
    Ok(count as u32)
}

/// A place in an argument's data, moved on by each `#`.
#[derive(Clone, Copy, Debug, Default)]
pub struct Cursor {
    pub piece: u32,
    pub offset: u32,
}

impl Cursor {
    pub fn take(&mut self, text: &[u8], pieces: &[Piece]) -> u8 {
        let piece = &pieces[self.piece as usize];
        let character = piece.character(text, self.offset);
        self.step(piece, 1);
        character
    }

    fn step(&mut self, piece: &Piece, by: u32) {
        self.offset += by;
        if self.offset == piece.count() {
            *self = Cursor { piece: self.piece + 1, offset: 0 };
        }
    }

    /// Leaves out `count` characters.
    pub fn skip(&mut self, pieces: &[Piece], count: u32) {
        let mut left = count;
        while left > 0 {
            let piece = &pieces[self.piece as usize];
            let part = (piece.count() - self.offset).min(left);
            self.step(piece, part);
            left -= part;
        }
    }

    /// Goes past `count` characters. Of each piece the last ones are shown, as many as the word has at most: they hold all that were
    /// passed, and the last comes last.
    pub fn take_once(&mut self, text: &[u8], pieces: &[Piece], count: u32, mut show: impl FnMut(u8)) {
        let mut left = count;
        while left > 0 {
            let piece = &pieces[self.piece as usize];
            let part = (piece.count() - self.offset).min(left);
            let end = self.offset + part;
            (end - part.min(piece.once())..end).for_each(|offset| show(piece.character(text, offset)));
            self.step(piece, part);
            left -= part;
        }
    }
}
