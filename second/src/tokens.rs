//! Bytes, comments and tokens: the rules other tools use without the blocks.

use crate::bounds::MAX_TEXT;
use crate::lines::{position, Position};
use crate::refusal::*;

/// A token's or a declared name's place in the whole text, its length, and its line and column.
#[derive(Clone, Copy, Debug, PartialEq, Eq)]
pub struct Located {
    pub place: u64,
    pub length: u64,
    pub position: Position,
}

/// A token as the blocks use it: small, and with its first byte at hand.
#[derive(Clone, Copy, Debug)]
pub struct Token {
    pub place: u32,
    pub length: u32,
    pub first: u8,
}

impl Token {
    pub fn is_word(self) -> bool {
        CLASS[self.first as usize] == WORD
    }

    pub fn bytes(self, text: &[u8]) -> &[u8] {
        &text[self.place as usize..self.end()]
    }

    pub fn end(self) -> usize {
        (self.place + self.length) as usize
    }

    pub fn refuse(self, number: u8) -> Refusal {
        Refusal::new(number, self.place as usize)
    }

    pub fn located(self, text: &[u8]) -> Located {
        let place = self.place.into();
        Located { place, length: self.length.into(), position: position(text, place) }
    }
}

const NOT_ALLOWED: u8 = 0;
const BLANK: u8 = 1;
const WORD: u8 = 2;
const ALONE: u8 = 3;

static CLASS: [u8; 256] = classes();

const fn classes() -> [u8; 256] {
    let mut table = [NOT_ALLOWED; 256];
    let mut byte = 0;
    while byte < 256 {
        table[byte] = match byte as u8 {
            b' ' | b'\t' | b'\n' | b'\r' => BLANK,
            b'a'..=b'z' | b'A'..=b'Z' | b'0'..=b'9' | b'_' | b'.' => WORD,
            33..=126 => ALONE,
            _ => NOT_ALLOWED,
        };
        byte += 1;
    }
    table
}

pub fn is_allowed(byte: u8) -> bool {
    CLASS[byte as usize] != NOT_ALLOWED
}

pub fn is_blank(byte: u8) -> bool {
    CLASS[byte as usize] == BLANK
}

/// The next token as if reading began at `place`; its line and column are those in the whole text.
pub fn token(text: &[u8], place: u64) -> Answer<Option<Located>> {
    Ok(next_token(text, place)?.map(|token| token.located(text)))
}

/// The same without line and column, so that nothing before the place is looked at.
pub fn next_token(text: &[u8], place: u64) -> Answer<Option<Token>> {
    if text.len() > MAX_TEXT {
        return Err(Refusal::new(TEXT_TOO_LONG, 0));
    }
    if place >= text.len() as u64 {
        return Ok(None);
    }
    let token = token_at(text, skip_separators(text, place as usize)?);
    Ok(Some(token).filter(|token| token.length > 0))
}

/// Refusals 1 to 3, which a whole text must pass before its blocks are read.
pub fn check_bytes(text: &[u8]) -> Answer<()> {
    if text.len() > MAX_TEXT {
        return Err(Refusal::new(TEXT_TOO_LONG, 0));
    }
    if let Some(place) = first_not_allowed(text) {
        return Err(Refusal::new(BYTE_NOT_ALLOWED, place));
    }
    // No word holds a `/`, so comments are found from one `/` to the next.
    let mut at = 0;
    while let Some(place) = next_slash(text, at) {
        at = match text.get(place + 1) {
            Some(b'/') => line_comment_end(text, place)?,
            Some(b'*') => closed_comment_end(text, place)?,
            _ => place + 1,
        };
    }
    Ok(())
}

fn next_slash(text: &[u8], from: usize) -> Option<usize> {
    let mut at = from;
    for chunk in text[from..].chunks(64) {
        // Whole chunks without a branch for each byte: slashes are few.
        if chunk.iter().fold(false, |found, &byte| found | (byte == b'/')) {
            return chunk.iter().position(|&byte| byte == b'/').map(|slash| at + slash);
        }
        at += chunk.len();
    }
    None
}

/// The first token from a place on, of a text whose bytes were checked; of length 0 where there is none.
#[inline]
pub fn token_from(text: &[u8], at: usize) -> Token {
    let mut place = at;
    while place < text.len() && CLASS[text[place] as usize] == BLANK {
        place += 1;
    }
    // Only a `/` can begin more of what separates tokens.
    if text.get(place) == Some(&b'/') {
        place = skip_separators(text, place).unwrap_or(text.len());
    }
    token_at(text, place)
}

/// All tokens from a place on, of a text whose bytes were checked.
pub fn tokens(text: &[u8], from: usize) -> impl Iterator<Item = Token> + '_ {
    let next = move |at: usize| Some(token_from(text, at)).filter(|token| token.length > 0);
    std::iter::successors(next(from), move |last| next(last.end()))
}

fn first_not_allowed(text: &[u8]) -> Option<usize> {
    let allowed = |byte: u8| matches!(byte, 32..=126 | b'\t' | b'\n' | b'\r');
    // Whole chunks without a branch for each byte: nearly all texts are clean.
    let clean = |chunk: &[u8]| chunk.iter().fold(true, |ok, &byte| ok & allowed(byte));
    if text.chunks(256).all(clean) {
        return None;
    }
    text.iter().position(|&byte| !allowed(byte))
}

/// The token that begins right here; of length 0 at the end of the text.
fn token_at(text: &[u8], place: usize) -> Token {
    let rest = &text[place..];
    let first = rest.first().copied().unwrap_or(0);
    let is_word = |&byte: &u8| CLASS[byte as usize] == WORD;
    let length = if is_word(&first) {
        rest.iter().position(|byte| !is_word(byte)).unwrap_or(rest.len())
    } else {
        rest.len().min(1)
    };
    Token { place: place as u32, length: length as u32, first }
}

/// The place of the first byte that is neither blank nor in a comment.
fn skip_separators(text: &[u8], mut at: usize) -> Answer<usize> {
    while at < text.len() {
        match CLASS[text[at] as usize] {
            BLANK => at += 1,
            NOT_ALLOWED => return Err(Refusal::new(BYTE_NOT_ALLOWED, at)),
            ALONE if text[at] == b'/' => match text.get(at + 1) {
                Some(b'/') => at = line_comment_end(text, at)?,
                Some(b'*') => at = closed_comment_end(text, at)?,
                _ => break,
            },
            _ => break,
        }
    }
    Ok(at)
}

fn line_comment_end(text: &[u8], open: usize) -> Answer<usize> {
    let mut at = open + 2;
    while at < text.len() && text[at] != b'\n' {
        if CLASS[text[at] as usize] == NOT_ALLOWED {
            return Err(Refusal::new(BYTE_NOT_ALLOWED, at));
        }
        at += 1;
    }
    Ok(at)
}

/// A byte that is not allowed comes before the missing close, so both are looked for in one go.
fn closed_comment_end(text: &[u8], open: usize) -> Answer<usize> {
    let mut at = open + 2;
    while at < text.len() {
        if text[at] == b'*' && text.get(at + 1) == Some(&b'/') {
            return Ok(at + 2);
        }
        if CLASS[text[at] as usize] == NOT_ALLOWED {
            return Err(Refusal::new(BYTE_NOT_ALLOWED, at));
        }
        at += 1;
    }
    Err(Refusal::new(COMMENT_NOT_CLOSED, open))
}
