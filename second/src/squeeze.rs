//! The intake of a whole raw text at once, the plain way: what it must give however the text is cut.

use crate::bounds::{MAX_RAW, MAX_TEXT};
use crate::refusal::*;
use crate::tokens::is_allowed;

/// A byte of the store: one that is kept, or the mark of a run.
#[derive(Clone, Copy, Debug, PartialEq, Eq)]
pub struct Stored {
    pub byte: u8,
    /// The place of the raw byte that it is stored with; the raw length for the close.
    pub with: usize,
}

/// The bytes stored from a raw text in a store of so much room.
pub fn squeeze(raw: &[u8], room: usize) -> Answer<Vec<u8>> {
    let fault = first_fault(raw);
    let read = &raw[..fault.map_or(raw.len(), |fault| fault.place as usize)];
    let (stored, open) = squeezed(read);
    let lacking = stored.get(room.min(MAX_TEXT)).map(|stored| Refusal::new(STORE_TOO_SHORT, stored.with));
    let at_a_byte = lacking.filter(|lacking| lacking.place < read.len() as u64);
    let unclosed = open.map(|open| Refusal::new(COMMENT_NOT_CLOSED, open));
    match at_a_byte.or(fault).or(unclosed).or(lacking) {
        Some(refusal) => Err(refusal),
        None => Ok(stored.iter().map(|stored| stored.byte).collect()),
    }
}

/// The first byte that is refused for itself: one that is not allowed, or the one past the limit.
fn first_fault(raw: &[u8]) -> Option<Refusal> {
    let wrong = raw.iter().take(MAX_RAW).position(|&byte| !is_allowed(byte));
    let wrong = wrong.map(|place| Refusal::new(BYTE_NOT_ALLOWED, place));
    wrong.or_else(|| (raw.len() > MAX_RAW).then(|| Refusal::new(TEXT_TOO_LONG, MAX_RAW)))
}

/// What a raw text is squeezed to, with enough room; and where a comment stands that is not closed.
pub fn squeezed(raw: &[u8]) -> (Vec<Stored>, Option<usize>) {
    let mut stored = Vec::new();
    let (mut at, mut open) = (0, None);
    while at < raw.len() {
        let mut end = at;
        while let Some(length) = separator(&raw[end..]) {
            open = Some(end).filter(|_| length > raw.len() - end);
            end = raw.len().min(end + length);
        }
        let is_run = end > at;
        let byte = match (is_run, raw[at..end].contains(&b'\n')) {
            (false, _) => raw[at],
            (true, false) => b' ',
            (true, true) => b'\n',
        };
        // Behind a run stands the byte that shows it over. One byte more shows that a `/` opens no comment.
        let shows = if raw.get(end) == Some(&b'/') { end + 1 } else { end };
        stored.push(Stored { byte, with: shows });
        at = if is_run { end } else { at + 1 };
    }
    (stored, open)
}

/// The length of the blank or comment that begins here, if one does; past the end for a comment that is not closed.
fn separator(rest: &[u8]) -> Option<usize> {
    match rest {
        [b' ' | b'\t' | b'\n' | b'\r', ..] => Some(1),
        [b'/', b'/', ..] => Some(rest.iter().position(|&byte| byte == b'\n').unwrap_or(rest.len())),
        [b'/', b'*', inner @ ..] => {
            let close = inner.windows(2).position(|two| two == b"*/");
            Some(close.map_or(rest.len() + 1, |close| close + 4))
        }
        _ => None,
    }
}
