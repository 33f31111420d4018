//! Saving a hurt text: a block that is refused, or a listed name without a pattern, is overwritten with spaces until the rest is accepted.

use crate::document::Document;
use crate::refusal::*;
use crate::tokens::tokens;
use std::ops::Range;

/// The numbers of one overwritten span in the list: its first byte, and the one behind it.
pub const SPAN: usize = 2;

/// A Pattern block as it is found by its braces alone.
#[derive(Clone, Debug, PartialEq, Eq)]
pub struct Block {
    pub bytes: Range<usize>,
    /// Whether a brace matches its first one; else it runs to the text's end.
    pub closed: bool,
}

impl Block {
    /// The text's end belongs to a block that no brace ends.
    fn holds(&self, place: usize) -> bool {
        self.bytes.contains(&place) || (!self.closed && place == self.bytes.end)
    }
}

/// Overwrites what is hurt where it stands, and lists the spans in the order of overwriting; gives their number. A refused call leaves text and list as
/// they were.
pub fn save(text: &mut [u8], spans: &mut [u64]) -> Answer<u64> {
    let (saved, overwritten) = saved(text)?;
    let list = spans.get_mut(..SPAN * overwritten.len()).ok_or_else(|| Refusal::new(BUFFER_TOO_SHORT, 0))?;
    for (numbers, span) in list.chunks_mut(SPAN).zip(&overwritten) {
        numbers.copy_from_slice(&[span.start as u64, span.end as u64]);
    }
    text.copy_from_slice(&saved);
    Ok(overwritten.len() as u64)
}

/// The saved text and its overwritten spans; or the refusal that no overwriting helps.
pub fn saved(text: &[u8]) -> Answer<(Vec<u8>, Vec<Range<usize>>)> {
    let (mut saved, mut overwritten) = (text.to_vec(), Vec::new());
    while let Err(refusal) = Document::read(&saved) {
        let span = hurt_span(&saved, refusal).ok_or(refusal)?;
        saved[span.clone()].fill(b' ');
        overwritten.push(span);
    }
    Ok((saved, overwritten))
}

/// What is to be overwritten for a refusal, if anything.
pub fn hurt_span(text: &[u8], refusal: Refusal) -> Option<Range<usize>> {
    let place = refusal.place as usize;
    match refusal.number {
        TOKEN_NOT_ALLOWED..=TOO_DEEP | CYCLE_WITHOUT_WAVEFORM | EVENTS_OUT_OF_ORDER => {
            blocks(text).into_iter().find(|block| block.holds(place)).map(|block| block.bytes)
        }
        PATTERN_NOT_DEFINED => Some(place..entry_end(text, place)),
        _ => None,
    }
}

/// Behind the `;` of the PatList name at this place.
fn entry_end(text: &[u8], place: usize) -> usize {
    let semicolon = tokens(text, place).find(|token| token.first == b';');
    semicolon.map_or(text.len(), |token| token.end())
}

/// All Pattern blocks from the left, of a text whose bytes and comments are in order.
pub fn blocks(text: &[u8]) -> Vec<Block> {
    let mut found = Vec::new();
    let (mut depth, mut start) = (0_usize, None);
    for token in tokens(text, 0) {
        match token.first {
            b'{' => depth += 1,
            b'}' => {
                let outermost = start.filter(|_| depth == 1);
                if let Some(first) = outermost {
                    found.push(Block { bytes: first..token.end(), closed: true });
                    start = None;
                }
                // Outside all braces a closing one matches nothing.
                depth = depth.saturating_sub(1);
            }
            _ if depth == 0 && token.bytes(text) == b"Pattern" => start = start.or(Some(token.place as usize)),
            _ => {}
        }
    }
    found.extend(start.map(|first| Block { bytes: first..text.len(), closed: false }));
    found
}
