//! Slips in the saving of hurt texts.

use super::{Slip, Slipping};
use crate::reader::{save_in, told};
use second::save::{blocks, hurt_span, Block, SPAN};
use second::{Document, Refusal};
use std::ops::Range;

type Saved = (Vec<u8>, Vec<Range<usize>>);

impl Slipping<'_> {
    pub(super) fn slipped_save(&self, text: &mut [u8], spans: &mut [u64], numbers: &mut [u64]) -> u64 {
        let (saved, overwritten) = match self.saved(text) {
            Ok(saved) => saved,
            Err((refusal, left)) => {
                if self.slip == Slip::SaveWritesThoughBeyond {
                    text.copy_from_slice(&left);
                }
                return if self.slips(Slip::SaveRoomFirst, numbers.is_empty()) { 19 } else { told(Err(refusal)) };
            }
        };
        let due = SPAN * overwritten.len();
        let list: Vec<u64> = overwritten.iter().flat_map(|span| self.told_span(span)).collect();
        if self.slips(Slip::SaveRoomOneMore, spans.len() == due) {
            return 19;
        }
        if numbers.is_empty() || spans.len() < due {
            return self.left_short(&saved, &list, text, spans, numbers);
        }
        text.copy_from_slice(&saved);
        spans[..due].copy_from_slice(&list);
        numbers[0] = overwritten.len() as u64;
        match self.slip {
            Slip::SaveCount => numbers[0] = due as u64,
            Slip::SaveRest if spans.len() > due => spans[due] = 0,
            Slip::SaveNumbersRest if numbers.len() > 1 => numbers[1] = 0,
            _ => {}
        }
        0
    }

    /// What a slip leaves where there is no room.
    fn left_short(&self, saved: &[u8], list: &[u64], text: &mut [u8], spans: &mut [u64], numbers: &mut [u64]) -> u64 {
        let fits = list.len().min(spans.len());
        match self.slip {
            Slip::SaveWritesThoughShort => text.copy_from_slice(saved),
            Slip::SaveListsThoughShort => spans[..fits].copy_from_slice(&list[..fits]),
            Slip::SaveListsWhatFits if !numbers.is_empty() => {
                text.copy_from_slice(saved);
                spans[..fits].copy_from_slice(&list[..fits]);
                numbers[0] = (fits / SPAN) as u64;
                return 0;
            }
            Slip::SaveWithoutNumber if numbers.is_empty() => return save_in(text, spans, &mut [0]),
            _ => {}
        }
        19
    }

    fn told_span(&self, span: &Range<usize>) -> [u64; SPAN] {
        let behind = if self.slip == Slip::SaveLength { span.end - span.start } else { span.end };
        [span.start as u64, behind as u64]
    }

    /// What a slip saves; or its refusal, and the text as far as it was overwritten.
    fn saved(&self, text: &[u8]) -> Result<Saved, (Refusal, Vec<u8>)> {
        let (mut saved, mut overwritten) = (text.to_vec(), Vec::new());
        let mut first = None;
        while let Err(refusal) = Document::read(&saved) {
            let first = *first.get_or_insert(refusal);
            let told = if self.slip == Slip::SaveFirstRefusal { first } else { refusal };
            let enough = self.slips(Slip::SaveOnce, overwritten.len() == 1);
            // A span that is overwritten already would be so again and again.
            let span = self.span(&saved, refusal).filter(|span| saved[span.clone()].iter().any(|&byte| byte > b' '));
            let span: Range<usize> = span.filter(|_| !enough).ok_or_else(|| (told, saved.clone()))?;
            let lines = self.slip == Slip::SaveKeepsLines;
            saved[span.clone()].iter_mut().filter(|byte| !lines || **byte != b'\n').for_each(|byte| *byte = b' ');
            overwritten.push(span);
        }
        if self.slip == Slip::SaveSorted {
            overwritten.sort_by_key(|span| span.start);
        }
        Ok((saved, overwritten))
    }

    /// What a slip overwrites for a refusal.
    fn span(&self, text: &[u8], refusal: Refusal) -> Option<Range<usize>> {
        let (number, place) = (refusal.number, refusal.place as usize);
        let right = hurt_span(text, refusal);
        let of_block = right.clone().filter(|_| number != 15);
        let is_open = |span: &Range<usize>| blocks(text).contains(&Block { bytes: span.clone(), closed: false });
        match self.slip {
            Slip::SaveBlockToBrace => {
                of_block.filter(|span| !is_open(span)).map(|span| span.start..span.end - 1).or(right)
            }
            Slip::SaveFromName => of_block.map(|span| span.start + 7..span.end).or(right),
            Slip::SaveUndefinedKept => of_block,
            Slip::SaveEntryToSemicolon if number == 15 => right.map(|span| span.start..span.end - 1),
            Slip::SaveCycleKept if number == 17 => None,
            Slip::SaveOpenKept => right.filter(|span| !is_open(span)),
            Slip::SaveEndKept if place == text.len() => None,
            Slip::SaveNextBlock if number != 15 => {
                right.or_else(|| blocks(text).into_iter().map(|block| block.bytes).find(|span| span.start > place))
            }
            Slip::SaveLastFor16 if number == 16 => blocks(text).pop().map(|block| block.bytes),
            Slip::SaveInnerPattern => of_block.map(|span| inner(text, span, place)).or(right),
            Slip::SaveBracesInComments => of_block.map(|span| span.start..by_bytes(text, span.start)).or(right),
            _ => right,
        }
    }
}

/// From the last word Pattern before the place, braces or not.
fn inner(text: &[u8], span: Range<usize>, place: usize) -> Range<usize> {
    let starts = text[span.start..span.end.min(place + 7)].windows(7).rposition(|word| word == b"Pattern");
    span.start + starts.unwrap_or(0)..span.end
}

/// The end of a block by its braces, those in comments too.
fn by_bytes(text: &[u8], start: usize) -> usize {
    let mut depth = 0;
    for (at, &byte) in text.iter().enumerate().skip(start) {
        depth += i32::from(byte == b'{') - i32::from(byte == b'}' && depth > 0);
        if byte == b'}' && depth == 0 {
            return at + 1;
        }
    }
    text.len()
}
