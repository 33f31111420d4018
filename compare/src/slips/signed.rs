//! Slips in times before the cycle's start: each is a right reading of another text as long.

use super::{Slip, Slipping, WITH_SIGNED};
use second::tokens::{check_bytes, tokens, Token};

impl Slipping<'_> {
    /// The text that a slip takes this one for.
    pub(super) fn signed_text(&self) -> Option<Vec<u8>> {
        let text = self.second.text;
        if !WITH_SIGNED.contains(&self.slip) || check_bytes(text).is_err() {
            return None;
        }
        let words: Vec<Token> = tokens(text, 0).collect();
        let mut taken = text.to_vec();
        // What stands before an opening quote, the sign behind it, and the word behind the sign.
        let behind_quote = words.windows(4).filter(|four| four[1].first == b'\'' && four[0].first != b'=');
        for four in behind_quote {
            let (period, sign) = (four[0].bytes(text) == b"Period", four[2].first);
            let (before, word) = (four[2].place as usize, four[3].place as usize..four[3].end());
            match (self.slip, sign) {
                (Slip::SignedUnread, b'-') if !period => taken[before] = b'+',
                (Slip::SignedTwice, b'-') if four[3].first == b'-' => taken[word].fill(b' '),
                (Slip::SignedPlus, b'+') if !period => taken[before] = b' ',
                (Slip::SignedPeriod, b'-') if period => taken[before] = b' ',
                (Slip::SignedPastBound, b'-') if four[3].bytes(text) == b"1000000001ps" => taken[word.end - 3] = b'0',
                (Slip::SignedZeroApart, b'-') if !period && is_zero(four[3].bytes(text)) => taken[word.end - 3] = b'1',
                (Slip::SignedRisingAmounts, b'-') if !period => taken[before] = b' ',
                _ => {}
            }
        }
        Some(taken).filter(|taken| taken != text)
    }
}

fn is_zero(time: &[u8]) -> bool {
    time.len() > 2 && time[..time.len() - 2].iter().all(|&digit| digit == b'0')
}
