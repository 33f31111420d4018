//! Slips in hex data: most are a right reading of another text as long.

use super::{Slip, Slipping, WITH_HEX};
use crate::reader::{Reader, Second};
use second::tokens::{check_bytes, tokens, Token};

impl Slipping<'_> {
    pub(super) fn hex_checked(&self, numbers: &mut [u64]) -> u64 {
        let answer = match self.hex_text() {
            Some(text) => Second::new(&text).check(numbers),
            None => self.second.check(numbers),
        };
        let (number, place) = (answer % 32, answer / 32);
        match self.slip {
            Slip::HexCharsEight if number == 12 && self.chars_at(place).map_or(false, |chars| chars.length > 4) => {
                answer - 12 + 8
            }
            Slip::HexCharsTwice if number == 11 && self.chars_at(place).is_some() => answer + 1,
            _ => answer,
        }
    }

    /// The CHARS of a base at this place.
    fn chars_at(&self, place: u64) -> Option<Token> {
        let text = self.second.text;
        let words: Vec<Token> = tokens(text, 0).collect();
        let pair = words.windows(2).find(|pair| u64::from(pair[1].place) == place)?;
        Some(pair[1]).filter(|_| pair[0].bytes(text) == b"Hex")
    }

    /// The text that a slip takes this one for.
    pub(super) fn hex_text(&self) -> Option<Vec<u8>> {
        let text = self.second.text;
        if !WITH_HEX.contains(&self.slip) || check_bytes(text).is_err() {
            return None;
        }
        let words: Vec<Token> = tokens(text, 0).collect();
        let mut taken = text.to_vec();
        match self.slip {
            Slip::HexLastZero => {
                let bases = words.windows(2).filter(|pair| pair[0].bytes(text) == b"Hex" && pair[1].is_word());
                bases.for_each(|pair| taken[pair[1].place as usize..pair[1].end()].reverse());
            }
            Slip::HexScanMore => {
                let more = words.iter().filter(|word| word.bytes(text) == b"4097");
                more.for_each(|word| taken[word.end() - 1] = b'6');
            }
            Slip::HexPlainUnread => {
                let marks = words.windows(2).filter(|pair| pair[0].first == b'\\' && pair[1].bytes(text) == b"e");
                marks.for_each(|pair| taken[pair[1].place as usize] = b'h');
            }
            _ => {
                for word in digits(text, &words) {
                    let bytes = &mut taken[word.place as usize..word.end()];
                    bytes.iter_mut().for_each(|byte| *byte = self.digit(*byte));
                }
            }
        }
        Some(taken).filter(|taken| taken != text)
    }

    fn digit(&self, digit: u8) -> u8 {
        let value = (digit as char).to_digit(16);
        match (self.slip, value) {
            (Slip::HexBackwards, Some(value)) => {
                let back = (0..4).fold(0, |back, bit| back | (value >> bit & 1) << (3 - bit));
                char::from_digit(back, 16).map_or(digit, |back| back as u8)
            }
            (Slip::HexCapitalsOnly, Some(_)) if digit.is_ascii_lowercase() => b'g',
            _ => digit,
        }
    }
}

/// The words of hex data on groups with a base.
fn digits(text: &[u8], words: &[Token]) -> Vec<Token> {
    let (mut based, mut found): (Vec<&[u8]>, Vec<Token>) = (Vec::new(), Vec::new());
    for at in 1..words.len().saturating_sub(1) {
        if words[at].first != b'=' {
            continue;
        }
        let (name, rest) = (words[at - 1].bytes(text), &words[at + 1..]);
        if rest[0].first == b'\'' {
            let behind = rest[1..].iter().position(|word| word.first == b'\'').and_then(|quote| rest.get(quote + 2));
            if behind.map_or(false, |behind| behind.first == b'{') {
                based.push(name);
            }
        } else if based.contains(&name) {
            let data = rest.iter().take_while(|word| word.first != b';' && word.bytes(text) != b"e");
            found.extend(data.filter(|word| word.is_word() && word.first != b'r'));
        }
    }
    found
}
