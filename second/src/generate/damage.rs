//! Hurt texts: what goes wrong on the way, by token and by byte.

use super::random::Random;
use super::tokens::Tokens;

const STRAY: [&str; 24] = [
    "#", "{", "}", ";", "'", "(", ")", "+", "-", "=", "/", "\\", "V", "Loop", "Shift", "0", "A", "W", "%", "\"",
    "Pattern", "In", "1.0", "zz",
];

/// One change to the row of tokens.
pub fn damage_tokens(tokens: &mut Tokens, random: &mut Random) {
    let row = &mut tokens.0;
    if row.len() < 3 {
        return;
    }
    let at = random.below(row.len() - 1);
    match random.below(7) {
        0 => {
            row.remove(at);
        }
        1 => {
            let token = row[at].clone();
            row.insert(at, token);
        }
        2 => row.swap(at, at + 1),
        3 => {
            let other = random.below(row.len());
            row.swap(at, other);
        }
        4 => row[at] = random.pick(&STRAY).to_string(),
        5 => row.insert(at, random.pick(&STRAY).to_string()),
        _ => damage_word(row, random),
    }
}

/// Changes one word into one near to it.
fn damage_word(row: &mut [String], random: &mut Random) {
    let words: Vec<usize> = (0..row.len()).filter(|&at| row[at].as_bytes()[0].is_ascii_alphanumeric()).collect();
    if words.is_empty() {
        return;
    }
    let at = words[random.below(words.len())];
    let word = &mut row[at];
    match random.below(8) {
        0 => word.push('1'),
        1 => word.push('_'),
        2 => word.push('.'),
        3 => word.insert(0, '0'),
        4 => *word = word.to_ascii_lowercase(),
        5 => *word = word.repeat(40),
        6 if word.len() > 1 => {
            word.pop();
        }
        _ => *word = words.get(random.below(words.len())).map_or("q", |_| "Call").to_string(),
    }
}

const BYTES: &[u8] = b"\x00\x01\x0b\x1f\x7f\x80\xff#'{};=/*\\ \n\r09AVWx_.-+()";

/// One change to the bytes.
pub fn damage_bytes(text: &mut Vec<u8>, random: &mut Random) {
    if text.is_empty() {
        return;
    }
    let at = random.below(text.len());
    match random.below(8) {
        0 => text.truncate(at),
        1 => {
            text.remove(at);
        }
        2 => text[at] ^= 1 << random.below(8),
        3 => text.insert(at, BYTES[random.below(BYTES.len())]),
        4 => text[at] = BYTES[random.below(BYTES.len())],
        5 => {
            text.insert(at, b'*');
            text.insert(at, b'/');
        }
        6 => text.extend_from_slice(b"/* left open *"),
        _ => {
            let end = (at + random.below(40)).min(text.len());
            text.drain(at..end);
        }
    }
}
