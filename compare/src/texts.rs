//! The texts both readers are given: seeded ones, and in each run the special, the hurt, the short and the large ones.

use crate::comparison::{Comparison, Often};
use crate::intake;
use crate::special;
use second::bounds::MAX_TEXT;
use second::generate::random::Random;
use second::generate::{crossing, early, flat, hexed, hurt, large, marked, nested, text, LARGE_KINDS};

const SEEDED: Often = Often {
    names: 2,
    waveforms: 3,
    lists: 3,
    windows: 4,
    every: 0,
    tokens: 400,
    places: 16,
    lines: 8,
    indexes: 2,
    saves: 1,
    folds: 1,
    reports: 1,
    bytes: 64,
};
const HURT_SEEDED: Often = Often { tokens: 20, places: 2, lines: 2, saves: 3, ..SEEDED };
const FLAT_SEEDED: Often = Often { folds: 2, saves: 0, ..HURT_SEEDED };
const MARKED_SEEDED: Often = Often { reports: 6, saves: 1, ..FLAT_SEEDED };
const EARLY_SEEDED: Often = Often { waveforms: 8, lists: 6, saves: 1, ..HURT_SEEDED };
const EACH: Often = Often { every: 200, bytes: 4_096, ..SEEDED };
const SPECIAL: Often = Often {
    names: 100,
    waveforms: 200,
    lists: 200,
    windows: 200,
    every: 200,
    tokens: 10_000,
    places: 200,
    lines: 100,
    indexes: 60,
    saves: 10,
    folds: 10,
    reports: 20,
    bytes: 10_000,
};
const LARGE: Often = Often {
    names: 0,
    waveforms: 0,
    lists: 2,
    windows: 1,
    every: 0,
    tokens: 1_000,
    places: 100,
    lines: 20,
    indexes: 1,
    saves: 1,
    folds: 1,
    reports: 1,
    bytes: 0,
};

/// One seed in so many has a text made for 17 as well, one in so many a text made for saving, one in so many a text made for folding, one in
/// so many a text with X names, one in so many a text made for 25, one in so many a text with hex data, one in so many a text with times before
/// the cycle's start, and one in so many a window at each cycle and a token at each byte.
const NESTED: u64 = 2;
const HURT: u64 = 2;
const FLAT: u64 = 8;
const MARKED: u64 = 2;
const CROSSING: u64 = 2;
const HEXED: u64 = 2;
const EARLY: u64 = 2;
const EVERY: u64 = 64;

/// A byte of each kind that the token rules tell apart, and the length up to which texts of these bytes are all taken.
const KINDS: [u8; 6] = *b"/*\n\ra\0";
const MOST_SHORT: usize = 6;

pub fn seeded(seed: u64, comparison: &mut Comparison) {
    let mut random = Random::new(!seed);
    let often = if seed % EVERY == 0 { EACH } else { SEEDED };
    comparison.text(&format!("seed {seed}"), &text(seed), often, &mut random);
    if seed % NESTED == 0 {
        comparison.text(&format!("nested {seed}"), &nested(seed), often, &mut random);
    }
    if seed % FLAT == 0 {
        comparison.text(&format!("flat {seed}"), &flat(seed), FLAT_SEEDED, &mut random);
    }
    if seed % MARKED == 0 {
        comparison.text(&format!("marked {seed}"), &marked(seed), MARKED_SEEDED, &mut random);
    }
    if seed % CROSSING == 0 {
        comparison.text(&format!("crossing {seed}"), &crossing(seed), HURT_SEEDED, &mut random);
    }
    if seed % HEXED == 0 {
        comparison.text(&format!("hexed {seed}"), &hexed(seed), HURT_SEEDED, &mut random);
    }
    if seed % HURT == 0 {
        comparison.text(&format!("hurt {seed}"), &hurt(seed), HURT_SEEDED, &mut random);
    }
    if seed % EARLY == 0 {
        comparison.text(&format!("early {seed}"), &early(seed), EARLY_SEEDED, &mut random);
    }
    intake::seeded(seed).iter().for_each(|plan| comparison.raw(&format!("raw {seed}"), plan));
}

/// All texts without a seed.
pub fn fixed(comparison: &mut Comparison) {
    let mut random = Random::new(0);
    special::compare(comparison, SPECIAL, &mut random);
    hurt_sample(comparison, &mut random);
    short().iter().for_each(|text| comparison.tokens(&text.escape_ascii().to_string(), text));
    for kind in LARGE_KINDS {
        if let Some(text) = large(kind) {
            comparison.text(&format!("big {kind}"), &text, LARGE, &mut random);
        }
    }
    intake::fixed().iter().for_each(|plan| comparison.raw("long raw text", plan));
}

/// Document 01's text, cut at each byte, without it, and with another in its place; and texts of one byte or a single kind.
fn hurt_sample(comparison: &mut Comparison, random: &mut Random) {
    let whole = special::SAMPLE.as_bytes();
    for at in 0..whole.len() {
        let (before, after) = (&whole[..at], &whole[at + 1..]);
        comparison.text(&format!("cut at {at}"), before, SEEDED, random);
        comparison.text(&format!("without {at}"), &[before, after].concat(), SEEDED, random);
        for &byte in b"\0\x80 ;{}'#/*\\.0AV" {
            comparison.text(&format!("{byte} at {at}"), &[before, &[byte], after].concat(), SEEDED, random);
        }
    }
    for byte in 0..=255 {
        comparison.text(&format!("byte {byte}"), &[byte], SEEDED, random);
    }
    for (byte, length) in [(b' ', MAX_TEXT), (b' ', MAX_TEXT + 1), (b'S', MAX_TEXT), (b'/', MAX_TEXT), (0, MAX_TEXT)] {
        comparison.text(&format!("{length} times byte {byte}"), &vec![byte; length], SEEDED, random);
    }
}

/// For the token rules: every byte alone, in a word, behind a slash and in comments; then all texts of a few bytes of `KINDS`.
pub fn short() -> Vec<Vec<u8>> {
    let around: [(&[u8], &[u8]); 6] =
        [(b"", b""), (b"a", b"a;"), (b"/", b"a"), (b" //", b"a\n;"), (b"/*", b"*/a"), (b"/*", b"")];
    let mut texts = Vec::new();
    for (before, after) in around {
        texts.extend((0..=255).map(|byte| [before, &[byte], after].concat()));
    }
    let mut last = vec![Vec::new()];
    for _ in 0..MOST_SHORT {
        texts.extend_from_slice(&last);
        last = last.iter().flat_map(|text| KINDS.map(|byte| [text, &[byte][..]].concat())).collect();
    }
    texts.extend(last);
    texts
}
