//! Repeated words (request 2): what they stand for, their bounds, and that spelling them out changes nothing but places.

mod common;
use common::{build, judge, rows, No, Ok5};
use second::bounds::MAX_TEXT;
use second::generate::{nested, text};
use second::{check, listing, token, window, Located, Refusal, DOT};
use std::collections::HashMap;

/// The macro's Shift plays these characters on A, one a cycle.
fn played(data: &str) -> String {
    let blocks = "MacroDefs { m { Shift { V { A = #; } } } }";
    let text = build("blocks", blocks).replace("W t0; V { }", &format!("W t0; Macro m {{ A = {data}; }}"));
    rows(&text).split(' ').filter_map(|row| row.chars().next()).collect()
}

#[test]
fn the_whole_word_repeats() {
    for (data, due) in [
        ("\\r4 01", "01010101"),
        ("\\r1 01", "01"),
        ("\\r2 01 x", "0101x"),
        ("\\r2 01x", "01x01x"),
        ("x\\r2 01", "x0101"),
        ("\\r2 0 1", "001"),
        ("\\r2 0/**/1", "001"),
        ("\\r2 0//\n1", "001"),
        ("\\ r0002 // two\n 01 1", "01011"),
        ("\\r2 01\\r3 1x\\r1 0", "01011x1x1x0"),
        ("\\r3 0\\r2 1 \\r1 x", "00011x"),
        ("\\r2 0x \\r2 10 11", "0x0x101011"),
    ] {
        assert_eq!(played(data), due, "{data}");
    }
    assert_eq!(played("\\r60 01"), "01".repeat(60));
    assert_eq!(played("\\r1365 01x 1"), "01x".repeat(1365) + "1");
}

#[test]
fn in_v_and_c_on_a_group() {
    let pattern = "W t0; C { dab = \\r1 01x; } V { } V { ab = \\r1 10; } V { dab = \\r3 1; } V { ab = \\r1 0 1; } V { dab = x\\r2 0; }";
    // A row is A, B, D; the data of dab is D, A, B.
    assert_eq!(rows(&build("pattern", pattern)), "1x00 1000 1110 0110 00x0");
}

#[test]
fn windows_begin_anywhere_in_a_repeated_word() {
    let blocks = "MacroDefs { m { V { A = #; } Shift { V { A = #; B = #; } } V { A = #; } } }";
    let play = "W t0; Macro m { A = 1\\r3 01x 0; B = \\r4 01 x; }";
    let text = build("blocks", blocks).replace("W t0; V { }", play);
    let (a, b) = ("101x01x01x0", ".01010101xx");
    let due: String = a.chars().zip(b.chars()).map(|(a, b)| format!("{a}{b}.0\n")).collect();
    for first in 0..=11 {
        for wanted in 0..=12 - first {
            let mut buffer = vec![b'-'; 60];
            let window = window(text.as_bytes(), first as u64, wanted as u64, DOT, &mut buffer);
            let rows = window.expect("accepted").rows;
            let end = 5 * (first + wanted).min(11);
            assert_eq!(buffer[..5 * rows as usize], due.as_bytes()[5 * first..end], "{wanted} from {first}");
        }
    }
}

/// Far more characters than a number of 16 bits holds, and none of them is spelled out.
#[test]
fn far_above_every_length() {
    let word = "01".repeat(15_000);
    for (given, due) in [
        (format!("W t0; V {{ dab = \\r4096 {word}\\r4096 {word}«; }}"), No(12)),
        (format!("W t0; Macro u {{ A = \\r4096 {word} \\r4096 {word}«; }}"), No(12)),
        (format!("W t0; Macro u {{ A = \\r4096 {word} \\r4096 {word} «_; }}"), No(12)),
        (format!("W t0; Macro u {{ A = \\r4096 {word} «#; }}"), No(13)),
        (format!("W t0; Macro u {{ A = \\r2 {word}«; }}"), No(12)),
        (format!("W t0; Macro u {{ A = \\r1 {}«; }}", &word[..4097]), No(12)),
        (
            format!("W t0; Macro s {{ A = \\r1 {}; B = \\r1 {}; }}", &word[..4096], &word[..4095]),
            Ok5([3, 2, 1, 4096, 6]),
        ),
    ] {
        assert_eq!(judge("pattern", &given, due), None);
    }
}

fn tokens(text: &[u8]) -> Vec<Located> {
    let next = |place| token(text, place).ok().flatten();
    std::iter::successors(next(0), |last| next(last.place + last.length)).collect()
}

fn bytes<'t>(text: &'t [u8], token: &Located) -> &'t [u8] {
    &text[token.place as usize..(token.place + token.length) as usize]
}

/// The word of `\rN` and a word, N times.
fn repeated(text: &[u8], three: &[Located]) -> Option<Vec<u8>> {
    let [mark, count, word] = <[Located; 3]>::try_from(three).ok()?.map(|token| bytes(text, &token));
    let digits = std::str::from_utf8(count.strip_prefix(b"r")?).ok()?;
    let count = digits.parse().ok().filter(|count| mark == b"\\" && (1..=4096).contains(count))?;
    Some(word.repeat(count)).filter(|_| word.iter().all(u8::is_ascii_alphanumeric))
}

/// The text with all repeats spelled out, where each token then stands, and whether a word of more than one character was repeated.
fn spelled(text: &[u8]) -> (Vec<u8>, HashMap<u64, u64>, bool) {
    let tokens = tokens(text);
    let (mut made, mut places, mut words) = (Vec::new(), HashMap::new(), false);
    let (mut at, mut end) = (0, 0);
    while at < tokens.len() {
        let three = &tokens[at..tokens.len().min(at + 3)];
        made.extend_from_slice(&text[end..tokens[at].place as usize]);
        let spelled = repeated(text, three);
        let used = if spelled.is_some() { three } else { &three[..1] };
        made.extend(spelled.iter().map(|_| b' '));
        places.insert(tokens[at].place, made.len() as u64);
        made.extend(spelled.unwrap_or_else(|| bytes(text, &tokens[at]).to_vec()));
        words |= used.len() == 3 && used[2].length > 1;
        end = used.iter().map(|token| token.place + token.length).max().unwrap_or(0) as usize;
        at += used.len();
    }
    made.extend_from_slice(&text[end..]);
    places.insert(0, 0);
    (made, places, words)
}

/// Whether the text was accepted with a repeated word; a fault of the repeats themselves is not looked at.
fn agree(named: &str, text: &[u8]) -> bool {
    let (made, places, words) = spelled(text);
    let answer = check(text);
    if made.len() > MAX_TEXT || matches!(answer, Err(Refusal { number: 1..=4 | 9, .. })) {
        return false;
    }
    let due = answer.map_err(|refusal| Refusal { place: places[&refusal.place], ..refusal });
    assert_eq!(check(&made), due, "{named}");
    if answer.map_or(false, |sum| sum.cycles <= 10_000) {
        assert_eq!(listing(text), listing(&made), "{named}");
    }
    words && answer.is_ok()
}

#[test]
fn spelled_out_they_are_the_same() {
    let seeded = (0..12_000).filter(|&seed| agree(&format!("seed {seed}"), &text(seed))).count();
    let nested = (0..4_000).filter(|&seed| agree(&format!("nested {seed}"), &nested(seed))).count();
    println!("{seeded} seeded and {nested} nested texts with repeated words");
    assert!(seeded > 200 && nested > 80);
}
