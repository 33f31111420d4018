//! Lines and columns (request 6): of any place, of every token and name, of every refusal, also the intake's.

mod common;
use common::{build, unmark, SAMPLE};
use second::bounds::MAX_RAW;
use second::generate::random::Random;
use second::generate::text;
use second::{check, name, position, token, Declared, Intake, Position, Progress, Refusal};

fn at(line: u64, column: u64) -> Position {
    Position { line, column }
}

/// Byte by byte, as the request says it.
fn plainly(text: &[u8], place: u64) -> Position {
    let mut here = at(1, 1);
    for &byte in text.iter().take(place as usize) {
        here = if byte == b'\n' { at(here.line + 1, 1) } else { at(here.line, here.column + 1) };
    }
    here
}

#[test]
fn of_any_place() {
    let of = |text: &str, place| position(text.as_bytes(), place);
    assert_eq!(of("", 0), at(1, 1));
    assert_eq!(of("ab", 0), at(1, 1));
    assert_eq!(of("ab", 1), at(1, 2));
    assert_eq!(of("a\nb", 1), at(1, 2), "a LF ends its own line");
    assert_eq!(of("a\nb", 2), at(2, 1));
    assert_eq!(of("\n", 0), at(1, 1));
    assert_eq!(of("\n\n", 1), at(2, 1));
    assert_eq!(of("a\rb", 2), at(1, 3), "a CR alone begins no line");
    assert_eq!(of("a\r\nb", 3), at(2, 1), "a CR before LF is a byte of its line");
    assert_eq!(of("a\n\rb", 3), at(2, 2));
    assert_eq!(of("\tb", 1), at(1, 2), "a tab is one byte");
    assert_eq!(of("/*\n*/ b", 6), at(2, 4), "lines in comments count");
    assert_eq!(of("\u{e9}b", 2), at(1, 3), "columns are bytes");
}

#[test]
fn at_the_end_and_past_it() {
    for (text, due) in [("", at(1, 1)), ("ab", at(1, 3)), ("ab\n", at(2, 1)), ("a\nb", at(2, 2)), ("\n\n", at(3, 1))] {
        let length = text.len() as u64;
        for place in [length, length + 1, length + 1000, 1 << 32, u64::MAX] {
            assert_eq!(position(text.as_bytes(), place), due, "{text:?} at {place}");
        }
    }
}

#[test]
fn as_counted_byte_by_byte() {
    let mut random = Random::new(6);
    for _ in 0..2_000 {
        let bytes: Vec<u8> = (0..random.below(40)).map(|_| b"\n\n\ra /*\xff"[random.below(8)]).collect();
        for place in 0..=bytes.len() as u64 {
            assert_eq!(position(&bytes, place), plainly(&bytes, place));
            let (before, after) = bytes.split_at(place as usize / 2);
            let rest = &after[..place as usize - before.len()];
            assert_eq!(Position::START.past(before).past(rest), plainly(&bytes, place));
        }
    }
}

#[test]
fn tokens_and_names_carry_them() {
    let (mut tokens, mut refused) = (0, 0);
    for seed in 0..1_500 {
        let text = text(seed);
        if text.len() > 20_000 {
            continue;
        }
        let mut place = 0;
        while let Ok(Some(found)) = token(&text, place) {
            assert_eq!(found.position, plainly(&text, found.place), "seed {seed}");
            place = found.place + found.length;
            tokens += 1;
        }
        match check(&text) {
            Ok(sum) => {
                let found = name(&text, Declared::Signal, sum.signals - 1).expect("declared");
                assert_eq!(found.position, plainly(&text, found.place), "seed {seed}");
            }
            Err(refusal) => {
                assert_eq!(refusal.position(&text), plainly(&text, refusal.place), "seed {seed}");
                refused += u32::from(refusal.position(&text).line > 1);
            }
        }
    }
    assert!(tokens > 100_000 && refused > 300, "{tokens} tokens, {refused} refusals below the first line");
}

/// The line is that in the whole text, wherever the reading begins.
#[test]
fn tokens_from_a_place_in_the_middle() {
    let found = |place| token(b"a\n bc // \n\n ;", place).expect("allowed").map(|found| (found.place, found.position));
    assert_eq!(found(0), Some((0, at(1, 1))));
    assert_eq!(found(1), Some((3, at(2, 2))));
    assert_eq!(found(4), Some((4, at(2, 3))));
    assert_eq!(found(5), Some((12, at(4, 2))));
    assert_eq!(found(7), Some((7, at(2, 6))));
    assert_eq!(found(13), None);
}

#[test]
fn refusals_of_each_kind() {
    let refused = |text: &str| {
        let (text, _) = unmark(text);
        let refusal = check(text.as_bytes()).expect_err("refused");
        (refusal.number, refusal.position(text.as_bytes()))
    };
    assert_eq!(refused("STIL 1.0;\n\n"), (4, at(3, 1)), "the text ended behind its last line");
    assert_eq!(refused("STIL 1.0;\n// x"), (4, at(2, 5)), "it ended in a comment");
    assert_eq!(refused("STIL 1.0;\n //\u{1}"), (2, at(2, 4)));
    assert_eq!(refused("STIL 1.0;\n /*\n\n"), (3, at(2, 2)), "where the comment opens");
    assert_eq!(refused(&"\n".repeat(65_537)), (1, at(1, 1)), "the place is 0, whatever lines there are");
    assert_eq!(refused(&build("pattern", "\n\n  V { }")), (17, at(12, 3)));
    assert_eq!(refused(&build("list", "\np;\n\tq;")), (15, at(10, 2)));
    assert_eq!(refused(&SAMPLE.replace("Loop 2", "Loop\n 0")), (9, at(10, 2)));
    let too_large = build("pattern", "\nLoop 1048577 { Loop 1048577 { V { } } }");
    assert_eq!(refused(&too_large), (16, at(1, 1)), "a run is at place 0");
}

/// The intake sees the raw text in parts only, so it counts its lines along.
fn taken_in(raw: &[u8], cut: usize, store: usize) -> Option<(Refusal, Position)> {
    let (mut intake, mut store) = (Intake::default(), vec![0; store]);
    let (front, rest) = raw.split_at(cut);
    intake.take(front, &mut store);
    intake.take(rest, &mut store);
    match intake.close(&mut store) {
        Progress::Refused(refusal) => Some((refusal, intake.refused_at().expect("refused"))),
        Progress::Open | Progress::Closed(_) => {
            assert_eq!(intake.refused_at(), None);
            None
        }
    }
}

#[test]
fn refusals_of_the_intake() {
    let mut random = Random::new(3);
    let mut seen = [0; 21];
    for _ in 0..20_000 {
        let raw: Vec<u8> = (0..random.below(14)).map(|_| b"///***\n\n\r aab;\0"[random.below(15)]).collect();
        let (cut, store) = (random.below(raw.len() + 1), random.below(12));
        if let Some((refusal, position)) = taken_in(&raw, cut, store) {
            assert_eq!(position, plainly(&raw, refusal.place), "{raw:?} cut at {cut}: {refusal:?}");
            seen[refusal.number as usize] += 1;
        }
    }
    assert!([2, 3, 20].iter().all(|&number| seen[number] > 100), "{seen:?}");
    let raw = [&b" \n".repeat(MAX_RAW / 2)[..], b"ab"].concat();
    let (refusal, below) = (Refusal { number: 1, place: MAX_RAW as u64 }, at(MAX_RAW as u64 / 2 + 1, 1));
    assert_eq!(taken_in(&raw, 77, 9), Some((refusal, below)), "the byte past the limit");
    assert_eq!(position(&raw, refusal.place), below, "as in the raw text, however long it is");
}
