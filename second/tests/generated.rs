//! What the generator reaches, and that large texts are accepted.

use second::generate::{large, run, sized, text, LARGE_KINDS, RUN_KINDS, SIZED_KINDS};
use second::{check, listing, name, token, waveform, window, Declared, Refusal, MARK};
use std::time::Instant;

const SEEDS: u64 = 20_000;

/// Each refusal is reached often, a third is accepted, and accepted texts sit exactly on the bounds.
#[test]
fn refusals_and_bounds_are_reached() {
    let (mut counts, mut met) = ([0u32; 26], [0u32; 6]);
    for seed in 0..SEEDS {
        let text = text(seed);
        match check(&text) {
            Ok(sum) => {
                counts[0] += 1;
                let items = [sum.signals == 256, sum.tables == 8, sum.patterns == 16];
                let sizes = [sum.size == 65_536, sum.cycles == 1 << 40, text.len() == 65_536];
                met.iter_mut().zip(items.iter().chain(&sizes)).for_each(|(count, &on)| *count += u32::from(on));
            }
            Err(refusal) => counts[refusal.number as usize] += 1,
        }
    }
    println!("accepted {}, refused by number {:?}", counts[0], &counts[1..]);
    println!("on the bound of signals, tables, listed, size, cycles, length: {met:?}");
    assert!(counts[1..18].iter().chain(&counts[25..]).all(|&count| count >= 20), "{counts:?}");
    let third = SEEDS as u32 / 3;
    assert!(counts[0] > third * 3 / 4 && counts[0] < third * 5 / 4, "{counts:?}");
    assert!(met.iter().all(|&count| count >= 20), "{met:?}");
}

#[test]
fn a_seed_gives_one_text() {
    assert!((0..200).all(|seed| text(seed) == text(seed)));
}

#[test]
fn large_texts_are_accepted() {
    for kind in LARGE_KINDS {
        let made = large(kind).expect("a kind");
        let answer = check(&made).unwrap_or_else(|refusal| panic!("{kind}: {refusal:?}"));
        let start = Instant::now();
        for _ in 0..20 {
            assert_eq!(check(&made), Ok(answer));
        }
        let each = start.elapsed() / 20;
        println!("{kind}: {} bytes, {} cycles, size {}, checked in {each:?}", made.len(), answer.cycles, answer.size);
        let mut buffer = vec![0; 1000 * (answer.signals as usize + 2)];
        let last = answer.cycles - answer.cycles.min(1000);
        assert!(window(&made, last, 1000, MARK, &mut buffer).is_ok());
        assert!(made.len() > 50_000 && made.len() <= 65_536, "{kind} is {} bytes", made.len());
    }
    assert!(large("other").is_none());
}

#[test]
fn sized_texts_are_accepted() {
    for (kind, least) in SIZED_KINDS {
        for (bytes, signals) in [(1_024, 8), (4_096, 8), (16_384, least), (16_384, 64), (65_536, 256)] {
            let made = sized(kind, bytes, signals).expect("a kind");
            let sum = check(&made).unwrap_or_else(|refusal| panic!("{kind} {bytes} {signals}: {refusal:?}"));
            assert_eq!(sum.signals, signals as u64);
            assert!(made.len() <= bytes && made.len() > bytes * 4 / 5, "{kind} is {} of {bytes} bytes", made.len());
        }
        assert!(sized(kind, 256, 8).is_none() && sized(kind, 16_384, least - 1).is_none());
    }
    assert!(sized("other", 16_384, 8).is_none());
}

#[test]
fn long_runs_are_accepted() {
    let cycles = [3_000_000, 8_000, 32_768, 65_536 * 16_777_215];
    for (kind, cycles) in RUN_KINDS.iter().zip(cycles) {
        for signals in [1, 64, 256] {
            let sum =
                check(&run(kind, signals).expect("a kind")).unwrap_or_else(|refusal| panic!("{kind}: {refusal:?}"));
            assert_eq!((sum.signals, sum.cycles), (signals as u64, cycles), "{kind}");
        }
    }
}

/// A refused text is refused alike by every service, and no buffer is touched.
fn all_refuse(text: &[u8], refusal: Refusal) {
    let (mut rows, mut times, mut letters) = ([7; 64], [7; 64], [7; 64]);
    for number in [0, 1, u64::MAX] {
        assert_eq!(window(text, number, number, MARK, &mut rows), Err(refusal));
        assert_eq!(window(text, number, number, b'A', &mut rows), Err(refusal));
        assert_eq!(waveform(text, number, number, b'0', &mut times, &mut letters), Err(refusal));
        assert_eq!(name(text, Declared::Signal, number), Err(refusal));
        assert_eq!(name(text, Declared::Table, number), Err(refusal));
    }
    assert_eq!(listing(text), Err(refusal));
    assert!(rows == [7; 64] && times == [7; 64] && letters == [7; 64]);
}

/// Every number of an accepted text has its answer, and the next one is refused 18.
fn all_answer(text: &[u8], signals: u64, tables: u64) {
    let none = |number| Refusal { number, place: 0 };
    for (declared, count) in [(Declared::Signal, signals), (Declared::Table, tables)] {
        for number in 0..count {
            let found = name(text, declared, number).expect("declared");
            assert_eq!(token(text, found.place), Ok(Some(found)));
        }
        assert_eq!(name(text, declared, count), Err(none(18)));
    }
    let mut served = 0;
    for character in 0..=255 {
        let (mut times, mut letters) = ([i64::MAX; 17], [7; 17]);
        match waveform(text, tables - 1, signals - 1, character, &mut times, &mut letters) {
            Ok(count) => {
                let count = count as usize;
                served += 1;
                assert!((1..=16).contains(&count) && times[..count].iter().all(|&time| time <= 1_000_000_000));
                assert!(
                    times[count..].iter().all(|&time| time == i64::MAX)
                        && letters[count..].iter().all(|&letter| letter == 7)
                );
                assert_eq!(waveform(text, tables - 1, signals - 1, character, &mut [], &mut letters), Err(none(19)));
            }
            Err(refusal) => assert_eq!(refusal, none(18)),
        }
    }
    assert!(served <= 62);
}

#[test]
fn services_agree() {
    for seed in SEEDS..SEEDS + 1_500 {
        let text = text(seed);
        match check(&text) {
            Ok(sum) if text.len() < 20_000 => all_answer(&text, sum.signals, sum.tables),
            Ok(_) => {}
            Err(refusal) => all_refuse(&text, refusal),
        }
    }
}

/// Reading on from each token's end goes through the text; nothing but 1 to 3 is refused.
#[test]
fn tokens_of_any_bytes() {
    for seed in 0..4_000 {
        let text = text(seed);
        let mut place = 0;
        let end = loop {
            match token(&text, place) {
                Ok(Some(found)) => {
                    assert!(found.place >= place && found.length > 0);
                    place = found.place + found.length;
                }
                Ok(None) => break 0,
                Err(refusal) => break refusal.number,
            }
        };
        let whole = check(&text).map_or_else(|refusal| refusal.number, |_| 0);
        assert_eq!(end, if whole <= 3 { whole } else { 0 }, "seed {seed}");
    }
}
