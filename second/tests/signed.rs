//! Times before the cycle's start (request 8): how they are read, how they are told, and what the cycle before them must bear.

mod common;
use common::{build, judge_all, Due, No, Ok5, SAMPLE};
use second::generate::early;
use second::timing::Asked;
use second::tokens::tokens;
use second::{check, fold, waveform, waveforms, Document, Refusal, Waveforms};
use std::collections::BTreeSet;

type Case = (&'static str, &'static str, Due);

const BARE: Due = Ok5([3, 1, 0, 0, 0]);

const TIMES: &[Case] = &[
    ("events", "'-5ns' D;", BARE),
    ("events", "' - /**/ 5ns ' D;", BARE),
    ("events", "'-1000000000ps' D; '-999999ns' U;", BARE),
    ("events", "'-1000000ns' D;", BARE),
    ("events", "'-«1000000001ps' D;", No(9)),
    ("events", "'-«1000001ns' D;", No(9)),
    ("events", "'«1000000001ps' D;", No(9)),
    ("events", "'-«99999999999999999999999ns' D;", No(9)),
    ("events", "'-«5' D;", No(9)),
    ("events", "'- «5 ns' D;", No(9)),
    ("events", "'-«ns' D;", No(9)),
    ("events", "'-«5.0ns' D;", No(9)),
    ("events", "'-«' D;", No(4)),
    ("events", "'-«-5ns' D;", No(4)),
    ("events", "'«+5ns' D;", No(4)),
    ("events", "'-«+5ns' D;", No(4)),
    ("events", "'«+0ns' D;", No(4)),
    ("events", "'5ns«-3ns' D;", No(4)),
    ("events", "'-5ns«-' D;", No(4)),
    // -0 is 0.
    ("events", "'-0ns' D; '0ns' U«;", No(11)),
    ("events", "'0ps' D; '-0ns' U«;", No(11)),
    ("events", "'-0000ps' D; '1ps' D;", BARE),
    ("events", "'-1ps' D; '-0ps' D;", BARE),
    // Times rise from the most negative one on.
    ("events", "'-1ns' D; '-2ns' D«;", No(11)),
    ("events", "'-2ns' D; '-2ns' L; '-1ns' D; '-1999ps' L; '0ns' D;", BARE),
    ("events", "'1ns' D; '-1ns' D«;", No(11)),
    ("events", "'-1000000ns' D; '1000000ns' D;", BARE),
    // For each character by itself.
    ("events", "'-2ns' D/L; '-3ns' L/D;", BARE),
    ("events", "'-2ns' D/L; '-3ns' L/H«;", No(11)),
    ("events", "'1ns' D; '-1ns' L;", BARE),
    // A period is no event's time.
    ("timing", "WaveformTable t { Period '«-1ns'; Waveforms { } }", No(4)),
    ("timing", "WaveformTable t { Period '«-0ns'; Waveforms { } }", No(4)),
];

#[test]
fn times() {
    judge_all(TIMES);
}

#[test]
fn waveforms_carry_signed_times() {
    let text = build("entries", "01 { '-1000000ns' D/U; '-1ps' L; '-0ns' Z; '7ps' H/X; }");
    let (mut times, mut letters) = ([7; 5], [b'-'; 5]);
    assert_eq!(waveform(text.as_bytes(), 0, 0, b'1', &mut times, &mut letters), Ok(4));
    assert_eq!((times, &letters), ([-1_000_000_000, -1, 0, 7, 7], b"ULZX-"));
}

#[test]
fn lists_carry_them_too() {
    let text = build("entries", "01 { '-1000000ns' D/U; '-1ps' L; } x { '-0ns' Z; }");
    let (mut times, mut letters, mut counts) = ([7; 4], [b'-'; 4], [7; 3]);
    let list = [0, 0, u64::from(b'x'), 0, 0, u64::from(b'0')];
    let answer = waveforms(text.as_bytes(), &list, &mut times, &mut letters, &mut counts);
    assert_eq!(answer, Ok(Waveforms::All { events: 3 }));
    assert_eq!((times, &letters, counts), ([0, -1_000_000_000, -1, 7], b"ZDL-", [1, 2, 7]));
}

fn folded(text: &[u8]) -> Result<String, Refusal> {
    let mut buffer = vec![0; 65_536];
    let length = fold(text, &mut buffer)?;
    buffer.truncate(length as usize);
    Ok(String::from_utf8(buffer).expect("plain"))
}

/// In ns where the amount is a whole number of them, and 0 without a sign.
#[test]
fn folded_texts_write_them() {
    let text = build("entries", "01 { '-1500ps' D; '-0ps' U; '-001ns' L/H; '0999ps' X; } x { ' - 1000000000ps' Z; }");
    let folded = folded(text.as_bytes()).expect("folded");
    let due = "A{0{'-1500ps'D;'0ns'U;'-1ns'L;'999ps'X;}1{'-1500ps'D;'0ns'U;'-1ns'H;'999ps'X;}x{'-1000000ns'Z;}}\n";
    assert!(folded.contains(due), "{folded}");
    assert_eq!(self::folded(folded.as_bytes()), Ok(folded));
}

/// They are held against the last event of the cycle before, and nothing else is asked of them.
#[test]
fn the_cycle_before_bears_them() {
    let with = |events: &str| SAMPLE.replace("A { 01 { '0ns' D/U;", &format!("A {{ 01 {{ {events}"));
    let near = with("'-1ns' D/U; '98999ps' Z;");
    assert_eq!(check(near.as_bytes()), check(SAMPLE.as_bytes()));
    let met = with("'-1ns' D/U; '99ns' Z;");
    let place = met.find("V { ab = 0H; }").expect("there") as u64;
    assert_eq!(check(met.as_bytes()), Err(Refusal { number: 25, place }));
    // In its first cycle a pattern has none before it.
    let alone = met.replace("Loop 2 { V { A = 1; } V { ab = 0H; } }\n Macro m { A = 101; B = LH; }", "V { A = 1; }");
    assert_eq!(check(alone.as_bytes()).map(|sum| sum.cycles), Ok(1));
}

/// The times of all events as they stand between quotes, read token by token.
fn written(text: &[u8]) -> BTreeSet<i64> {
    let words: Vec<&[u8]> = tokens(text, 0).map(|token| token.bytes(text)).collect();
    let quotes: Vec<usize> = (0..words.len()).filter(|&at| words[at] == b"'").collect();
    let events = quotes.chunks(2).filter(|pair| !matches!(words[pair[0] - 1], b"=" | b"Period"));
    let time = |pair: &[usize]| {
        let word = String::from_utf8_lossy(words[pair[1] - 1]).to_string();
        let (digits, unit) = word.split_at(word.len() - 2);
        let amount = digits.parse::<i64>().expect("digits") * if unit == "ns" { 1_000 } else { 1 };
        if pair[1] - pair[0] == 3 {
            -amount
        } else {
            amount
        }
    };
    events.map(time).collect()
}

/// The times that Waveform answers, of all characters.
fn answered(document: &Document) -> BTreeSet<i64> {
    let mut times = BTreeSet::new();
    for table in 0..document.timing.periods.len() as u64 {
        for signal in 0..document.pins.signals as u64 {
            let asked = |character| Asked { table, signal, character };
            let events = (0..=255).filter_map(|at| document.timing.waveform(document.text, &document.pins, asked(at)));
            times.extend(events.flatten().map(|(time, _)| time));
        }
    }
    times
}

#[test]
fn generated_texts() {
    let (mut counts, mut before) = ([0; 26], 0);
    for seed in 0..4_000 {
        let text = early(seed);
        match Document::read(&text) {
            Ok(document) => {
                let (due, times) = (written(&text), answered(&document));
                assert_eq!(times, due, "{seed}");
                assert!(times.iter().all(|time| (-1_000_000_000..=1_000_000_000).contains(time)), "{seed}");
                before += times.range(..0).count();
                counts[0] += 1;
                if let Ok(folded) = document.folded() {
                    let again = Document::read(&folded).expect("accepted");
                    assert_eq!(answered(&again), due, "{seed}");
                    assert_eq!(again.folded(), Ok(folded.clone()), "{seed}");
                }
            }
            Err(refusal) => counts[refusal.number as usize] += 1,
        }
    }
    println!("accepted {} with {before} times before the cycle, refused by number {:?}", counts[0], &counts[1..]);
    assert!(counts[0] > 1_500 && before > 1_500, "{counts:?}");
    assert!([4, 9, 11].iter().all(|&number: &usize| counts[number] > 200) && counts[25] > 100, "{counts:?}");
}
