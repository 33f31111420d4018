//! Fail reports and X names (request 9): what each is refused for, where offsets count from, and generated ones against a plain player.

mod common;
use common::{build, judge_all, unmark, Due, No, Ok5, SAMPLE};
use second::generate::random::Random;
use second::generate::{flat, marked, report as reported, text};
use second::report::NO_LETTER;
use second::statements::{Act, Range};
use second::tokens::tokens;
use second::{check, fold, report, save, Document, Fail, Refusal, Refused};
use std::collections::HashMap;

type Case = (&'static str, &'static str, Due);

const STATEMENTS: &[Case] = &[
    // Size 1 and no cycle, directly in a pattern or in its Loops.
    ("pattern", "X a; W t0; V { } X c;", Ok5([3, 2, 1, 1, 5])),
    ("pattern", "W t0; Loop 2 { X a; Loop 3 { X c; V { } } } X d;", Ok5([3, 2, 1, 6, 8])),
    ("macro", "«X a;", No(4)),
    ("macro", "Loop 2 { V { } «X a; }", No(4)),
    ("macro", "Shift { «X a; }", No(4)),
    ("procedures", "f { «X a; }", No(4)),
    ("pattern", "«x a;", No(4)),
    ("pattern", "X «;", No(4)),
    ("pattern", "X a «X c;", No(4)),
    ("pattern", "X a «{ }", No(4)),
    ("pattern", "X «1;", No(5)),
    ("pattern", "X «a.c;", No(5)),
    ("pattern", "X «X;", No(5)),
    ("pattern", "X «Loop;", No(5)),
    // One name space with the patterns and the burst, also for the pattern that is being read and for later ones.
    ("pattern", "X «b;", No(7)),
    ("pattern", "X «p;", No(7)),
    ("pattern", "X a; X «a;", No(7)),
    ("pattern", "X a; Loop 2 { X «a; }", No(7)),
    ("patterns", "Pattern p { } Pattern z { X «p; }", No(7)),
    ("patterns", "Pattern p { X z; } Pattern «z { }", No(7)),
    ("patterns", "Pattern p { X a; } Pattern z { X «a; }", No(7)),
    ("patterns", "Pattern p { X a; } Pattern z { X aa; X y; }", Ok5([3, 2, 1, 0, 2])),
    // Other name spaces are others.
    ("pattern", "X A; X ab; X t0; X e; X q; X FailData; X PatternFailReport;", Ok5([3, 2, 1, 0, 8])),
    ("list", "«a; } } PatternExec { PatternBurst b; } Pattern p { X a; } //", No(15)),
    ("burst", "PatternBurst b { PatList { } } PatternExec { PatternBurst «a; } Pattern p { X a; }", No(6)),
    // X is reserved wherever a name is due, and a word like any other where none is.
    ("signals", "«X In;", No(5)),
    ("groups", "«X = 'A';", No(5)),
    ("timing", "WaveformTable «X {", No(5)),
    ("macros", "«X { }", No(5)),
    ("pattern", "W «X;", No(5)),
    ("pattern", "V { «X = 0; }", No(5)),
    ("pattern", "Macro «X;", No(5)),
    ("list", "«X;", No(5)),
    ("patterns", "Pattern «X { }", No(5)),
    ("entries", "X { '0ns' X; }", Ok5([3, 1, 0, 0, 0])),
    // It has no depth of its own.
    (
        "pattern",
        "Loop 1 { Loop 1 { Loop 1 { Loop 1 { Loop 1 { Loop 1 { Loop 1 { Loop 1 { X a; } } } } } } } }",
        Ok5([3, 2, 1, 0, 10]),
    ),
];

#[test]
fn statements() {
    judge_all(STATEMENTS);
}

/// Document 01's text with X names: its cycles are 0 to 6.
fn sample() -> String {
    let text = SAMPLE.replace("Pattern p { W t0;", "Pattern p { X front; W t0;");
    let text = text.replace("Loop 2 { V { A = 1; }", "X loop; Loop 2 { X in; V { A = 1; } X mid;");
    let text = text.replace("V { ab = 0H; } }", "V { ab = 0H; } X out; }");
    text.replace("B = LH; } }", "B = LH; } X end; }")
}

fn fails_of(text: &str, given: &str) -> Result<Vec<Fail>, Refused> {
    let (mut cycles, mut signals, mut letters) = (vec![9; 40_000], vec![9; 40_000], vec![9; 40_000]);
    let count = report(text.as_bytes(), given.as_bytes(), &mut cycles, &mut signals, &mut letters)? as usize;
    assert!(cycles[count..].iter().chain(&signals[count..]).all(|&rest| rest == 9), "the rest stays");
    assert!(letters[count..].iter().all(|&rest| rest == 9), "the rest stays");
    let letter = |at: usize| Some(letters[at]).filter(|&letter| letter != NO_LETTER);
    Ok((0..count).map(|at| Fail { cycle: cycles[at], signal: signals[at], letter: letter(at) }).collect())
}

fn around(records: &str) -> String {
    format!("PatternFailReport {{ Pattern p; FailData {{ {records} }} }}")
}

/// The answers as lines, or the number that is refused at the mark.
fn judge(text: &str, given: &str, due: Result<&str, u8>) {
    let (given, place) = unmark(given);
    let refused = |number| Refused { of_report: true, refusal: Refusal { number, place: place.unwrap_or(0) } };
    let line = |fail: &Fail| {
        let letter = fail.letter.map_or(String::new(), |letter| (letter as char).to_string());
        format!("{} {}{letter}", fail.cycle, fail.signal)
    };
    let answer = fails_of(text, &given).map(|fails| fails.iter().map(line).collect::<Vec<_>>().join(", "));
    assert_eq!(answer, due.map(String::from).map_err(refused), "{given}");
}

const RECORDS: &[(&str, Result<&str, u8>)] = &[
    ("", Ok("")),
    ("p A;", Ok("0 0")),
    ("p B 0;", Ok("0 1")),
    ("p A 6 0 3'H' 3'L';", Ok("6 0, 0 0, 3 0H, 3 0L")),
    ("in B 0'T' 1'X'; loop A; p A 00001 /* ' */ ' // '\n H /**/ ' 2;", Ok("0 1T, 1 1X, 0 0, 1 0H, 2 0")),
    ("front A; in A; mid A; out A; mid A 5;", Ok("0 0, 0 0, 1 0, 2 0, 6 0")),
    // At its first execution, and the first cycle behind it.
    ("mid A 1; out B; out B 4;", Ok("2 0, 2 1, 6 1")),
    ("p A «7;", Err(24)),
    ("out B 4 «5 0;", Err(24)),
    ("«end A;", Err(24)),
    ("end A «0;", Err(24)),
    ("end A «0'H';", Err(24)),
    ("p A 1099511627775 «1099511627777;", Err(9)),
    ("p A 0 «1099511627776;", Err(24)),
    // The first in the report's order, behind its own faults.
    ("«what A 7; p A 7;", Err(24)),
    ("p A «7; what A;", Err(24)),
    ("what A 7; p «C 0;", Err(5)),
    ("what A 7; p «a 0;", Err(6)),
    ("p A 7; what A «-1;", Err(4)),
    // References and signals.
    ("«b A;", Err(24)),
    ("«A A;", Err(24)),
    ("«13 A;", Err(5)),
    ("«45.LU A;", Err(5)),
    ("«Pattern A;", Err(5)),
    ("«X A;", Err(5)),
    ("«; p A;", Err(4)),
    ("«'H' A;", Err(4)),
    ("p «; p A;", Err(4)),
    ("p «In;", Err(5)),
    ("p «0;", Err(5)),
    ("p «p;", Err(6)),
    ("p «ab;", Err(6)),
    ("p «X;", Err(5)),
    // Offsets and letters.
    ("p A «x;", Err(9)),
    ("p A 1 «1.0;", Err(9)),
    ("p A «1h 'H';", Err(9)),
    ("p A «99999999999999999999999999;", Err(9)),
    ("p A 0000000000000000000000000001;", Ok("1 0")),
    ("p A «+1;", Err(4)),
    ("p A 1«, 2;", Err(4)),
    ("p A «'H';", Err(4)),
    ("p A 1'«HH';", Err(4)),
    ("p A 1'«h';", Err(4)),
    ("p A 1'«Z';", Err(4)),
    ("p A 1'«';", Err(4)),
    ("p A 1'H«;", Err(4)),
    ("p A 1'H' «'L';", Err(4)),
    ("p A 1'H' «L';", Err(9)),
];

#[test]
fn records() {
    for &(records, due) in RECORDS {
        judge(&sample(), &around(records), due);
    }
    judge(&sample(), &around("p A 1").replace("1 }", "1 «}"), Err(4));
}

#[test]
fn the_form_around() {
    let right = around("p A;");
    judge(&sample(), &format!("\n//\n{right}\t/**/"), Ok("0 0"));
    for (wrong, number) in [
        ("«", 4),
        ("  //\n«", 4),
        ("«STIL 1.0; PatternFailReport { }", 4),
        ("PatternFailReport «r { }", 4),
        ("PatternFailReport { «FailData { } }", 4),
        ("PatternFailReport { «DeviceID; Pattern p; }", 4),
        ("PatternFailReport { Pattern «p.q; }", 5),
        ("PatternFailReport { Pattern «X; }", 5),
        ("PatternFailReport { Pattern «; }", 4),
        ("PatternFailReport { Pattern p «{ } FailData { } }", 4),
        ("PatternFailReport { Pattern p; «Pattern p; FailData { } }", 4),
        ("PatternFailReport { Pattern p; FailData { }«", 4),
        ("PatternFailReport { Pattern p; FailData { } }«;", 4),
        ("PatternFailReport { Pattern p; FailData { } } «PatternFailReport", 4),
        ("PatternFailReport { Pattern «what; FailData { } }", 24),
        ("PatternFailReport { Pattern «b; FailData { } }", 24),
        ("PatternFailReport { Pattern «front; FailData { front A; } }", 24),
        ("PatternFailReport { Pattern «what; FailData { what A 9; } }", 24),
        ("PatternFailReport { Pattern what; FailData { p «none; } }", 6),
        ("what «\u{1}", 2),
        ("what «/* \n", 3),
        ("/* «\u{1}", 2),
    ] {
        judge(&sample(), wrong, Err(number));
    }
    judge(&sample(), &format!("{right}{}", " ".repeat(65_536 - right.len())), Ok("0 0"));
    judge(&sample(), &format!("{right}{}", " ".repeat(65_537 - right.len())), Err(1));
    judge(&sample(), &format!("\u{1}/*{}", " ".repeat(65_537)), Err(1));
}

/// The text's refusals come first, with their places there, whatever the report is.
#[test]
fn the_text_first() {
    for (number, text) in [
        (4, build("pattern", "Y;")),
        (7, build("pattern", "X p;")),
        (15, build("list", "q;")),
        (16, build("pattern", "Loop 16777215 { Loop 16777215 { V { } } }")),
        (17, build("pattern", "X a; V { }")),
    ] {
        let refusal = check(text.as_bytes()).expect_err("refused");
        assert_eq!(refusal.number, number);
        for given in ["", "/*", &around("p A;"), &around("p A 9;")] {
            assert_eq!(fails_of(&text, given), Err(Refused { of_report: false, refusal }));
        }
    }
}

/// Which listing counts, and from where the run's cycles are counted.
#[test]
fn listed_patterns() {
    let patterns = "Pattern p { W t0; V { } X a; V { } } Pattern q { W t0; X c; V { } } Pattern e { X d; }
Pattern f { W t0; Loop 16777215 { Loop 65536 { V { } X g; } } X h; V { } }";
    let of = |list: &str, given: &str, due: Result<&str, u8>| {
        let text = format!("PatternBurst b {{ PatList {{ {list} }} }} PatternExec {{ PatternBurst b; }} {patterns}");
        judge(&build("burst", &text), given, due);
    };
    of("q; p; q;", &around("a A; p A 1;"), Ok("2 0, 2 0"));
    of("q; p; q;", &around("«c A;"), Err(24));
    of("p; q; p;", "PatternFailReport { Pattern «p; FailData { p A; } }", Err(24));
    of("q;", "PatternFailReport { Pattern «p; FailData { } }", Err(24));
    of("", "PatternFailReport { Pattern «p; FailData { } }", Err(24));
    of("q; e; p;", "PatternFailReport { Pattern e; FailData { «d A; } }", Err(24));
    of("q; e; p;", "PatternFailReport { Pattern e; FailData { e A «0; } }", Err(24));
    of("q; e; p;", "PatternFailReport { Pattern e; FailData { } }", Ok(""));
    of("q; e; p;", "PatternFailReport { Pattern p; FailData { a D 0'T'; } }", Ok("2 2T"));
    // Far ones: 16777215 times 65536 cycles, and one more.
    let far = "PatternFailReport { Pattern f; FailData { f A 1099511562240 0; g B; h D; h D «1; } }";
    of("q; f;", &far.replace("h D «1;", ""), Ok("1099511562241 0, 1 0, 2 1, 1099511562241 2"));
    of("q; f;", far, Err(24));
    of("f;", &far.replace('«', "").replace("f A 1099511562240", "f A «1099511562241"), Err(24));
}

#[test]
fn rooms() {
    let (text, given) = (sample(), around("p A 0'H' 1; in B;"));
    for (cycles, signals, letters) in [(3, 3, 3), (2, 3, 3), (3, 2, 3), (3, 3, 2), (0, 0, 0), (4, 5, 6)] {
        let (mut cycles, mut signals, mut letters) = (vec![9; cycles], vec![9; signals], vec![9; letters]);
        let enough = cycles.len().min(signals.len()).min(letters.len()) >= 3;
        let answer = report(text.as_bytes(), given.as_bytes(), &mut cycles, &mut signals, &mut letters);
        let short = Refused { of_report: false, refusal: Refusal { number: 19, place: 0 } };
        assert_eq!(answer, if enough { Ok(3) } else { Err(short) });
        assert_eq!(cycles.iter().chain(&signals).all(|&number| number == 9), !enough);
        assert_eq!(letters.iter().all(|&letter| letter == 9), !enough);
        // 24 comes before.
        let late = around("p A 0 7 1;");
        let answer = report(text.as_bytes(), late.as_bytes(), &mut [], &mut [], &mut []);
        let place = late.find('7').expect("there") as u64;
        assert_eq!(answer, Err(Refused { of_report: true, refusal: Refusal { number: 24, place } }));
    }
    assert_eq!(report(text.as_bytes(), around("").as_bytes(), &mut [], &mut [], &mut []), Ok(0));
}

/// As many X names and offsets as fit.
#[test]
fn many() {
    let names: Vec<String> = (0..7_900).map(|number| format!("{}{number:x}", ["a", "z", "_"][number % 3])).collect();
    let marks: String = names.iter().map(|name| format!("X {name};")).collect();
    let text = build("pattern", &format!("W t0;{marks}V{{}}V{{}}"));
    assert_eq!(check(text.as_bytes()).map(|sum| sum.size), Ok(7_904));
    for some in 0..3 {
        let records: String = names.iter().skip(some).step_by(3).map(|name| format!("{name} A 1;")).collect();
        let due = names.iter().skip(some).step_by(3).count();
        assert_eq!(fails_of(&text, &around(&records)).map(|fails| fails.len()), Ok(due));
    }
    for used in [0, 1_023, 4_097, 7_899] {
        let twice = text.replace("V{}V{}", &format!("X {};", names[used]));
        let place = twice.rfind(&format!("{};", names[used])).expect("there") as u64;
        assert_eq!(check(twice.as_bytes()), Err(Refusal { number: 7, place }));
    }
    let offsets = around(&format!("p A{};", " 0".repeat(32_000)));
    assert_eq!(fails_of(&text, &offsets).map(|fails| fails.len()), Ok(32_000));
}

/// Folding leaves X names out, and saving takes them with their block.
#[test]
fn beside_other_requests() {
    let (with, without) = (sample(), SAMPLE);
    let folded = |text: &str| {
        let mut buffer = vec![0; 65_536];
        fold(text.as_bytes(), &mut buffer).map(|length| buffer[..length as usize].to_vec())
    };
    assert_eq!(folded(&with), folded(without));
    let list = "PatternBurst b { PatList { z; } } PatternExec { PatternBurst b; }";
    let patterns = "Pattern p { X z; Loop 2 { X p; } } Pattern z { X a; W t0; V { } }";
    let mut text = build("burst", &format!("{list} {patterns}")).into_bytes();
    let hurt = String::from_utf8_lossy(&text).find("Pattern p {").expect("there") as u64;
    let mut spans = [0; 4];
    assert_eq!(save(&mut text, &mut spans), Ok(1));
    assert_eq!(spans, [hurt, hurt + "Pattern p { X z; Loop 2 { X p; } }".len() as u64, 0, 0]);
    assert_eq!(check(&text).map(|sum| (sum.patterns, sum.cycles)), Ok((1, 1)));
}

/// The plain way: every statement of the pattern is played, and what comes first at each X is noted.
struct Plain<'d> {
    document: &'d Document<'d>,
    cycles: u64,
    marks: HashMap<&'d [u8], u64>,
}

impl<'d> Plain<'d> {
    fn play(&mut self, range: Range, shifts: u32) {
        let mut at = range.first;
        while at < range.end {
            let statement = &self.document.program.statements[at as usize];
            let inner = Range { first: at + 1, end: statement.next };
            match statement.act {
                Act::Vector { .. } => self.cycles += 1,
                Act::Mark(name) => {
                    self.marks.entry(name.bytes(self.document.text)).or_insert(self.cycles);
                }
                Act::Loop { turns, .. } => (0..turns).for_each(|_| self.play(inner, 0)),
                Act::Shift => (0..shifts).for_each(|_| self.play(inner, 0)),
                Act::Macro(used) | Act::Call(used) => {
                    self.play(self.document.bodies.bodies[used.body as usize].statements, used.shifts)
                }
                Act::Condition { .. } | Act::Table(_) => {}
            }
            at = statement.next;
        }
    }
}

/// The pattern of this name with the run's cycles before it, if it is listed exactly once.
fn listed_once<'d>(document: &'d Document<'d>, name: &[u8]) -> Option<(u64, Plain<'d>)> {
    let (mut first, mut found) = (0, Vec::new());
    for &pattern in &document.run {
        let mut plain = Plain { document, cycles: 0, marks: HashMap::new() };
        plain.play(document.patterns[pattern].statements, 0);
        let end = first + plain.cycles;
        if document.headings[pattern].name.bytes(document.text) == name {
            found.push((first, plain));
        }
        first = end;
    }
    found.pop().filter(|_| found.is_empty())
}

/// What a report that reads well says, by its tokens alone.
fn plainly(document: &Document, given: &[u8]) -> Result<Vec<Fail>, Refusal> {
    let words: Vec<_> = tokens(given, 0).collect();
    let bytes = |at: usize| words[at].bytes(given);
    let refuse = |at: usize| Refusal { number: 24, place: words[at].place.into() };
    let (first, Plain { cycles, marks, .. }) = listed_once(document, bytes(3)).ok_or_else(|| refuse(3))?;
    let mut fails = Vec::new();
    let mut at = 7;
    while bytes(at) != b"}" {
        let reference = at;
        let known = if bytes(at) == bytes(3) { Some(0) } else { marks.get(bytes(at)).copied() };
        let before = known.ok_or_else(|| refuse(reference))?;
        let name = |signal: &usize| document.pins.names.get(*signal).map(|name| name.bytes(document.text));
        let signal = (0..document.pins.signals).find(|signal| name(signal) == Some(bytes(at + 1))).expect("known");
        at += 2;
        let none = bytes(at) == b";";
        while none || bytes(at) != b";" {
            let offset: u64 = if none { 0 } else { String::from_utf8_lossy(bytes(at)).parse().expect("a number") };
            if before + offset >= cycles {
                return Err(refuse(if none { reference } else { at }));
            }
            let quoted = !none && bytes(at + 1) == b"'";
            let letter = Some(quoted).filter(|&quoted| quoted).map(|_| bytes(at + 2)[0]);
            fails.push(Fail { cycle: first + before + offset, signal: signal as u64, letter });
            if none {
                break;
            }
            at += if quoted { 4 } else { 1 };
        }
        at += 1;
    }
    Ok(fails)
}

#[test]
fn generated_reports_are_the_plain_ones() {
    let (mut answered, mut outside, mut refused) = (0, 0, 0);
    for seed in 0..4_000 {
        let text = [marked(seed), text(seed), flat(seed)][[0, 0, 0, 1, 2][seed as usize % 5]].to_vec();
        let mut random = Random::new(!seed);
        let document = match Document::read(&text) {
            Ok(document) if document.extent.cycles < 5_000 => document,
            _ => continue,
        };
        for _ in 0..4 {
            let given = reported(Some(&document), &mut random);
            let answer = document.fails(&given);
            match answer {
                Err(refusal) if refusal.number < 24 => refused += 1,
                _ => {
                    assert_eq!(answer, plainly(&document, &given), "{seed}: {}", String::from_utf8_lossy(&given));
                    answered += usize::from(answer.map_or(false, |fails| !fails.is_empty()));
                    outside += usize::from(document.fails(&given).is_err());
                }
            }
        }
    }
    println!("{answered} answered, {outside} outside, {refused} refused for their form");
    assert!(answered > 1_000 && outside > 200 && refused > 500);
}
