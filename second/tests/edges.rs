//! Bounds that need long texts, and the services at their own edges.

mod common;
use common::{build, judge, No, Ok5, SAMPLE};
use second::edges::edge;
use second::generate::random::Random;
use second::{check, listing, name, token, waveform, window, Declared, Document, Located, Position, Refusal, MARK};
use std::collections::BTreeSet;

fn many(count: usize, item: impl Fn(usize) -> String) -> String {
    (0..count).map(item).collect()
}

fn holds(part: &str, given: &str, due: common::Due) {
    assert_eq!(judge(part, given, due), None);
}

#[test]
fn items_on_the_bounds() {
    let signals = |count| many(count, |i| format!("s{i} In; "));
    holds("signals", &signals(256), Ok5([256, 1, 0, 0, 0]));
    holds("signals", &format!("{}«s256 In;", signals(256)), No(8));
    holds("signals", &format!("{}«s255 In;", signals(256)), No(7));
    holds("signals", &format!("{}«V In;", signals(256)), No(5));
    let groups = |count| many(count, |i| format!("g{i} = 'A'; "));
    holds("groups", &groups(128), Ok5([3, 1, 0, 0, 0]));
    holds("groups", &format!("{}«g128 = ", groups(128)), No(8));
    holds("groups", &format!("{}«A = ", groups(128)), No(7));
    let tables = |count| many(count, |i| format!("WaveformTable t{i} {{ Period '1ns'; Waveforms {{ }} }} "));
    holds("timing", &tables(8), Ok5([3, 8, 0, 0, 0]));
    holds("timing", &format!("{}«WaveformTable t0", tables(8)), No(8));
    let events = |count| many(count, |i| format!("'{i}ns' D; "));
    holds("events", &events(16), Ok5([3, 1, 0, 0, 0]));
    holds("events", &format!("{}«'x", events(16)), No(8));
    holds("events", &format!("{}«x", events(16)), No(4));
}

#[test]
fn bodies_and_patterns_on_the_bounds() {
    let bodies = |count, from| many(count, |i| format!("m{} {{ }} ", i + from));
    holds("macros", &bodies(32, 0), Ok5([3, 2, 1, 1, 3]));
    holds("macros", &format!("{}«m32", bodies(32, 0)), No(8));
    holds("macros", &format!("{}«m31", bodies(32, 0)), No(7));
    holds("macros", &format!("{}«32", bodies(32, 0)), No(5));
    let both = format!("MacroDefs {{ {} }} Procedures {{ {}", bodies(20, 0), bodies(12, 0));
    holds("blocks", &format!("{both} }}"), Ok5([3, 2, 1, 1, 3]));
    holds("blocks", &format!("{both} «m12"), No(8));
    holds("blocks", &format!("{both} «m11"), No(7));
    let patterns = |count| many(count, |i| format!("Pattern p{i} {{ }} "));
    holds("patterns", &format!("Pattern p {{ }} {}", patterns(15)), Ok5([3, 2, 1, 0, 1]));
    holds("patterns", &format!("Pattern p {{ }} {}«Pattern p0 {{ }}", patterns(15)), No(8));
}

#[test]
fn text_on_the_bound() {
    let full = |length: usize| format!("{SAMPLE}{}", " ".repeat(length - SAMPLE.len()));
    assert!(check(full(65_536).as_bytes()).is_ok());
    assert_eq!(check(full(65_537).as_bytes()), Err(Refusal { number: 1, place: 0 }));
    assert_eq!(check(&[0; 65_537]), Err(Refusal { number: 1, place: 0 }));
    assert_eq!(check(&[b'a'; 65_536]), Err(Refusal { number: 4, place: 0 }));
    let open = format!("{}/*", " ".repeat(65_534));
    assert_eq!(check(open.as_bytes()), Err(Refusal { number: 3, place: 65_534 }));
}

#[test]
fn run_on_the_bounds() {
    // p is W, 4095 uses of m at 1 + 15 each and 14 more V: 1 + 1 + 65520 + 14 = 65536.
    let text = |vectors: usize| {
        let blocks = format!("MacroDefs {{ m {{ {} }} }}", "V { } ".repeat(15));
        let body = format!("W t0; {}{}", "Macro m; ".repeat(4095), "V { } ".repeat(vectors));
        build("blocks", &blocks).replace("W t0; V { }", &body)
    };
    let sum = check(text(14).as_bytes()).expect("accepted");
    assert_eq!((sum.size, sum.cycles), (65_536, 4095 * 15 + 14));
    assert_eq!(check(text(15).as_bytes()), Err(Refusal { number: 16, place: 0 }));
    holds("pattern", "W t0; Loop 1048576 { Loop 1048576 { V { } } }", Ok5([3, 2, 1, 1 << 40, 5]));
    holds("pattern", "W t0; Loop 1048576 { Loop 1048576 { V { } } } V { }", No(16));
    holds("pattern", "Loop 1048576 { Loop 1048576 { V { A = 9; } } } V { }", No(16));
    let deep = format!("{}V {{ }} {}", "Loop 16777215 { ".repeat(8), "}".repeat(8));
    holds("pattern", &deep, No(16));
    holds("patterns", &format!("Pattern p {{ }} Pattern q {{ {deep} }}"), Ok5([3, 2, 1, 0, 1]));
}

#[test]
fn sums_beyond_every_number() {
    // Eight levels of 1000 uses each are far above 2^64 in size.
    let mut blocks = String::from("MacroDefs { m0 { V { } } ");
    for level in 1..8 {
        let uses = format!("Macro m{}; ", level - 1).repeat(700);
        blocks += &format!("m{level} {{ {uses} }} ");
    }
    let text = build("blocks", &(blocks + "}"));
    assert_eq!(check(text.as_bytes()).map(|sum| sum.size), Ok(3));
    let used = text.replace("W t0; V { }", "W t0; Macro m7;");
    assert_eq!(check(used.as_bytes()), Err(Refusal { number: 16, place: 0 }));
}

#[test]
fn names_where_they_are_declared() {
    let text = SAMPLE.as_bytes();
    let found = |declared, number| name(text, declared, number);
    let none = Err(Refusal { number: 18, place: 0 });
    let at = |place, length, line, column| Ok(Located { place, length, position: Position { line, column } });
    assert_eq!(found(Declared::Signal, 0), at(20, 1, 2, 11));
    assert_eq!(found(Declared::Signal, 1), at(26, 1, 2, 17));
    assert_eq!(found(Declared::Signal, 2), none);
    assert_eq!(found(Declared::Table, 0), at(87, 2, 4, 24));
    assert_eq!(found(Declared::Table, 1), none);
    assert_eq!(found(Declared::Table, u64::MAX), none);
    assert_eq!(name(b"x", Declared::Table, 9), Err(Refusal { number: 4, place: 0 }));
}

#[test]
fn windows_write_only_what_is_due() {
    let ask = |first, wanted, room: usize| {
        let mut buffer = vec![b'-'; room];
        let answer = window(SAMPLE.as_bytes(), first, wanted, MARK, &mut buffer);
        (answer.map(|window| window.rows), String::from_utf8(buffer).expect("plain"))
    };
    let short = Err(Refusal { number: 19, place: 0 });
    assert_eq!(ask(5, 9, 8), (Ok(2), "0H0\n1H0\n".into()));
    assert_eq!(ask(5, 9, 11), (Ok(2), "0H0\n1H0\n---".into()));
    assert_eq!(ask(5, 9, 7), (short, "-------".into()));
    assert_eq!(ask(5, 1, 7), (Ok(1), "0H0\n---".into()));
    assert_eq!(ask(0, u64::MAX, 27), (short, "-".repeat(27)));
    assert_eq!(ask(7, u64::MAX, 0), (Ok(0), String::new()));
    assert_eq!(ask(3, 0, 2), (Ok(0), "--".into()));
    assert_eq!(ask(u64::MAX, u64::MAX, 2), (Ok(0), "--".into()));
}

#[test]
fn waveforms_as_written() {
    let ask = |table, signal, character, room: (usize, usize)| {
        let (mut times, mut letters) = (vec![9; room.0], vec![b'-'; room.1]);
        let answer = waveform(SAMPLE.as_bytes(), table, signal, character, &mut times, &mut letters);
        (answer, times, String::from_utf8(letters).expect("plain"))
    };
    let refused = |number| Err(Refusal { number, place: 0 });
    assert_eq!(ask(0, 0, b'1', (3, 2)), (Ok(1), vec![0, 9, 9], "U-".into()));
    assert_eq!(ask(0, 1, b'X', (2, 2)), (Ok(2), vec![0, 50_000], "ZX".into()));
    assert_eq!(ask(0, 1, b'X', (1, 2)), (refused(19), vec![9], "--".into()));
    assert_eq!(ask(0, 1, b'X', (2, 1)), (refused(19), vec![9, 9], "-".into()));
    assert_eq!(ask(0, 0, b'X', (0, 0)), (refused(18), vec![], "".into()));
    assert_eq!(ask(1, 0, b'1', (3, 2)).0, refused(18));
    assert_eq!(ask(0, 2, b'1', (3, 2)).0, refused(18));
    assert_eq!(ask(0, 0, b'#', (3, 2)).0, refused(18));
    assert_eq!(ask(0, 0, 0xb1, (3, 2)).0, refused(18));
    assert_eq!(ask(u64::MAX, u64::MAX, 0xff, (3, 2)).0, refused(18));
    assert_eq!(ask(256, 256, b'1', (3, 2)).0, refused(18));
}

#[test]
fn waveforms_of_groups_and_apart() {
    let waves = "ab { 01 { '0ns' D/U; '3ns' L; } } A { x { '7ps' Z; '7ps' X; '9ps' P; } } D { 1 { '2000ns' T; } }";
    let text = build("waves", waves);
    let ask = |signal, character| {
        let (mut times, mut letters) = ([0; 16], [0; 16]);
        let count = waveform(text.as_bytes(), 0, signal, character, &mut times, &mut letters)? as usize;
        Ok::<_, Refusal>((times[..count].to_vec(), String::from_utf8_lossy(&letters[..count]).to_string()))
    };
    assert_eq!(ask(1, b'1'), Ok((vec![0, 3000], "UL".into())));
    assert_eq!(ask(0, b'0'), Ok((vec![0, 3000], "DL".into())));
    assert_eq!(ask(0, b'x'), Ok((vec![7, 7, 9], "ZXP".into())));
    assert_eq!(ask(2, b'1'), Ok((vec![2_000_000], "T".into())));
    assert_eq!(ask(1, b'x').map(|_| ()), Err(Refusal { number: 18, place: 0 }));
}

#[test]
fn tokens_from_any_place() {
    let found = |text: &[u8], place| token(text, place).map(|token| token.map(|token| (token.place, token.length)));
    let refused = |number, place| Err(Refusal { number, place });
    assert_eq!(found(b"ab cd", 0), Ok(Some((0, 2))));
    assert_eq!(found(b"ab cd", 1), Ok(Some((1, 1))));
    assert_eq!(found(b"ab cd", 2), Ok(Some((3, 2))));
    assert_eq!(found(b"ab cd", 5), Ok(None));
    assert_eq!(found(b"ab cd", u64::MAX), Ok(None));
    assert_eq!(found(b"", 0), Ok(None));
    assert_eq!(found(b"ab cd  // x", 5), Ok(None));
    assert_eq!(found(b"a/*b*/c", 1), Ok(Some((6, 1))));
    assert_eq!(found(b"a/*b*/c", 2), Ok(Some((2, 1))));
    assert_eq!(found(b"a/*b*/c", 5), Ok(Some((5, 1))));
    assert_eq!(found(b"a/*/c", 1), refused(3, 1));
    assert_eq!(found(b"a/*/\x01c", 1), refused(2, 4));
    assert_eq!(found(b"a/*\x01*/c", 1), refused(2, 3));
    assert_eq!(found(b"//\x01", 0), refused(2, 2));
    assert_eq!(found(b" \x01", 0), refused(2, 1));
    assert_eq!(found(b"ab\x01", 0), Ok(Some((0, 2))));
    assert_eq!(found(b"ab\x01", 2), refused(2, 2));
    assert_eq!(found(b"\x80", 0), refused(2, 0));
    assert_eq!(found(b"a //\r b", 1), Ok(None));
    assert_eq!(found(b"a //\n b", 1), Ok(Some((6, 1))));
    assert_eq!(found(b"a.b_9#", 0), Ok(Some((0, 5))));
    assert_eq!(found(b"//", 1), Ok(Some((1, 1))));
    assert_eq!(found(b"a /", 1), Ok(Some((2, 1))));
    assert_eq!(found(&[b'a'; 65_536], 1), Ok(Some((1, 65_535))));
    assert_eq!(found(&[b'a'; 65_537], 65_537), refused(1, 0));
    assert_eq!(found(&[0; 65_537], 0), refused(1, 0));
}

#[test]
fn listings_at_their_bound() {
    let cycles = |turns: &str| listing(build("pattern", &format!("W t0; {turns}")).as_bytes()).expect("accepted");
    let listed = cycles("Loop 1000000 { V { A = 1; } }");
    assert!(listed.starts_with(b"SIGNALS 3\nA\nB\nD\nTABLES 2\nt0\nt1\nCYCLES 1000000\n1..0\n"));
    assert_eq!(listed.len(), "SIGNALS 3\nA\nB\nD\nTABLES 2\nt0\nt1\nCYCLES 1000000\n".len() + 5_000_000);
    let unlisted = cycles("Loop 1000000 { V { A = 1; } } V { }");
    assert_eq!(unlisted, b"SIGNALS 3\nA\nB\nD\nTABLES 2\nt0\nt1\nCYCLES 1000001\nNOT LISTED\n");
}

/// Drawn often enough, the edges are those of the first two, a middle and the last turn of each Loop and Shift, and all others.
#[test]
fn edges_of_statements() {
    let edges = |text: &str| {
        let document = Document::read(text.as_bytes()).expect("accepted");
        let mut random = Random::new(1);
        (0..2_000).map(|_| edge(&document, &mut random)).collect::<BTreeSet<u64>>()
    };
    let text =
        build("pattern", "W t0; Loop 100 { V { } } Macro s { A = \\r9 1; B = \\r8 0; } Loop 1 { Loop 5 { } V { } }");
    // The Loop is 0 to 100, the macro's Shift 100 to 108, its V up to 109, the last Loop up to 110.
    let due = [0, 1, 2, 50, 51, 99, 100, 101, 104, 107, 108, 109, 110];
    assert_eq!(edges(&text), BTreeSet::from(due));
    assert_eq!(edges(&SAMPLE.replace("PatList { p; }", "PatList { }")), BTreeSet::from([0]));
    assert_eq!(edges(&SAMPLE.replace("PatList { p; }", "PatList { p; p; }")), (0..=14).collect());
}
