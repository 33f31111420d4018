//! Hex data (request 5): the request's own case, every edge of a digit, and generated texts against the same spelled out without any hex.
#![cfg(feature = "hex")]

mod common;
use common::{judge_all, rows, unmark, Due, No, Ok5};
use second::generate::hexed;
use second::tokens::tokens;
use second::{check, fold, listing, Refusal};
use std::collections::HashMap;

type Case = (&'static str, &'static str, Due);

const BARE: Due = Ok5([3, 1, 0, 0, 0]);

const GROUPS: &[Case] = &[
    ("groups", "g = 'A' { Base Hex 01; }", BARE),
    ("groups", "g = 'A+B' { Base Hex LHTX; } h = 'g';", BARE),
    ("groups", "g='A'{ScanIn 1;Base Hex LHT;}h='g'{ScanOut 04096;Base Hex ab;}", BARE),
    // No word becomes reserved.
    (
        "groups",
        "Base = 'A' { Base Hex Base; } Hex = 'Base'; ScanIn = 'Hex+B'; ScanOut = 'A' { ScanIn 5; Base Hex V1; }",
        BARE,
    ),
    ("signals", "Base In; Hex In; ScanIn In; ScanOut In;", Ok5([4, 1, 0, 0, 0])),
    // In place of the `;`, and nothing else.
    ("groups", "g = 'A' { Base Hex 01; }«;", No(4)),
    ("groups", "g = 'A' { «}", No(4)),
    ("groups", "g = 'A' { ScanIn 5; «}", No(4)),
    ("groups", "g = 'A' { Base Hex 01; «ScanIn 5; }", No(4)),
    ("groups", "g = 'A' { ScanIn 5; «ScanOut 5; Base Hex 01; }", No(4)),
    ("groups", "g = 'A+B' { «ScanIn 5; Base Hex 01; }", No(4)),
    ("groups", "g = 'A' { «base Hex 01; }", No(4)),
    ("groups", "g = 'A' { Base «Dec 01; }", No(4)),
    ("groups", "g = 'A' { Base Hex «; }", No(4)),
    ("groups", "g = 'A' { Base Hex 01 «23; }", No(4)),
    ("groups", "g = 'A' { Base Hex 01 «}", No(4)),
    ("groups", "g = 'A' { ScanIn 5 «Base Hex 01; }", No(4)),
    ("groups", "g = 'A' { ScanIn «; Base Hex 01; }", No(4)),
    ("groups", "g = 'A' { ScanIn «0; Base Hex 01; }", No(9)),
    ("groups", "g = 'A' { ScanIn «4097; Base Hex 01; }", No(9)),
    ("groups", "g = 'A' { ScanOut «x; Base Hex 01; }", No(9)),
    ("signals", "A In «{ Base Hex 01; }", No(4)),
    ("groups", "g = 'A-A«' { Base Hex 01; }", No(10)),
    // 11, then 12, never 8.
    ("groups", "g = 'A' { Base Hex «00; }", No(11)),
    ("groups", "g = 'A' { Base Hex «01LHTX0; }", No(11)),
    ("groups", "g = 'A' { Base Hex «__; }", No(11)),
    ("groups", "g = 'A' { Base Hex «0; }", No(12)),
    ("groups", "g = 'A' { Base Hex «01LHT; }", No(12)),
    ("groups", "g = 'A' { Base Hex «0123456789abcdefg; }", No(12)),
    ("groups", "g = 'A' { Base Hex «0_; }", No(12)),
    ("groups", "g = 'A' { Base Hex «0.1; }", No(12)),
];

#[test]
fn groups() {
    judge_all(GROUPS);
}

/// Nine signals a to i. n9 has them all and no base; b9 the same, of two characters; t9 of three; f9 of four. s is c with a chain of 7; r is d with any length; z is c, five long, of three.
const HEAD: &str = "STIL 1.0; Signals { a In; b In; c In; d In; e In; f In; g In; h In; i In; }
SignalGroups { n9 = 'a+b+c+d+e+f+g+h+i'; b9 = 'n9' { Base Hex 01; } t9 = 'n9' { Base Hex LHT; } f9 = 'n9' { Base Hex 1LX0; }
 one = 'a' { Base Hex 01; } s = 'c' { ScanIn 7; Base Hex 01; } z = 'c' { ScanOut 5; Base Hex LHT; } r = 'd' { Base Hex 01; } x = 'd' { Base Hex LHT; } same = 'b9'; }
Timing { WaveformTable t { Period '1ns'; Waveforms { n9 { 01LHTXe { '0ns' D; } } } } }
";

fn of(macros: &str, pattern: &str) -> String {
    format!("{HEAD}MacroDefs {{ {macros} }} PatternBurst y {{ PatList {{ p; }} }} PatternExec {{ PatternBurst y; }} Pattern p {{ W t; {pattern} }}")
}

/// The row that this data makes; or the number that is refused at the mark.
fn judge(macros: &str, pattern: &str, due: Result<&str, u8>) {
    let (text, place) = unmark(&of(macros, pattern));
    match due {
        Ok(due) => {
            assert_eq!(check(text.as_bytes()).err(), None, "{macros} {pattern}");
            assert_eq!(rows(&text).replace("0 ", " ").trim_end_matches('0'), due.trim_end_matches('0'), "{pattern}");
        }
        Err(number) => {
            let refusal = Refusal { number, place: place.unwrap_or(0) };
            assert_eq!(check(text.as_bytes()), Err(refusal), "{macros} {pattern}");
        }
    }
}

/// Of the nine signals, in one V and in one C.
fn nine(data: &str, due: Result<&str, u8>) {
    let row = due.map(|row| format!("{row}0"));
    for statement in ["V", "C"] {
        let (text, place) = unmark(&of("", &format!("{statement} {{ {data} }} V {{ }}")));
        let answer = check(text.as_bytes());
        match &row {
            Ok(row) => {
                assert_eq!(answer.err(), None, "{data}");
                assert_eq!(rows(&text).split(' ').last(), Some(row.as_str()), "{data}");
            }
            Err(number) => {
                assert_eq!(answer, Err(Refusal { number: *number, place: place.expect("marked") }), "{data}")
            }
        }
    }
}

#[test]
fn the_requests_own_case() {
    // With base LHT: HHLT, 80 L's, TTL, on 87 signals and as an argument of 87.
    let names: Vec<String> = (0..87).map(|number| format!("s{number}")).collect();
    let signals: String = names.iter().map(|name| format!("{name} In; ")).collect();
    let text = format!(
        "STIL 1.0; Signals {{ {signals}}} SignalGroups {{ g = '{}' {{ Base Hex LHT; }} }}
Timing {{ WaveformTable t {{ Period '1ns'; Waveforms {{ g {{ LHT {{ '0ns' D; }} }} }} }} }}
PatternBurst b {{ PatList {{ p; }} }} PatternExec {{ PatternBurst b; }} Pattern p {{ W t; V {{ g = 52 \\r20 00 A \\e L; }} }}",
        names.join("+")
    );
    assert_eq!(rows(&text), format!("HHLT{}TTL0", "L".repeat(80)));
    let text = of("m { Shift { V { d = #; } } }", "Macro m { x = 52 \\r20 00 A \\e L; }");
    let column: String = rows(&text).split(' ').map(|row| &row[3..4]).collect();
    assert_eq!(column, format!("HHLT{}TTL", "L".repeat(80)));
}

/// The standard's own data, 62 characters of 16 and of 31 digits, against the same written out beside it.
#[test]
fn figure_14() {
    let plain = include_str!("../../examples/standard/figure-14-short.stil");
    let mut hex = plain.to_string();
    for (written, own) in [
        ("si = 'TDI'; so = 'TDO';", "si = 'TDI'{ ScanIn 62; Base Hex 01; } so = 'TDO'{ ScanOut 62; Base Hex LHX; }"),
        ("si = 1100001001011010 1001011011011001 1011001111010000 10111010001100;", "si = 3096A5B66CF42E8C;"),
        (
            "so = XXXXXXLXHLHXLLLL HLLHXLXHHHHXXXLL LLLLHXHXHLLXLHHH LLLHLXXXXXXXXX;",
            "so = AAA24600418956A000664215012AAAA;",
        ),
        ("so = \\r62 X;", "so = \\r31 A;"),
        ("si = \\r62 0;", "si = \\r15 0 0;"),
    ] {
        assert_eq!(hex.matches(written).count(), 1, "{written}");
        hex = hex.replace(written, own);
    }
    assert_eq!(listing(hex.as_bytes()), listing(plain.as_bytes()));
    assert!(listing(hex.as_bytes()).is_ok());
}

#[test]
fn digits() {
    // Two characters: four to a digit, from the highest bit on; either case.
    nine("b9 = 0F5;", Ok("011110101"));
    nine("b9 = 0f5;", Ok("011110101"));
    nine("b9 = 1\n/**/a 6;", Ok("110100110"));
    nine("b9 = \\r3 1;", Ok("100010001"));
    nine("b9 = \\r1 1F F;", Ok("111111111"));
    // Three and four: two to a digit.
    nine("t9 = 12689;", Ok("HLTHTTLTH"));
    nine("t9 = 0\\r2 90;", Ok("LTHLLTHLL"));
    nine("f9 = 01bF4;", Ok("11LX000L1"));
    nine("f9 = 0E4E4;", Ok("10XL10XL1"));
    // The first listed is zero.
    nine("f9 = 00000;", Ok("111111111"));
    nine("t9 = \\r5 0;", Ok("LLLLLLLLL"));
    // A byte that is no hex digit, or a digit with no character: 12 at the word, once.
    nine("b9 = 00 «0g0;", Err(12));
    nine("b9 = «L;", Err(12));
    nine("b9 = 000 «_;", Err(12));
    nine("b9 = \\r3 «0.;", Err(12));
    nine("t9 = 0 «03;", Err(12));
    for digit in ["3", "7", "b", "C", "d", "E", "f"] {
        nine(&format!("t9 = \\r2 «{digit}0;"), Err(12));
        nine(&format!("f9 = 0000{digit};").replace("0000", "000 0"), Ok(&four(digit)));
    }
    // Where the length is wrong as well, the word comes first.
    nine("b9 = 000000 «x;", Err(12));
}

/// Seven times the first listed of 1LX0, then a digit.
fn four(digit: &str) -> String {
    let value = usize::from_str_radix(digit, 16).expect("a digit");
    let chars = [b'1', b'L', b'X', b'0'].map(char::from);
    format!("1111111{}{}", chars[value / 4], chars[value % 4])
}

#[test]
fn lengths() {
    // Nine are due: twelve from three digits, of which three are dropped if they are zero.
    nine("b9 = 1FF;", Ok("111111111"));
    nine("b9 = 2FF«;", Err(12));
    nine("b9 = 3FF«;", Err(12));
    nine("b9 = 8FF«;", Err(12));
    nine("b9 = FF«;", Err(12));
    nine("b9 = 0000«;", Err(12));
    nine("b9 = «;", Err(12));
    // A whole digit's worth is not dropped.
    nine("b9 = 0FF \\e 11111«;", Err(12));
    nine("b9 = 00 \\e 11111«;", Err(12));
    nine("b9 = 00 \\e 1111;", Ok("000001111"));
    nine("b9 = 00 \\e 111;", Ok("000000111"));
    nine("b9 = 1 \\e 11111111;", Ok("111111111"));
    nine("b9 = 0 \\e 11111111;", Ok("011111111"));
    nine("b9 = 2 \\e 11111111«;", Err(12));
    nine("b9 = 01 \\e 1111;", Ok("000011111"));
    nine("b9 = 21 \\e 1111«;", Err(12));
    nine("b9 = 1F \\e 1111;", Ok("111111111"));
    // Two to a digit: only one is dropped.
    nine("t9 = 20000;", Ok("TLLLLLLLL"));
    nine("t9 = 40000«;", Err(12));
    nine("t9 = 0000«;", Err(12));
    nine("t9 = 000000«;", Err(12));
    nine("t9 = 0000 \\e H;", Ok("LLLLLLLLH"));
    nine("t9 = 0000 \\e HH;", Ok("LLLLLLLHH"));
    nine("t9 = 0000 \\e HHH«;", Err(12));
    // Only what came from hex is dropped.
    nine("b9 = \\e 0000000000«;", Err(12));
    nine("t9 = \\e LLLLLLLLLL«;", Err(12));
    nine("b9 = \\e 01010101L;", Ok("01010101L"));
    // A repeat far above is counted and no more.
    nine("b9 = \\r4096 00000000«;", Err(12));
}

#[test]
fn behind_the_mark() {
    // Plain characters, also what is no digit, and no way back.
    nine("b9 = \\e LHTX0101e;", Ok("LHTX0101e"));
    nine("b9 = F \\e ee \\r3 L;", Ok("1111eeLLL"));
    nine("b9 = F \\e ee \\e \\r3 L;", Ok("1111eeLLL"));
    nine("b9 = F \\e \\r2 eL 0;", Ok("1111eLeL0"));
    nine("b9 = F \\e «e_000;", Err(12));
    // The word is `e` alone.
    nine("b9 = F \\«eL 0000;", Err(4));
    nine("b9 = F \\«E 00000;", Err(4));
    nine("b9 = F \\«h 00000;", Err(4));
    nine("b9 = F \\r2 «\\e 00000;", Err(4));
    nine("b9 = F \\e \\r2 «\\e 0;", Err(4));
    // On other names it is 4: signals, groups without a base, also those of a group with one.
    nine("a = \\«e 0;", Err(4));
    nine("n9 = \\«e 000000000;", Err(4));
    nine("same = \\«e 000000000;", Err(4));
    nine("same = 00000000L;", Ok("00000000L"));
    nine("n9 = 0F5«;", Err(12));
}

#[test]
fn hashes() {
    let with = |v: &str, due: Result<&str, u8>| judge(&format!("m {{ V {{ {v} }} }}"), "Macro m { a = 1; }", due);
    with("one = \\e #;", Ok("1........"));
    with("one = «#;", Err(13));
    with("one = 0 \\e «#;", Err(13));
    with("one = «# \\e 0;", Err(13));
    with("one = \\e 0 #«;", Err(12));
    with("a = \\«e #;", Err(4));
    with("one = \\e \\r2 «#;", Err(4));
    judge("", "V { one = \\e «#; }", Err(13));
    judge("m { C { one = \\e «#; } }", "", Err(13));
    judge("m { Loop 2 { V { one = \\e «#; } } }", "", Err(13));
    judge(
        "m { Shift { V { b9 = \\e #\\r7 0#; } } }",
        "Macro m { one = 5; i = 0111; }",
        Ok("000000000 100000001 000000001 100000001"),
    );
    judge("m { V { a = #; } }", "Macro m { one = \\e «#; }", Err(13));
}

/// The third column of the rows, or the fourth.
fn column(text: &str, at: usize) -> String {
    rows(text).split(' ').map(|row| &row[at..at + 1]).collect()
}

const CHAIN: &str = "m { Shift { V { c = #; } } }";
const FREE: &str = "m { Shift { V { d = #; } } }";

/// What an argument of these macros gives its signal, by the signal's number.
fn gives(macros: &str, signal: usize, data: &str, due: &str) {
    let text = of(macros, &format!("Macro m {{ {data} }}"));
    assert_eq!(check(text.as_bytes()).err(), None, "{data}");
    assert_eq!(column(&text, signal), due, "{data}");
}

#[test]
fn arguments_with_a_length() {
    let chain = |data: &str, due: &str| gives(CHAIN, 2, data, due);
    let fails = |data: &str, number: u8| judge(CHAIN, &format!("Macro m {{ {data} }}"), Err(number));
    // Seven are due: of two digits one character is dropped.
    chain("s = 55;", "1010101");
    chain("s = 7 \\e LHT;", "0111LHT");
    chain("s = 0 \\e LHTX;", "000LHTX");
    chain("s = \\e LHTXLHT;", "LHTXLHT");
    chain("s = 3 \\e 01L;", "001101L");
    chain("s = \\r2 5;", "1010101");
    fails("s = D5«;", 12);
    fails("s = 5«;", 12);
    fails("s = 055«;", 12);
    fails("s = «;", 12);
    fails("s = \\e LHT«;", 12);
    fails("s = 8 \\e 0000«;", 12);
    fails("s = «55L;", 12);
    // Five of three characters.
    chain("z = 289;", "TTLTH");
    fails("z = 489«;", 12);
    fails("z = 28«;", 12);
    // By the signal's own name it is plain, and of any length.
    chain("c = 01L;", "01L");
    // A group of more is no argument's.
    judge(CHAIN, "Macro m { «b9 = 000; }", Err(13));
}

/// Without N any length, and nothing is dropped.
#[test]
fn arguments_of_any_length() {
    let free = |data: &str, due: &str| gives(FREE, 3, data, due);
    free("r = 05;", "00000101");
    free("r = 0 \\e 1;", "00001");
    free("x = 02;", "LLLT");
    for data in ["r = ;", "r = \\e ;"] {
        let text = of(FREE, &format!("Macro m {{ {data} }} V {{ d = X; }}"));
        assert_eq!(column(&text, 3), "X", "{data}");
    }
}

/// Lengths count characters after this: 4,096 at most, and against the uses of `#`.
#[test]
fn arguments_are_counted_in_characters() {
    let text = of(FREE, "Macro m { r = \\r1024 A; }");
    assert_eq!(check(text.as_bytes()).map(|sum| sum.cycles), Ok(4_096));
    judge(FREE, "Macro m { r = \\r1024 A 0«; }", Err(12));
    judge(FREE, "Macro m { r = \\r1024 A \\e 0«; }", Err(12));
    judge(FREE, "Macro m { x = \\r2049 A«; }", Err(12));
    judge("m { V { d = #; } V { d = #; } }", "Macro m { x = 1; }", Ok("...L..... ...H....."));
    judge("m { V { d = #; } V { d = #; } }", "Macro m { r = 1; «}", Err(13));
    judge(
        "m { V { c = #; } Shift { V { c = #; } } V { c = #; } }",
        "Macro m { s = 55; }",
        Ok("..1...... ..0...... ..1...... ..0...... ..1...... ..0...... ..1......"),
    );
    judge("m { Shift { V { c = #; d = #; } } }", "Macro m { s = 55; r = 55; «}", Err(13));
}

#[test]
fn the_longest_chain() {
    let text = of("m { Shift { V { c = #; } } }", "Macro m { s = \\r1024 5; }").replace("ScanIn 7;", "ScanIn 4096;");
    assert_eq!(check(text.as_bytes()).map(|sum| (sum.cycles, sum.size)), Ok((4_096, 5)));
    assert!(column(&text, 2).starts_with("0101") && column(&text, 2).ends_with("0101"));
    let text = of("m { Shift { V { c = #; } } }", "Macro m { s = \\r1024 5; }").replace("ScanIn 7;", "ScanIn 4095;");
    assert!(check(text.as_bytes()).is_ok() && column(&text, 2).starts_with("1010"));
}

#[test]
fn folded_without_groups() {
    let mut buffer = vec![0; 65_536];
    let length = fold(of("", "V { b9 = 0F5; }").as_bytes(), &mut buffer).expect("folded") as usize;
    let folded = String::from_utf8_lossy(&buffer[..length]).to_string();
    assert!(folded.contains("V{a=0;b=1;c=1;d=1;e=1;f=0;g=1;h=0;i=1;}") && !folded.contains("Hex"), "{folded}");
    assert_eq!(listing(folded.as_bytes()), listing(of("", "V { b9 = 0F5; }").as_bytes()));
}

/// A group's base, as the tokens behind its expression say it.
struct Base {
    chars: Vec<u8>,
    scan: Option<usize>,
    signals: usize,
}

impl Base {
    /// How many bits a character stands for.
    fn bits(&self) -> usize {
        if self.chars.len() == 2 {
            1
        } else {
            2
        }
    }
}

/// The same text without hex: bases become `;`, and the data on them is spelled out as plain characters. None where a rule of the request is broken.
fn spelled(text: &[u8]) -> Option<Vec<u8>> {
    let words = tokens(text, 0).map(|token| token.bytes(text)).collect();
    let mut spelling = Spelling { words, at: 0, bases: HashMap::new(), members: HashMap::new(), made: Vec::new() };
    let (mut in_use, mut opened) = (false, 0);
    while spelling.at < spelling.words.len() {
        let token = spelling.word(spelling.at);
        if token == b"=" && spelling.word(spelling.at + 1) == b"'" {
            spelling.group()?;
            continue;
        }
        if token == b"Macro" || token == b"Call" {
            (in_use, opened) = (true, 0);
        }
        if in_use {
            opened += usize::from(token == b"{");
            in_use = !(token == b"}" || (token == b";" && opened == 0));
        }
        let name = spelling.word(spelling.at.wrapping_sub(1));
        spelling.keep(spelling.at + 1);
        if token == b"=" && spelling.bases.contains_key(name) {
            spelling.data(name, in_use)?;
        }
    }
    Some(spelling.made)
}

struct Spelling<'t> {
    words: Vec<&'t [u8]>,
    at: usize,
    bases: HashMap<&'t [u8], Base>,
    /// How many signals each group has.
    members: HashMap<&'t [u8], usize>,
    made: Vec<u8>,
}

impl<'t> Spelling<'t> {
    fn word(&self, at: usize) -> &'t [u8] {
        self.words.get(at).copied().unwrap_or_default()
    }

    /// The words up to `end` as they are.
    fn keep(&mut self, end: usize) {
        (self.at..end).for_each(|at| self.made.extend([self.word(at), b" "].concat()));
        self.at = end;
    }

    fn find(&self, word: &[u8], from: usize) -> Option<usize> {
        (from..self.words.len()).find(|&at| self.word(at) == word)
    }

    /// A group with its base: the sum of its terms' signals, less those of removed ones.
    fn group(&mut self) -> Option<()> {
        let (name, first) = (self.word(self.at - 1), self.at + 2);
        let end = self.find(b"'", first)?;
        let count = |name: &[u8]| self.members.get(name).copied().unwrap_or(1) as i64;
        let sign = |term: usize| if self.word(term - 1) == b"-" { -1 } else { 1 };
        let signals: i64 = (first..end).step_by(2).map(|term| sign(term) * count(self.word(term))).sum();
        self.members.insert(name, signals as usize);
        self.keep(end + 1);
        if self.word(self.at) == b"{" {
            let base = self.base(signals as usize)?;
            self.bases.insert(name, base);
            self.made.extend_from_slice(b"; ");
        }
        Some(())
    }

    fn base(&mut self, signals: usize) -> Option<Base> {
        let close = self.find(b"}", self.at)?;
        let number = || String::from_utf8_lossy(self.word(self.at + 2)).parse().unwrap_or(0);
        let scan = (self.word(self.at + 1) != b"Base").then(number);
        let chars = self.word(close - 2);
        let twice = (1..chars.len()).any(|at| chars[..at].contains(&chars[at]));
        let long = if scan.is_some() { 8 } else { 5 };
        if close != self.at + long || twice || !(2..=4).contains(&chars.len()) || chars.contains(&b'_') {
            return None;
        }
        self.at = close + 1;
        Some(Base { chars: chars.to_vec(), scan, signals })
    }

    fn data(&mut self, name: &[u8], in_use: bool) -> Option<()> {
        let end = self.find(b";", self.at)?;
        let base = &self.bases[name];
        let due = if in_use { base.scan } else { Some(base.signals) };
        self.made.extend(spell(&self.words[self.at..end], base, due)?);
        self.made.push(b' ');
        self.at = end;
        Some(())
    }
}

/// Bit by bit, as the request says it.
fn spell(data: &[&[u8]], base: &Base, due: Option<usize>) -> Option<Vec<u8>> {
    let (mut made, mut of_hex, mut plain, mut at) = (Vec::new(), 0, false, 0);
    while at < data.len() {
        let mut times = 1;
        if data[at] == b"\\" {
            if data.get(at + 1)? == b"e" {
                plain = true;
                at += 2;
                continue;
            }
            times = String::from_utf8_lossy(data.get(at + 1)?.strip_prefix(b"r")?).parse().ok()?;
            at += 2;
        }
        let word = data.get(at)?;
        at += 1;
        if word == b"#" && (!plain || of_hex > 0 || times != 1) {
            return None;
        }
        let spelled = if plain { word.to_vec() } else { characters(word, base)? };
        of_hex += if plain { 0 } else { times * spelled.len() };
        made.extend(spelled.repeat(times));
    }
    let surplus = made.len().checked_sub(due.unwrap_or(made.len()))?;
    let all_zero = made[..surplus].iter().all(|&character| character == base.chars[0]);
    let fits = surplus == 0 || (surplus < 4 / base.bits() && surplus <= of_hex && all_zero);
    fits.then(|| made[surplus..].to_vec())
}

/// What the digits of a word stand for.
fn characters(word: &[u8], base: &Base) -> Option<Vec<u8>> {
    let mut bits = String::new();
    for &digit in word {
        bits += &format!("{:04b}", u8::from_str_radix(&(digit as char).to_string(), 16).ok()?);
    }
    let value = |part: &[u8]| usize::from_str_radix(&String::from_utf8_lossy(part), 2).ok();
    bits.as_bytes().chunks(base.bits()).map(|part| base.chars.get(value(part)?).copied()).collect()
}

#[test]
fn generated_texts_are_the_spelled_out_ones() {
    let (mut accepted, mut refused, mut broken) = (0, 0, 0);
    for seed in 0..6_000 {
        let text = hexed(seed);
        let answer = check(&text);
        if matches!(answer, Err(Refusal { number, .. }) if number < 12) {
            continue;
        }
        let told = String::from_utf8_lossy(&text).to_string();
        match (spelled(&text), answer) {
            (Some(plain), Ok(sum)) => {
                assert_eq!(check(&plain), Ok(sum), "{seed}: {told}\n{}", String::from_utf8_lossy(&plain));
                assert_eq!(listing(&plain), listing(&text), "{seed}: {told}");
                accepted += 1;
            }
            (Some(plain), Err(refusal)) => {
                let number = check(&plain).map_err(|refusal| refusal.number);
                assert_eq!(number, Err(refusal.number), "{seed}: {told}\n{}", String::from_utf8_lossy(&plain));
                refused += 1;
            }
            (None, answer) => {
                assert!(answer.is_err(), "{seed}: {told}");
                broken += 1;
            }
        }
    }
    println!("{accepted} accepted, {refused} refused for other things, {broken} with broken data");
    assert!(accepted > 2_000 && broken > 300);
}
