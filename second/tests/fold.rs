//! Folded texts (request 11): the case of docs/FOLDED.md, the edges, and generated texts against the lines of that page put together the plain way.

mod common;
use common::{build, SAMPLE};
use second::bounds::MAX_INDEX;
use second::generate::{flat, large, nested, text};
use second::timing::Asked;
use second::tokens::{tokens, Token};
use second::{check, fold, Declared, Document, Refusal, DOT};

const PAGE: &str = include_str!("../../docs/FOLDED.md");

fn refused(number: u8) -> Result<String, Refusal> {
    Err(Refusal { number, place: 0 })
}

fn folded(text: &[u8]) -> Result<String, Refusal> {
    let mut buffer = vec![b'-'; 65_536];
    let length = fold(text, &mut buffer)? as usize;
    assert!(buffer[length..].iter().all(|&byte| byte == b'-'), "the rest stays");
    buffer.truncate(length);
    Ok(String::from_utf8(buffer).expect("plain"))
}

/// The Pattern blocks alone.
fn patterns(text: &str) -> String {
    let folded = folded(text.as_bytes()).unwrap_or_else(|refusal| panic!("{refusal:?}: {text}"));
    folded[folded.find("Pattern p0{").expect("one")..].to_string()
}

/// A text with this list and these patterns, over the signals A, B and D and the procedures q and w.
fn listing(list: &str, patterns: &str) -> String {
    build("burst", &format!("PatternBurst b {{ PatList {{ {list} }} }} PatternExec {{ PatternBurst b; }} {patterns}"))
}

fn one(body: &str) -> String {
    patterns(&listing("p;", &format!("Pattern p {{ {body} }}")))
}

#[test]
fn the_whole_case() {
    let mut blocks = PAGE.split("```\n").skip(1).step_by(2);
    let (text, due) = (blocks.next().expect("a text"), blocks.next().expect("its folded one"));
    assert_eq!(folded(text.as_bytes()), Ok(due.into()));
    assert_eq!(folded(due.as_bytes()), Ok(due.into()));
}

#[test]
fn of_document_01() {
    let due = "STIL 1.0;\nSignals{A In;B Out;}\nTiming{\nWaveformTable t0{Period'100ns';Waveforms{
A{0{'0ns'D;}1{'0ns'U;}}\nB{H{'0ns'Z;'50ns'H;}L{'0ns'Z;'50ns'L;}X{'0ns'Z;'50ns'X;}}\n}}\n}
PatternBurst b{PatList{p0;}}\nPatternExec{PatternBurst b;}\nPattern p0{\nW t0;
V{A=1;B=X;}\nV{A=0;B=H;}\nV{A=1;B=H;}\nV{A=0;B=H;}\nV{A=1;B=L;}\nV{A=0;B=H;}\nV{A=1;B=H;}\n}\n";
    assert_eq!(folded(SAMPLE.as_bytes()), Ok(due.into()));
}

#[test]
fn stretches() {
    assert_eq!(one("W t0; V { }"), "Pattern p0{\nW t0;\nV{}\n}\n");
    assert_eq!(one("W t0; Loop 1 { V { A = 0; } }"), "Pattern p0{\nW t0;\nV{A=0;}\n}\n");
    assert_eq!(one("W t0; V { D = 0; } V { A = 1; } V { }"), "Pattern p0{\nW t0;\nV{D=0;}\nLoop 2{V{A=1;D=0;}}\n}\n");
    // A stretch goes on across Loops and bodies, and ends with its table.
    let due = "Pattern p0{\nW t0;\nLoop 9{V{A=0;}}\nW t1;\nLoop 3{V{A=0;}}\nW t0;\nV{A=0;}\n}\n";
    assert_eq!(one("W t0; V { A = 0; } Loop 4 { V { } V { } } W t1; Loop 2 { V { } } Macro v; W t0; V { }"), due);
    // A table that is chosen and shows in no row is not.
    assert_eq!(
        one("W t1; W t0; V { A = 0; } W t1; W t0; V { A = 0; } W t1;"),
        "Pattern p0{\nW t0;\nLoop 2{V{A=0;}}\n}\n"
    );
    assert_eq!(one("W t0; Loop 1000000 { V { A = 1; } }"), "Pattern p0{\nW t0;\nLoop 1000000{V{A=1;}}\n}\n");
}

#[test]
fn where_a_pattern_begins() {
    // With each entry of the list.
    let text = listing(
        "p; e; p;",
        "Pattern p { W t0; V { A = 0; } } Pattern e { W t0; C { A = 0; } } Pattern u { W t0; V { } }",
    );
    assert_eq!(patterns(&text), "Pattern p0{\nW t0;\nV{A=0;}\n}\nPattern p1{\n}\nPattern p2{\nW t0;\nV{A=0;}\n}\n");
    // Where a pin loses its value, also where another gets one, and not where pins get values alone.
    let due = "Pattern p0{\nW t0;\nV{B=1;}\n}\nPattern p1{\nW t0;\nV{A=0;}\nV{A=0;B=1;}\nV{A=0;B=1;D=x;}\n}\n";
    assert_eq!(one("W t0; C { B = 1; } V { } Call q; C { A = 0; } V { } V { D = x; }"), due);
    // A procedure without cycles shows nowhere, and one that keeps all pins begins none.
    assert_eq!(one("W t0; V { A = 0; } Call w; V { }"), "Pattern p0{\nW t0;\nLoop 2{V{A=0;}}\n}\n");
    assert_eq!(one("W t0; V { A = 1; } Call q; V { }"), "Pattern p0{\nW t0;\nV{A=1;}\nV{A=0;}\nV{A=1;}\n}\n");
    // The row before counts, and no earlier one.
    assert_eq!(one("W t0; V { } Call q; V { }"), "Pattern p0{\nW t0;\nV{}\nV{A=0;}\n}\nPattern p1{\nW t0;\nV{}\n}\n");
}

#[test]
fn an_empty_list() {
    let due = "PatternBurst b{PatList{}}\nPatternExec{PatternBurst b;}\nPattern p0{\n}\n";
    for list in [listing("", "Pattern p { W t0; V { } } Pattern q { }"), listing("", "Pattern z { }")] {
        let folded = folded(list.as_bytes()).expect("folded");
        assert!(folded.ends_with(due), "{folded}");
        assert_eq!(check(folded.as_bytes()).map(|sum| (sum.patterns, sum.cycles)), Ok((0, 0)));
    }
}

#[test]
fn waveforms_and_times() {
    let tables = "WaveformTable zz { Period '1000000000ps'; Waveforms { ab { z9A { '1ns' D/U/P; '1001ps' x; } } A { a { '1000000000ps' l; } } } }
 WaveformTable y { Period '1ps'; Waveforms { dab { } } } WaveformTable t { Period '999ps'; Waveforms { D { 0 { '000ps' H; '0ns' Z; } } } }";
    let due = "STIL 1.0;\nSignals{A In;B Out;D InOut;}\nTiming{
WaveformTable zz{Period'1000000ns';Waveforms{
A{9{'1ns'U;'1001ps'x;}A{'1ns'P;'1001ps'x;}a{'1000000ns'l;}z{'1ns'D;'1001ps'x;}}
B{9{'1ns'U;'1001ps'x;}A{'1ns'P;'1001ps'x;}z{'1ns'D;'1001ps'x;}}\n}}
WaveformTable y{Period'1ps';Waveforms{\n}}
WaveformTable t{Period'999ps';Waveforms{\nD{0{'0ns'H;'0ns'Z;}}\n}}\n}
PatternBurst b{PatList{}}\nPatternExec{PatternBurst b;}\nPattern p0{\n}\n";
    assert_eq!(folded(build("timing", tables).as_bytes()), Ok(due.into()));
}

#[test]
fn refusals_in_order() {
    let splits = |count: usize| "Call q; V { } ".repeat(count);
    // So many Patterns: one more begins behind each call.
    let of = |count: usize, more: &str| {
        folded(listing("p;", &format!("Pattern p {{ W t0; V {{ }} {} {more} }}", splits(count))).as_bytes())
    };
    assert!(of(15, "").is_ok());
    assert_eq!(of(16, ""), refused(22));
    assert_eq!(of(15, "Loop 999968 { V { } }").map(|text| text.contains("Loop 999969{V{}}")), Ok(true));
    assert_eq!(of(15, "Loop 999970 { V { } }"), refused(23));
    assert_eq!(of(16, "Loop 999970 { V { } }"), refused(23));
    let entries = "p; ".repeat(16);
    assert!(folded(listing(&entries, "Pattern p { W t0; V { } Call w; }").as_bytes()).is_ok());
    assert_eq!(
        folded(listing(&entries, "Pattern p { W t0; V { A = 0; } V { } Call q; V { } }").as_bytes())
            .map(|text| text.len() > 16),
        Ok(true)
    );
    assert_eq!(folded(listing(&entries, "Pattern p { W t0; V { } Call q; V { } }").as_bytes()), refused(22));
    // Far too long, and 22 before 19.
    let long = "Loop 3000 { V { ab = 01; D = 0; } V { ab = 10; D = 1; } } ";
    assert_eq!(of(0, long), refused(19));
    assert_eq!(of(15, &format!("C {{ A = 0; }} {long}")), refused(19));
    assert_eq!(of(16, long), refused(22));
    // The text's own come first.
    assert_eq!(fold(b"STIL 2.0;", &mut []), Err(Refusal { number: 4, place: 5 }));
    let too_far = listing("p;", "Pattern p { V { } Loop 1000001 { V { } } }");
    assert_eq!(folded(too_far.as_bytes()).map_err(|refusal| refusal.number), Err(17));
}

#[test]
fn the_longest_folded_text() {
    // Each pair of rows takes 18 bytes, and a stretch's number takes those that are left.
    let of = |pairs: usize, first: usize| {
        let body = format!(
            "W t0; Loop {first} {{ V {{ A = 1; }} }} V {{ A = 0; }} Loop {pairs} {{ V {{ A = 1; }} V {{ A = 0; }} }}"
        );
        folded(listing("p;", &format!("Pattern p {{ {body} }}")).as_bytes())
    };
    let least = of(1, 1).expect("short").len();
    let pairs = 1 + (65_536 - least) / 16;
    let left = 65_536 - of(pairs, 1).expect("still short").len();
    assert!(left < 16);
    let full = [1, 1, 1, 1, 1, 1, 1, 1, 1, 10, 100, 1_000, 10_000, 100_000];
    // A Loop takes eight bytes more than a V, and its number.
    if left >= 9 {
        let first = if left == 9 { 2 } else { full[left] };
        assert_eq!(of(pairs, first).map(|text| text.len()), Ok(65_536));
        assert_eq!(of(pairs, first * 10), refused(19));
    }
    assert_eq!(of(pairs + 1, 1), refused(19));
}

#[test]
fn only_the_front_of_the_buffer() {
    let due = folded(SAMPLE.as_bytes()).expect("folded");
    for room in [0, 1, due.len() - 1, due.len(), due.len() + 1, 70_000] {
        let mut buffer = vec![b'-'; room];
        let answer = fold(SAMPLE.as_bytes(), &mut buffer);
        if room < due.len() {
            assert_eq!(answer, Err(Refusal { number: 19, place: 0 }));
            assert!(buffer.iter().all(|&byte| byte == b'-'));
        } else {
            assert_eq!(answer, Ok(due.len() as u64));
            assert!(buffer.starts_with(due.as_bytes()) && buffer[due.len()..].iter().all(|&byte| byte == b'-'));
        }
    }
}

/// The lines of the page, put together from the answers of the services alone.
struct Plain<'t> {
    document: Document<'t>,
    signals: usize,
}

fn plain(bytes: &[u8]) -> String {
    String::from_utf8(bytes.to_vec()).expect("plain")
}

impl<'t> Plain<'t> {
    fn of(text: &'t [u8]) -> Option<Plain<'t>> {
        let document = Document::read(text).ok()?;
        let signals = document.pins.signals;
        Some(Plain { document, signals })
    }

    fn token(&self, declared: Declared, number: usize) -> Token {
        self.document.name(declared, number).expect("declared")
    }

    fn name(&self, declared: Declared, number: usize) -> String {
        plain(self.token(declared, number).bytes(self.document.text))
    }

    /// All behind a name up to a semicolon, without blanks.
    fn behind(&self, name: Token) -> String {
        let rest = tokens(self.document.text, name.end()).take_while(|token| token.first != b';');
        rest.map(|token| plain(token.bytes(self.document.text))).collect()
    }

    fn time(ps: i64) -> String {
        match (ps / 1_000, ps % 1_000) {
            (ns, 0) => format!("{ns}ns"),
            _ => format!("{ps}ps"),
        }
    }

    fn declared(&self) -> String {
        let signal = |number| {
            format!("{} {};", self.name(Declared::Signal, number), self.behind(self.token(Declared::Signal, number)))
        };
        let signals: String = (0..self.signals).map(signal).collect();
        let mut lines = format!("STIL 1.0;\nSignals{{{signals}}}\nTiming{{\n");
        for table in 0..self.document.summary().tables as usize {
            let period = self.behind(self.token(Declared::Table, table)).replace("{Period'", "").replace('\'', "");
            let period = Plain::time(second::numbers::time(period.as_bytes()).expect("a time") as i64);
            lines += &format!("WaveformTable {}{{Period'{period}';Waveforms{{\n", self.name(Declared::Table, table));
            lines += &(0..self.signals).map(|signal| self.waveforms(table, signal)).collect::<String>();
            lines += "}}\n";
        }
        lines + "}\n"
    }

    fn waveforms(&self, table: usize, signal: usize) -> String {
        let entry = |character: u8| {
            let (mut times, mut letters) = ([0; 16], [0; 16]);
            let asked = Asked { table: table as u64, signal: signal as u64, character };
            let count = self.document.waveform(asked, &mut times, &mut letters).ok()? as usize;
            let events = times[..count].iter().zip(&letters);
            let events = events.map(|(&time, &letter)| format!("'{}'{};", Plain::time(time), letter as char));
            Some(format!("{}{{{}}}", character as char, events.collect::<String>()))
        };
        let entries: String = (0..=255).filter_map(entry).collect();
        if entries.is_empty() {
            return entries;
        }
        format!("{}{{{entries}}}\n", self.name(Declared::Signal, signal))
    }

    /// First cycle and count of each listed pattern, by the index.
    fn listed(&self) -> Vec<(u64, u64)> {
        let mut buffer = [0; MAX_INDEX];
        let length = self.document.index(&mut buffer).expect("room") as usize;
        let lines = plain(&buffer[..length]);
        let number = |line: &str, at: usize| line.split(' ').nth(at).expect("there").parse().expect("a number");
        let entries = lines.lines().skip(1).take(self.document.run.len());
        entries.map(|line| (number(line, 1), number(line, 2))).collect()
    }

    fn rows(&self, first: u64, count: u64) -> Vec<String> {
        let mut buffer = vec![0; count as usize * (self.signals + 2)];
        self.document.window(first, count, DOT, &mut buffer).expect("room");
        plain(&buffer).lines().map(String::from).collect()
    }

    /// Lists of rows, one for each Pattern.
    fn parts(&self) -> Vec<Vec<String>> {
        let mut parts = Vec::new();
        for (first, count) in self.listed() {
            parts.push(Vec::new());
            let rows = self.rows(first, count);
            for (at, row) in rows.iter().enumerate() {
                let loses = at > 0 && rows[at - 1].bytes().zip(row.bytes()).any(|(was, is)| was != b'.' && is == b'.');
                if loses {
                    parts.push(Vec::new());
                }
                parts.last_mut().expect("begun").push(row.clone());
            }
        }
        parts
    }

    fn pattern(&self, number: usize, rows: &[String]) -> String {
        let mut lines = format!("Pattern p{number}{{\n");
        let (mut at, mut last) = (0, "");
        while at < rows.len() {
            let times = rows[at..].iter().take_while(|&row| *row == rows[at]).count();
            let (values, table) = rows[at].split_at(self.signals);
            if table != last {
                lines += &format!("W {};\n", self.name(Declared::Table, table.parse().expect("a digit")));
            }
            let given = values.char_indices().filter(|&(_, value)| value != '.');
            let given = given.map(|(signal, value)| format!("{}={value};", self.name(Declared::Signal, signal)));
            let vector = format!("V{{{}}}", given.collect::<String>());
            lines += &if times > 1 { format!("Loop {times}{{{vector}}}\n") } else { vector + "\n" };
            (at, last) = (at + times, table);
        }
        lines + "}\n"
    }

    fn folded(&self, parts: &[Vec<String>]) -> String {
        let list: String = (0..parts.len()).map(|number| format!("p{number};")).collect();
        let run = format!("PatternBurst b{{PatList{{{list}}}}}\nPatternExec{{PatternBurst b;}}\n");
        let blocks: String = parts.iter().enumerate().map(|(number, rows)| self.pattern(number, rows)).collect();
        self.declared() + &run + if parts.is_empty() { "Pattern p0{\n}\n" } else { &blocks }
    }
}

/// Gives the number of the answer; 0 for a folded text.
fn holds_of(text: &[u8]) -> Option<u8> {
    let plain = Plain::of(text).filter(|plain| plain.document.extent.cycles <= 12_000)?;
    let (sum, parts) = (plain.document.summary(), plain.parts());
    let due = match parts.len() {
        0..=16 => Some(plain.folded(&parts)).filter(|text| text.len() <= 65_536).map_or(refused(19), Ok),
        _ => refused(22),
    };
    let answer = folded(text);
    assert_eq!(answer, due);
    let made = match answer {
        Ok(made) => made,
        Err(refusal) => return Some(refusal.number),
    };
    let other = Plain::of(made.as_bytes()).expect("accepted");
    let again = other.document.summary();
    assert_eq!((again.signals, again.tables, again.cycles), (sum.signals, sum.tables, sum.cycles));
    assert_eq!(other.rows(0, sum.cycles), plain.rows(0, sum.cycles));
    assert_eq!(other.declared(), plain.declared());
    assert_eq!(folded(made.as_bytes()), Ok(made.clone()));
    Some(0)
}

#[test]
fn generated_texts() {
    let mut counts = [0; 24];
    let seeded = (0..800).flat_map(|seed| [text(seed), nested(seed), flat(seed)]);
    for text in seeded.filter(|text| text.len() < 30_000) {
        if let Some(number) = holds_of(&text) {
            counts[number as usize] += 1;
        }
    }
    println!("folded {}, refused by number {counts:?}", counts[0]);
    assert!(counts[0] > 1_000 && counts[19] > 20 && counts[22] > 50, "{counts:?}");
}

/// Texts made for folding are accepted, and some of them are exactly as large as they may be.
#[test]
fn on_the_bounds() {
    let mut met = [0; 5];
    for text in (0..1_500).map(flat) {
        let cycles = check(&text).expect("accepted").cycles;
        let made = folded(&text);
        let count = made.as_ref().map_or(0, |made| made.matches("\nPattern p").count());
        let on = [
            made.as_ref().map_or(false, |made| made.len() == 65_536),
            made == refused(19),
            count == 16,
            cycles == 1_000_000 && made.is_ok(),
            made == refused(23),
        ];
        met.iter_mut().zip(on).for_each(|(met, on)| *met += u32::from(on));
    }
    println!("as long as may be, too long, 16 Patterns, 1,000,000 cycles, more: {met:?}");
    assert!(met.iter().all(|&met| met > 3), "{met:?}");
}

#[test]
fn large_texts() {
    for (kind, due) in
        [("vectors", Some(19)), ("calls", Some(23)), ("arguments", Some(23)), ("waveforms", None), ("groups", None)]
    {
        let answer = folded(&large(kind).expect("a kind"));
        assert_eq!(answer.err().map(|refusal| refusal.number), due, "{kind}");
    }
}
