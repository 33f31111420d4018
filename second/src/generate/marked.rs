//! Texts with X names, and fail reports that refer to them or to any other text's patterns.

use super::damage::{damage_bytes, damage_tokens};
use super::random::Random;
use super::tokens::{render, Tokens};
use crate::bounds::{MAX_CYCLES, MAX_TEXT};
use crate::document::Document;
use crate::statements::{Act, Range};
use crate::tokens::Token;

/// What stands between X names: with cycles, without any, and with many.
const PIECES: [&str; 12] = [
    "V { }",
    "V { A = 1; }",
    "V { ab = 10; } V { }",
    "C { ab = 00; }",
    "W t1;",
    "Macro m { A = 011; }",
    "Macro m { A = ; }",
    "Call q;",
    "Call e;",
    "Loop 3 { V { } V { B = 0; } }",
    "Loop 2 { }",
    "Loop 16777215 { Loop 5 { V { } } }",
];

/// Slips around X, each in place of one X statement.
const SLIPS: [&str; 12] = [
    "X p0;",
    "X p1;",
    "X p2;",
    "X b;",
    "X a0;",
    "X X;",
    "X 1x;",
    "X;",
    "X x0",
    "X x0 { }",
    "X abcdefghijklmnopqrstuvwxyz0123456;",
    "Loop 1 { X x0; X x0; }",
];

/// Names that a macro, a signal, a group or a table has as well: other name spaces.
const NAMES: [&str; 7] = ["A", "ab", "t0", "m", "q", "Y", "FailData"];

/// The text of one seed, X names in it where they are read; few have a slip.
pub fn marked(seed: u64) -> Vec<u8> {
    let mut marked = Marked { random: Random::new(seed), names: 0, slips: 0 };
    if marked.random.percent(25) {
        marked.slips = 10;
    }
    let body = |marked: &mut Marked| format!("W t0; {}", marked.body(3));
    let patterns: Vec<String> = (0..marked.random.between(1, 3)).map(|_| body(&mut marked)).collect();
    let random = &mut marked.random;
    let mut listed: Vec<usize> = (0..patterns.len()).filter(|_| random.percent(90)).collect();
    random.shuffle(&mut listed);
    if random.percent(25) {
        listed.push(random.below(patterns.len()));
    }
    let mut list: String = listed.iter().map(|number| format!("p{number}; ")).collect();
    if random.percent(3) {
        list += "x1; ";
    }
    let odd = |random: &mut Random, rest: &'static str| if random.percent(2) { rest } else { "" };
    let (signal, body) = (odd(random, "X In;"), odd(random, "X x0;"));
    let patterns = patterns.iter().enumerate().map(|(number, body)| format!("Pattern p{number} {{ {body}}}\n"));
    format!(
        "STIL 1.0; Signals {{ A In; B Out; D InOut; {signal} }} SignalGroups {{ ab = 'A+B'; one = 'D'; }}
Timing {{ WaveformTable t0 {{ Period '1ns'; Waveforms {{ ab {{ 01X {{ '0ns' D; }} }} }} }} WaveformTable t1 {{ Period '2ns'; Waveforms {{ ab {{ 01 {{ '0ns' U; }} }} }} }} }}
MacroDefs {{ m {{ Shift {{ V {{ A = #; }} }} {body} }} }} Procedures {{ q {{ V {{ B = 1; }} V {{ }} }} e {{ }} }}
PatternBurst b {{ PatList {{ {list}}} }} PatternExec {{ PatternBurst b; }}
{}",
        patterns.collect::<String>()
    )
    .into_bytes()
}

struct Marked {
    random: Random,
    names: usize,
    slips: usize,
}

impl Marked {
    /// Statements in Loops up to this many deep.
    fn body(&mut self, level: usize) -> String {
        let mut body = String::new();
        for _ in 0..self.random.below(6) {
            body += &match self.random.below(10) {
                0..=4 => self.mark(),
                5 | 6 if level > 0 => format!("Loop {} {{ {}}} ", self.random.between(1, 4), self.body(level - 1)),
                _ => format!("{} ", self.random.pick(&PIECES)),
            };
        }
        body
    }

    fn mark(&mut self) -> String {
        if self.random.percent(self.slips) {
            return format!("{} ", self.random.pick(&SLIPS));
        }
        self.names += 1;
        let name = NAMES.get(self.names).filter(|_| self.random.percent(50));
        name.map_or_else(|| format!("X x{}; ", self.names), |name| format!("X {name}; "))
    }
}

/// A report on this text, if it is one: mostly a right one, else with a slip, or damaged.
pub fn report(document: Option<&Document>, random: &mut Random) -> Vec<u8> {
    let mut out = Tokens::default();
    let about = About::new(document, random);
    out.put("PatternFailReport { Pattern");
    out.word(&about.pattern);
    out.put("; FailData {");
    let slips = [0, 0, 0, 3, 10][random.below(5)];
    for _ in 0..random.between(0, 6) {
        about.record(&mut out, slips, random);
    }
    out.put("} }");
    if random.percent(12) {
        damage_tokens(&mut out, random);
    }
    let mut report = render(&out, random);
    if random.percent(6) {
        damage_bytes(&mut report, random);
    }
    if random.percent(2) {
        report.resize(MAX_TEXT + random.below(2), b' ');
    }
    report
}

/// What a report can say of a text.
struct About {
    pattern: String,
    /// References, with the cycles from each to the pattern's end.
    references: Vec<(String, u64)>,
    signals: Vec<String>,
    groups: Vec<String>,
}

impl About {
    fn new(document: Option<&Document>, random: &mut Random) -> About {
        let document = match document.filter(|document| !document.run.is_empty()) {
            Some(document) => document,
            None => {
                let (p, a) = ("p0".to_string(), "A".to_string());
                return About { pattern: p.clone(), references: vec![(p, 1)], signals: vec![a], groups: Vec::new() };
            }
        };
        let name = |token: Token| String::from_utf8_lossy(token.bytes(document.text)).to_string();
        let once = |&&pattern: &&usize| document.run.iter().filter(|&&other| other == pattern).count() == 1;
        let listed_once: Vec<usize> = document.run.iter().filter(once).copied().collect();
        let any = random.below(document.patterns.len());
        let number = if listed_once.is_empty() || random.percent(5) {
            any
        } else {
            listed_once[random.below(listed_once.len())]
        };
        let pattern = name(document.headings[number].name);
        let (body, cycles) = (document.patterns[number].statements, document.patterns[number].extent.cycles);
        let mut references = vec![(pattern.clone(), cycles)];
        marks(document, body, cycles, &mut references);
        let names = (0..document.pins.names.count()).filter_map(|number| document.pins.names.get(number)).map(name);
        let mut signals: Vec<String> = names.collect();
        let groups = signals.split_off(document.pins.signals);
        About { pattern, references, signals, groups }
    }

    fn record(&self, out: &mut Tokens, slips: usize, random: &mut Random) {
        let (mut reference, mut left) = self.references[random.below(self.references.len())].clone();
        // What no cycle follows is refused with any offset: few records are left so.
        if left == 0 && random.percent(90) {
            (reference, left) = self.references[0].clone();
        }
        // Names that are none, that nothing has, or that something else has.
        let wrong = ["X", "13", "45.LU", "Pattern", "nothing", "b", "p0", "p1", "x1", "x2"];
        out.word(if random.percent(slips) { random.pick(&wrong) } else { reference.as_str() });
        let signal = &self.signals[random.below(self.signals.len())];
        let group = self.groups.get(random.below(4));
        let wrong = [group.map_or("none", String::as_str), "In", "1", "none"];
        out.word(if random.percent(slips) { random.pick(&wrong) } else { signal.as_str() });
        let most = [0, 1, 5][random.below(3)];
        for _ in 0..random.below(most + 1) {
            offset(left, out, slips, random);
        }
        out.put(if random.percent(slips) { random.pick(&["", ";;", "{ }"]) } else { ";" });
    }
}

fn offset(left: u64, out: &mut Tokens, slips: usize, random: &mut Random) {
    let within = random.draw() % left.max(1);
    let value = match random.below(8) {
        0 => left.saturating_sub(1),
        1 => 0,
        2 if random.percent(5 * slips) => left,
        3 if random.percent(5 * slips) => MAX_CYCLES + random.below(2) as u64,
        _ => within,
    };
    let zeros = if random.percent(5) { "000" } else { "" };
    let wrong = ["1x", "x", "0.5", "1_0", "99999999999999999999999", "'H'"];
    out.put(&if random.percent(slips) { random.pick(&wrong).to_string() } else { format!("{zeros}{value}") });
    if random.percent(40) {
        let letter = random.pick(&["H", "L", "T", "X"]);
        let wrong = ["' HH '", "' h '", "' '", "' 1 '", "' H", "' H L '", "'' H ''"];
        out.put(&if random.percent(slips) { random.pick(&wrong).to_string() } else { format!("' {letter} '") });
    }
}

/// The X names of a body, with the cycles that are left from each, of `left` at the body's begin.
fn marks(document: &Document, body: Range, mut left: u64, found: &mut Vec<(String, u64)>) {
    let mut at = body.first;
    while at < body.end {
        let statement = &document.program.statements[at as usize];
        match statement.act {
            Act::Mark(name) => found.push((String::from_utf8_lossy(name.bytes(document.text)).to_string(), left)),
            Act::Loop { .. } => marks(document, Range { first: at + 1, end: statement.next }, left, found),
            _ => {}
        }
        left = left.saturating_sub(statement.extent.cycles);
        at = statement.next;
    }
}
