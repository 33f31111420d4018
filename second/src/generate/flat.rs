//! Texts whose rows repeat, lose values and fill a folded text: made for folding.

use super::random::Random;
use crate::bounds::{MAX_FOLDED, MAX_LISTED, MAX_PATTERNS, MAX_TEXT};
use crate::document::Document;

/// What a pattern is made of: most of it leaves some pins as they are, and what calls a procedure takes values away for some rows.
const PIECES: [&str; 20] = [
    "V { }",
    "V { }",
    "V { A = 0; }",
    "V { A = 1; }",
    "V { ab = 10; }",
    "V { D = 0; ab = 00; }",
    "C { D = 1; }",
    "C { ab = 11; }",
    "W t0;",
    "W t1;",
    "W t1; W t0;",
    "Call q;",
    "Call r;",
    "Call s;",
    "Call e;",
    "Macro m { A = 0010; }",
    "Macro m { A = ; }",
    "Macro m { A = \\r5 01 1; }",
    "Macro k;",
    "Loop 2 { }",
];

/// The text of one seed, which nothing is wrong with.
pub fn flat(seed: u64) -> Vec<u8> {
    let mut flat = Flat(Random::new(seed));
    let signals = flat.signals();
    let patterns: Vec<String> = (0..flat.0.between(1, 3)).map(|_| flat.pattern()).collect();
    let entries = flat.0.below(5);
    let text = match flat.0.below(60) {
        0..=4 => text(&signals, &patterns, MAX_LISTED - flat.0.below(3)),
        5..=14 => text(&signals, &[flat.losing()], 1),
        15..=24 => flat.long(&signals),
        // Few, since all their rows are played.
        25 => flat.far(&signals),
        _ => text(&signals, &patterns, entries),
    };
    text.into_bytes()
}

struct Flat(Random);

impl Flat {
    fn signals(&mut self) -> String {
        let [a, b, d, unused] = [0; 4].map(|_| self.0.pick(&["In", "Out", "InOut"]));
        format!("A {a}; B {b}; D {d}; unused {unused};")
    }

    fn pattern(&mut self) -> String {
        if self.0.percent(10) {
            return self.0.pick(&["", "W t0;", "C { A = 0; }"]).to_string();
        }
        let mut body = String::from("W t0; ");
        for _ in 0..self.0.below(12) {
            let piece = self.0.pick(&PIECES);
            body += &match self.0.below(10) {
                0..=5 => format!("{piece} "),
                6 | 7 => format!("{piece} ").repeat(self.0.between(2, 3)),
                8 => format!("Loop {} {{ {piece} }} ", self.0.between(1, 5)),
                _ => format!("Loop {} {{ {piece} {} }} ", self.0.between(1, 300), self.0.pick(&PIECES)),
            };
        }
        body
    }

    /// About as many Patterns as there may be: one more begins behind each of these calls.
    fn losing(&mut self) -> String {
        let calls = self.0.between(MAX_PATTERNS - 3, MAX_PATTERNS + 1);
        format!("W t0; V {{ A = 1; }} {}", "Call r; V { } ".repeat(calls))
    }

    /// About as long when it is folded as a text may be: pairs of rows, and the rest by a longer name.
    fn long(&mut self, signals: &str) -> String {
        let stretch = self.0.between(1, 1200);
        let of = |pairs: usize, longer: usize| {
            let (first, both) = ("V { D = 0; }", "V { D = 1; } V { D = 0; }");
            let body = format!("W t1; Loop {stretch} {{ {first} }} Loop {pairs} {{ {both} }}");
            text(&signals.replace("unused", &"u".repeat(longer)), &[body], 1)
        };
        let short = of(1, 2);
        let short =
            Document::read(short.as_bytes()).and_then(|document| document.folded()).map_or(0, |made| made.len());
        let (left, pair) = (MAX_TEXT - short, "V{D=1;}\nV{D=0;}\n".len());
        of(1 + left / pair, 1 + left % pair + self.0.below(3))
    }

    /// About as many cycles as are folded.
    fn far(&mut self, signals: &str) -> String {
        let turns = MAX_FOLDED as usize - self.0.below(4);
        text(signals, &[format!("W t0; Loop {turns} {{ V {{ A = 0; }} }} V {{ }} V {{ A = 1; }}")], 1)
    }
}

fn text(signals: &str, patterns: &[String], entries: usize) -> String {
    let list: String = (0..entries).map(|entry| format!("p{}; ", entry % patterns.len())).collect();
    let patterns = patterns.iter().enumerate().map(|(number, body)| format!("Pattern p{number} {{ {body} }}\n"));
    format!(
        "STIL 1.0; Signals {{ {signals} }} SignalGroups {{ ab = 'A+B'; all = 'D+ab'; }}
Timing {{ WaveformTable t0 {{ Period '10ns'; Waveforms {{ ab {{ 10 {{ '0ns' D/U; '2500ps' X; }} }} D {{ 01 {{ '5ps' L/H; }} }} }} }}
 WaveformTable t1 {{ Period '1ps'; Waveforms {{ all {{ 01 {{ '0ns' D/U; }} }} B {{ xZ {{ '1ns' H; }} }} }} }} }}
MacroDefs {{ m {{ Shift {{ V {{ A = #; }} }} }} k {{ W t1; V {{ D = 1; }} }} }}
Procedures {{ q {{ V {{ A = 0; }} }} r {{ V {{ }} }} s {{ W t1; V {{ ab = 01; }} V {{ }} }} e {{ C {{ A = 1; }} }} }}
PatternBurst p {{ PatList {{ {list}}} }} PatternExec {{ PatternBurst p; }}
{}",
        patterns.collect::<String>()
    )
}
