//! Texts that hold one rule each, with the answer that the documents give; most of them fail with 17 in one cycle alone.

mod list;
mod tokens;

use crate::comparison::{Comparison, Often};
use second::generate::random::Random;
use second::{check, token, Refusal, Summary};

/// Document 01's own text.
pub const SAMPLE: &str = include_str!("../../examples/worked.stil");

/// In t1 only B has the character x, its event just late enough to follow t0's. Only D has y, and only in t0: there it may not follow itself.
const HEAD: &str = "STIL 1.0; Signals { A In; B In; D In; } SignalGroups { ab = 'A+B'; }
Timing {
 WaveformTable t0 { Period '1ns'; Waveforms { ab { 01x { '0ns' D/U/Z; '1ns' L; } } D { x10 { '5ps' L; } y { '0ns' D; '1ns' U; } } } }
 WaveformTable t1 { Period '2ns'; Waveforms { ab { 01 { '0ns' U; } } D { 01 { '0ns' H/L; } } B { x { '1ps' X; } } } } }
";

/// Windows of it: first, wanted, rows and visits.
const WINDOWS: [(u64, u64, &str, u64); 7] = [
    (0, u64::MAX, "1X0\n0H0\n1H0\n0H0\n1L0\n0H0\n1H0\n", 16),
    (0, 0, "", 16),
    (2, 2, "1H0\n0H0\n", 16),
    (3, 0, "", 17),
    (6, 1, "1H0\n", 22),
    (7, u64::MAX, "", 10),
    (u64::MAX, u64::MAX, "", 10),
];

/// Its index, as request 7 gives it.
const INDEX: &str = include_str!("../../examples/worked.index");

/// The page that fixes folded texts, with a whole case: a text, and what it is folded to.
const FOLDED: &str = include_str!("../../docs/FOLDED.md");

enum Due {
    /// Listed patterns, cycles and size.
    Accepted(u64, u64, u64),
    /// At the mark `«`, or at 0 where there is none.
    Refused(u8),
}

struct Special {
    why: &'static str,
    bodies: &'static str,
    list: &'static str,
    patterns: &'static str,
    due: Due,
}

impl Special {
    /// The text, and the place of the mark in it.
    fn text(&self) -> (String, u64) {
        let Special { bodies, list, patterns, .. } = self;
        let marked = format!(
            "{HEAD}{bodies}
PatternBurst b {{ PatList {{ {list} }} }} PatternExec {{ PatternBurst b; }}
{patterns}
"
        );
        (marked.replacen('«', "", 1), marked.find('«').unwrap_or(0) as u64)
    }
}

/// All special texts, document 01's own first.
pub fn compare(comparison: &mut Comparison, often: Often, random: &mut Random) {
    let due = Summary { signals: 2, tables: 1, patterns: 1, cycles: 7, size: 10 };
    judge(comparison, "document 01", SAMPLE, Ok(due));
    comparison.text("document 01", SAMPLE.as_bytes(), often, random);
    comparison.waveforms("document 01", SAMPLE.as_bytes());
    comparison.windows("document 01", SAMPLE.as_bytes(), &WINDOWS);
    comparison.indexed("document 01", SAMPLE.as_bytes(), INDEX);
    let mut case = FOLDED.split("```\n").skip(1).step_by(2);
    if let (Some(text), Some(due)) = (case.next(), case.next()) {
        comparison.text("docs/FOLDED.md", text.as_bytes(), often, random);
        comparison.folded("docs/FOLDED.md", text.as_bytes(), due);
    }
    for special in &list::SPECIAL {
        let (text, place) = special.text();
        let due = match special.due {
            Due::Accepted(patterns, cycles, size) => Ok(Summary { signals: 3, tables: 2, patterns, cycles, size }),
            Due::Refused(number) => Err(Refusal { number, place }),
        };
        judge(comparison, special.why, &text, due);
        comparison.text(special.why, text.as_bytes(), often, random);
    }
    let head =
        Special { why: "two tables", bodies: "", list: "", patterns: "Pattern p { }", due: Due::Accepted(0, 0, 0) };
    comparison.waveforms(head.why, head.text().0.as_bytes());
    for (why, text, at, due) in tokens::TOKENS {
        comparison.tokens(why, text);
        let answer = token(text, at);
        if answer != due {
            comparison.token.report(&format!("{why}: second {answer:?}, due {due:?}"));
        }
    }
}

/// What both readers say alike could still be wrong: the second one is held to the answer that is due.
fn judge(comparison: &mut Comparison, why: &str, text: &str, due: Result<Summary, Refusal>) {
    let answer = check(text.as_bytes());
    if answer != due {
        comparison.check.report(&format!("{why}: second {answer:?}, due {due:?}"));
    }
}
