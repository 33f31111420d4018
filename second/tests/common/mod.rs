//! Builds whole texts from one part, with the refusal's place marked by `«` in it.
#![allow(dead_code, unused_imports)]

use second::{check, Refusal, Summary};

/// Document 01's own text.
pub const SAMPLE: &str = include_str!("../../../examples/worked.stil");

const SIGNALS: &str = "Signals { A In; B Out; D InOut; }\n";
const GROUPS: &str = "SignalGroups { ab = 'A+B'; one = 'D'; dab = 'D+ab'; }\n";
const TIMING: &str = "Timing { WaveformTable t0 { Period '100ns'; Waveforms { dab { 01x { '0ns' D/U/Z; } } } }
 WaveformTable t1 { Period '50ns'; Waveforms { ab { 0 { '0ps' D; } } } } }\n";
const BLOCKS: &str =
    "MacroDefs { e { } v { V { } } s { Shift { V { ab = ##; } } V { A = #; } } u { V { A = #; } V { A = #; } } }
 Procedures { q { V { A = 0; } } w { W t1; C { A = 0; } } }\n";
const BURST: &str = "PatternBurst b { PatList { p; } }\nPatternExec { PatternBurst b; }\n";
const PATTERN: &str = "Pattern p { W t0; V { } }\n";

/// The smallest rest after a Signals block of any names.
const BARE: &str = "Timing { WaveformTable t { Period '1ns'; Waveforms { } } }
PatternBurst b { PatList { } } PatternExec { PatternBurst b; } Pattern p { }";

/// A whole text whose one part is given; the others are plain.
pub fn build(part: &str, given: &str) -> String {
    let head = format!("STIL 1.0;\n{SIGNALS}{GROUPS}");
    let run = format!("{BURST}{PATTERN}");
    match part {
        "text" => given.to_string(),
        "signals" => format!("STIL 1.0; Signals {{ {given} }} {BARE}"),
        "groups" => format!("STIL 1.0; {SIGNALS} SignalGroups {{ {given} }} {BARE}"),
        "expression" => build("groups", &format!("x = 'A+B'; y = 'D'; g = '{given}';")),
        "after signals" => format!("STIL 1.0; {SIGNALS} {given}"),
        "timing" => format!("{head}Timing {{ {given} }} PatternBurst b {{ PatList {{ }} }} PatternExec {{ PatternBurst b; }} Pattern p {{ }}"),
        "waves" => build("timing", &format!("WaveformTable t {{ Period '1ns'; Waveforms {{ {given} }} }}")),
        "entries" => build("waves", &format!("A {{ {given} }}")),
        "events" => build("entries", &format!("01 {{ {given} }}")),
        "blocks" => format!("{head}{TIMING}{given} {run}"),
        "after timing" => format!("{head}{TIMING}{given}"),
        "macros" => build("blocks", &format!("MacroDefs {{ {given} }}")),
        "macro" => build("macros", &format!("m {{ {given} }}")),
        "procedures" => build("blocks", &format!("Procedures {{ {given} }}")),
        "burst" => format!("{head}{TIMING}{BLOCKS}{given}"),
        "list" => build("burst", &format!("PatternBurst b {{ PatList {{ {given} }} }} PatternExec {{ PatternBurst b; }} {PATTERN}")),
        "patterns" => build("burst", &format!("{BURST}{given}")),
        "pattern" => build("patterns", &format!("Pattern p {{ {given} }}")),
        _ => panic!("no such part: {part}"),
    }
}

/// Takes the mark out of a text; gives the place where it stood.
pub fn unmark(text: &str) -> (String, Option<u64>) {
    let place = text.find('«').map(|place| place as u64);
    (text.replacen('«', "", 1), place)
}

#[derive(Clone, Copy, Debug)]
pub enum Due {
    /// Refused with this number at the mark, or at 0 where there is none.
    Refused(u8),
    /// Accepted with signals, tables, patterns, cycles and size.
    Accepted([u64; 5]),
}

pub use Due::{Accepted as Ok5, Refused as No};

/// Says what is wrong with the answer, if anything.
pub fn judge(part: &str, given: &str, due: Due) -> Option<String> {
    let (text, place) = unmark(&build(part, given));
    let answer = check(text.as_bytes());
    let wanted = match due {
        Due::Refused(number) => Err(Refusal { number, place: place.unwrap_or(0) }),
        Due::Accepted([signals, tables, patterns, cycles, size]) => {
            Ok(Summary { signals, tables, patterns, cycles, size })
        }
    };
    if answer == wanted {
        return None;
    }
    Some(format!("{part}: {given}\n  due {wanted:?}\n  got {answer:?}\n"))
}

/// Judges a whole table, so that one run shows every case that differs.
pub fn judge_all(cases: &[(&str, &str, Due)]) {
    let faults: Vec<String> = cases.iter().filter_map(|(part, given, due)| judge(part, given, *due)).collect();
    assert!(faults.is_empty(), "{} of {} cases differ:\n{}", faults.len(), cases.len(), faults.concat());
}

pub fn rows(text: &str) -> String {
    let listing = second::listing(text.as_bytes()).expect("accepted");
    let listing = String::from_utf8(listing).expect("plain");
    let start = listing.find("CYCLES").expect("its section");
    listing[start..].split_once('\n').expect("its line").1.replace('\n', " ").trim().to_string()
}
