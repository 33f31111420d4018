//! Texts heavy in one way, all accepted, for measuring: ten kinds of about 64 KB, and some of them in any size.

use super::random::Random;
use crate::bounds::MAX_TEXT;

pub const LARGE_KINDS: [&str; 10] =
    ["vectors", "wide", "comments", "waveforms", "macros", "calls", "loops", "shifts", "arguments", "groups"];

/// Those that `sized` makes, with the least signals that each needs.
pub const SIZED_KINDS: [(&str, usize); 5] = [("straight", 1), ("vectors", 2), ("wide", 1), ("calls", 5), ("shifts", 2)];

const SIGNALS: usize = 32;
const LARGE: Size = Size { heavy: 60_000, signals: SIGNALS, shorter: 1 };

/// Sized texts have shorter bodies and Shifts, so that one of 1 KB is made like one of 64 KB.
const SHORTER: usize = 16;

/// The bytes of a text's heavy part, its signals, and how many times shorter than in a large text its bodies and Shifts are.
#[derive(Clone, Copy)]
struct Size {
    heavy: usize,
    signals: usize,
    shorter: usize,
}

pub fn large(kind: &str) -> Option<Vec<u8>> {
    let mut random = Random::new(kind.len() as u64);
    let text = match kind {
        "comments" => {
            plain(fill(LARGE.heavy, |at| format!("// {} note {at} of many\n/* V {{ }} */ V {{ }}\n", "-".repeat(60))))
        }
        "waveforms" => waveforms(),
        "macros" => macros(),
        "loops" => plain(fill(LARGE.heavy, |_| loops())),
        "arguments" => arguments(&mut random),
        "groups" => groups(&mut random),
        _ => scaled(kind, LARGE)?,
    };
    debug_assert!(text.len() <= MAX_TEXT);
    Some(text.into_bytes())
}

/// A text of at most so many bytes; none where they are too few for what stands around its heavy part.
pub fn sized(kind: &str, bytes: usize, signals: usize) -> Option<Vec<u8>> {
    let &(_, least) = SIZED_KINDS.iter().find(|(name, _)| *name == kind)?;
    if signals < least {
        return None;
    }
    let size = Size { heavy: 0, signals, shorter: SHORTER };
    let heavy = bytes.checked_sub(scaled(kind, size)?.len())?;
    scaled(kind, Size { heavy, ..size }).map(String::into_bytes)
}

fn scaled(kind: &str, size: Size) -> Option<String> {
    let mut random = Random::new(kind.len() as u64);
    match kind {
        "straight" => Some(pattern(size.signals, "", &fill(size.heavy, |_| straight(size.signals, &mut random)))),
        "vectors" => Some(pattern(size.signals, "", &fill(size.heavy, |_| vector(size.signals, &mut random)))),
        "wide" => Some(pattern(size.signals, "", &fill(size.heavy, |_| wide_vector(size.signals, &mut random)))),
        "calls" => Some(calls(size)),
        "shifts" => Some(shifts(size, &mut random)),
        _ => None,
    }
}

/// Items until the next would pass the length.
fn fill(length: usize, mut item: impl FnMut(usize) -> String) -> String {
    let mut text = String::new();
    for number in 0.. {
        let next = item(number);
        if text.len() + next.len() > length {
            break;
        }
        text.push_str(&next);
    }
    text
}

fn join(count: usize, between: &str, item: impl Fn(usize) -> String) -> String {
    (0..count).map(item).collect::<Vec<String>>().join(between)
}

fn head(signals: usize) -> String {
    let declared = join(signals, " ", |pin| format!("pin_number_{pin} InOut;"));
    let all = join(signals, "+", |pin| format!("pin_number_{pin}"));
    format!("STIL 1.0;\nSignals {{ {declared} }}\nSignalGroups {{ all = '{all}'; }}\n")
}

fn timing() -> String {
    "Timing { WaveformTable t { Period '100ns'; Waveforms { all { 01LH { '0ns' D/U/Z/Z; '50ns' X/X/L/H; } } } } }\n"
        .into()
}

fn tail(body: &str) -> String {
    format!("PatternBurst b {{ PatList {{ p; }} }}\nPatternExec {{ PatternBurst b; }}\nPattern p {{ W t;\n{body}}}\n")
}

pub(super) fn pattern(signals: usize, blocks: &str, body: &str) -> String {
    format!("{}{}{blocks}{}", head(signals), timing(), tail(body))
}

fn plain(body: String) -> String {
    pattern(SIGNALS, "", &body)
}

/// One signal, however many there are.
fn straight(signals: usize, random: &mut Random) -> String {
    format!("V {{ pin_number_{} = {}; }}\n", random.below(signals), random.below(2))
}

fn vector(signals: usize, random: &mut Random) -> String {
    let half = signals / 2;
    let (one, other) = (random.below(half), half + random.below(half));
    format!("V {{ pin_number_{one} = {}; pin_number_{other} = H; }}\n", random.below(2))
}

fn wide_vector(signals: usize, random: &mut Random) -> String {
    let data: String = (0..signals).map(|_| b"01LH"[random.below(4)] as char).collect();
    format!("V {{ all = {data}; }}\n")
}

/// Eight tables with an entry for each character of each signal.
fn waveforms() -> String {
    let entry = |byte: char| format!("{byte} {{ '0ns' D; '20ns' U; '5ns' L; '70ns' H; '90ns' X; }} ");
    let table = |number: usize| {
        let entries: String = "01LH".chars().map(entry).collect();
        let pins = join(SIGNALS, "\n", |pin| format!("pin_number_{pin} {{ {entries} }}"));
        let name = if number == 0 { "t".to_string() } else { format!("t{number}") };
        format!("WaveformTable {name} {{ Period '100ns'; Waveforms {{\n{pins}\n}} }}\n")
    };
    format!("{}Timing {{\n{}}}\n{}", head(SIGNALS), join(8, "", table), tail("V { all = \\r32 0; }\n"))
}

/// Thirty-two bodies, each a page of statements, used once.
fn macros() -> String {
    let body = |number: usize| {
        format!(
            "macro_number_{number} {{ {}}}\n",
            "V { pin_number_7 = 1; pin_number_8 = L; } C { all = \\r32 0; } ".repeat(28)
        )
    };
    let uses = join(32, "", |number| format!("Macro macro_number_{number};\n"));
    pattern(SIGNALS, &format!("MacroDefs {{\n{}}}\n", join(32, "", body)), &uses)
}

/// Where it is large, a run of nearly the largest size: bodies using bodies within nested Loops.
fn calls(size: Size) -> String {
    let share = |count: usize| count * size.heavy / LARGE.heavy;
    let inner = "V { pin_number_3 = 1; } V { pin_number_4 = H; } ".repeat((7 / size.shorter).max(1));
    let blocks = format!(
        "MacroDefs {{ low {{ {inner}}} mid {{ {}}} arg {{ V {{ pin_number_1 = #; }} }} }}\n",
        "Loop 2 { Macro low; } ".repeat(3)
    );
    let body = format!(
        "Loop 2 {{ Loop 2 {{ Loop 2 {{ Loop 2 {{\n{}{}}} }} }} }}\n",
        "Macro mid;\n".repeat(share(1200)),
        "Macro arg { pin_number_1 = 0; }\n".repeat(share(1300))
    );
    pattern(size.signals, &blocks, &body)
}

/// Loops eight deep whose later turns differ from the first.
fn loops() -> String {
    let open = join(8, "", |level| format!("Loop 3 {{ C {{ pin_number_{level} = 0; }} "));
    let close = join(8, "", |level| format!("C {{ pin_number_{level} = 1; }} }} "));
    format!("{open}V {{ pin_number_9 = 1; }} {close}\n")
}

/// Long arguments, plain and by repeats.
fn shifts(size: Size, random: &mut Random) -> String {
    let blocks = "MacroDefs { load { Shift { V { pin_number_0 = #; pin_number_1 = #; } } } }\n";
    let (long, short) = (4_096 / size.shorter, 1_500 / size.shorter);
    let body = fill(size.heavy, |number| {
        if number % 2 == 0 {
            return format!("Macro load {{ pin_number_0 = \\r{} 01; pin_number_1 = \\r{long} H; }}\n", long / 2);
        }
        let bits: String = (0..short).map(|_| if random.percent(50) { '0' } else { '1' }).collect();
        format!("Macro load {{ pin_number_0 = {bits}; pin_number_1 = \\r{short} L; }}\n")
    });
    pattern(size.signals, blocks, &body)
}

/// A macro with arguments that uses another with long ones, itself used often.
fn arguments(random: &mut Random) -> String {
    let load = "low { Shift { V { pin_number_0 = #; } } }";
    let uses = fill(25_000, |_| {
        let bits: String = (0..4096).map(|_| if random.percent(50) { '0' } else { '1' }).collect();
        format!("Macro low {{ pin_number_0 = {bits}; }}\n")
    });
    let blocks = format!("MacroDefs {{ {load} high {{ {uses} V {{ pin_number_1 = #; }} }} }}\n");
    pattern(SIGNALS, &blocks, &"Macro high { pin_number_1 = L; }\n".repeat(1_100))
}

/// Thirty-two long expressions with brackets.
fn groups(random: &mut Random) -> String {
    let signals = join(SIGNALS, " ", |pin| format!("pin_number_{pin} InOut;"));
    let all = join(SIGNALS, "+", |pin| format!("pin_number_{pin}"));
    let mut groups = format!("all = '{all}'; ");
    for number in 0..31 {
        let swaps = fill(1_850, |_| {
            let pin = random.below(SIGNALS);
            format!("-pin_number_{pin}+(((pin_number_{pin})))")
        });
        groups += &format!("g{number} = 'all{swaps}';\n");
    }
    format!(
        "STIL 1.0;\nSignals {{ {signals} }}\nSignalGroups {{ {groups} }}\n{}{}",
        timing(),
        tail("V { g30 = \\r32 0; }\n")
    )
}
