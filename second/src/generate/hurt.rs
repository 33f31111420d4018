//! Texts with several hurt patterns and listed names that nothing has: made for saving what is left.

use super::damage::damage_bytes;
use super::random::Random;

const HEAD: &str = "STIL 1.0; Signals { A In; B Out; D InOut; } SignalGroups { ab = 'A+B'; }
Timing { WaveformTable t0 { Period '1ns'; Waveforms { ab { 01x { '0ns' D; } } D { 01x { '0ns' U; } } } }
 WaveformTable t1 { Period '1ns'; Waveforms { ab { 01 { '0ns' D; } } D { 01 { '0ns' U; } } } } }
MacroDefs { m { Shift { V { A = #; } } } k { V { D = x; } } }
Procedures { q { W t0; V { B = 1; } } }
";

const SOUND: [&str; 8] = [
    "",
    "W t0; V { ab = 01; }",
    "W t1;\nLoop 3 { V { } /* } */ }\n",
    "W t0; Macro m { A = 01x; } // {\n V { D = x; }",
    "Call q; W t1; Call q;",
    "C { A = x; } W t0; Macro k; V { A = 0; }",
    "W t0; Loop 2 { Loop 2 { V { B = \\r1 1; } } }",
    "W t0; /* Pattern p { */ V { }",
];

/// Inside one pattern's braces, most of them refused in it; the last ones make more of the text hurt, or are beyond help.
const HURT: [&str; 24] = [
    "V { A = 0 }",
    "V { A = 00; }",
    "V { A = _; }",
    "V { A = #; }",
    "W t9;",
    "W Loop;",
    "W;",
    "% V { }",
    "Shift { V { } }",
    "Loop 0 { }",
    "Loop 1 { Loop 1 { Loop 1 { Loop 1 { Loop 1 { Loop 1 { Loop 1 { Loop 1 { Loop 1 { } } } } } } } } }",
    "Macro m;",
    "Macro m { B = 0; }",
    "V { }",
    "W t1; V { A = x; }",
    "C { ab = xx; } Loop 2 { W t0; V { }\n W t1; V { } }",
    "Pattern p0 { }",
    "W t0; { }",
    "W t0; V { A = 0; ",
    "W t0; Loop 2 { V { ",
    "W t0; V { } }",
    "W t1; Macro k;",
    "W t1; C { D = x; } Loop 2 { V { A = 1; } Call q; }",
    "W t0; Loop 16777215 { Loop 16777215 { V { } } }",
];

/// In place of a pattern's word and name.
const HEADINGS: [&str; 9] = [
    "Pattern",
    "Pattern p0 p1",
    "Pattern Pattern p0",
    "Pattern p0;",
    "Pattern b",
    "Pattern V",
    "Pattern 0",
    "Pattern p0 }",
    "pattern p0",
];

const BETWEEN: [&str; 8] = [" ", "\n", "", " // } Pattern x {\n", "/* { */", "\r\n\t", " /* Pattern */ ", "\n\n"];

/// The text of one seed; sound ones are among them.
pub fn hurt(seed: u64) -> Vec<u8> {
    let mut random = Random::new(seed);
    // Each one too many is a span of its own, so that there are far more spans than patterns in any accepted text.
    let patterns = match random.below(60) {
        0 => random.between(40, 120),
        1..=3 => random.between(15, 20),
        4..=6 => 0,
        _ => random.between(1, 5),
    };
    let (hurts, misnames) = ([0, 15, 30, 60][random.below(4)], [0, 20, 50][random.below(3)]);
    let mut text = HEAD.to_string() + &list(patterns, misnames, &mut random);
    for number in 0..patterns {
        text += &pattern(number, hurts, &mut random);
        text += random.pick(&BETWEEN);
    }
    let mut text = text.into_bytes();
    match random.below(20) {
        0 => damage_bytes(&mut text, &mut random),
        1 | 2 => cut(&mut text, &mut random),
        _ => {}
    }
    text
}

fn list(patterns: usize, misnames: usize, random: &mut Random) -> String {
    let mut list = String::from("PatternBurst b { PatList {");
    for _ in 0..random.below(7) {
        list += random.pick(&BETWEEN);
        list += &match random.below(100) {
            chance if chance >= misnames => format!("p{}", random.below(patterns.max(1))),
            chance if chance % 3 == 0 => "b".into(),
            _ => format!("u{}", random.below(3)),
        };
        list += random.pick(&BETWEEN);
        list += ";";
    }
    list + " } } PatternExec { PatternBurst b; }\n"
}

fn pattern(number: usize, hurts: usize, random: &mut Random) -> String {
    let heading = if random.percent(hurts / 4) {
        random.pick(&HEADINGS).to_string()
    } else {
        let number = if random.percent(5) { 0 } else { number };
        format!("Pattern{}p{number}", random.pick(&[" ", "\n", "/* { */"]))
    };
    let body = if random.percent(hurts) { random.pick(&HURT) } else { random.pick(&SOUND) };
    format!("{heading}{}{{ {body} }}", random.pick(&BETWEEN))
}

/// The rest is lost, from a byte behind the list on if there is one.
fn cut(text: &mut Vec<u8>, random: &mut Random) {
    let list = text.windows(11).position(|bytes| bytes == b"PatternExec").unwrap_or(0);
    let end = random.between(list, text.len());
    text.truncate(end);
}
