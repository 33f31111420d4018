//! Texts whose data is hex, on groups with a base of two, three or four characters: at the edges of a digit, and with slips.

use super::damage::damage_tokens;
use super::random::Random;
use super::tokens::{render, Tokens};
use crate::requests::HEX;

/// A group with a base: its name, its signals and its characters.
struct Group {
    name: &'static str,
    signals: usize,
    chars: &'static str,
}

const GROUPS: [Group; 5] = [
    Group { name: "w", signals: 5, chars: "01" },
    Group { name: "v", signals: 3, chars: "LHT" },
    Group { name: "u", signals: 2, chars: "TL0H" },
    Group { name: "q", signals: 9, chars: "H0" },
    Group { name: "fr", signals: 1, chars: "1L0" },
];

/// The text of one seed; where hex data is not read its bases and marks are left out, and most of it is refused.
pub fn hexed(seed: u64) -> Vec<u8> {
    let mut random = Random::new(seed);
    let slips = [0, 0, 0, 2, 6][random.below(5)];
    let lengths = [1, 2, 3, 4, 5, 7, 8, 61, 62, 4_096];
    let length = if random.percent(2) { 4_097 } else { lengths[random.below(lengths.len())] };
    let mut hexed = Hexed { random, slips, length, out: Tokens::default() };
    hexed.blocks();
    let Hexed { mut random, mut out, .. } = hexed;
    if random.percent(8) {
        damage_tokens(&mut out, &mut random);
    }
    render(&out, &mut random)
}

struct Hexed {
    random: Random,
    slips: usize,
    /// Of the scan chains.
    length: usize,
    out: Tokens,
}

impl Hexed {
    fn slips(&mut self) -> bool {
        self.random.percent(self.slips)
    }

    fn blocks(&mut self) {
        self.out.put("STIL 1.0 ; Signals {");
        ["A", "B", "D", "E", "F", "G", "H", "I", "J"].iter().for_each(|name| self.out.put(&format!("{name} In ;")));
        self.out.put("} SignalGroups { all = ' A + B + D + E + F + G + H + I + J ' ; Base = ' A ' ; Hex = ' A + B ' ;");
        self.group("w", "A + B + D + E + F", "", "01");
        self.group("v", "F + E + D", "", "LHT");
        self.group("u", "w - v", "", "TL0H");
        self.group("q", "all", "", "H0");
        let (n, zeros) = (self.length, if self.random.percent(10) { "00" } else { "" });
        self.group("si", "A", &format!("ScanIn {zeros}{n} ;"), "01");
        self.group("so", "B", &format!("ScanOut {n} ;"), "LHX");
        self.group("fr", "E", "", "1L0");
        self.out.put("} Timing { WaveformTable t { Period ' 1ns ' ; Waveforms { all { 01LHTX { ' 0ns ' D ; } } } } }");
        self.out.put("MacroDefs { m { Shift { V { A = # ; B = # ; } } }");
        self.out.put("k { V { si = \\ e # ; } Shift { V { A = # ; } } }");
        let data = if self.slips() { "#" } else { "\\ e 01" };
        self.out.put(&format!("l {{ V {{ u = {data} ; }} Shift {{ V {{ fr = \\ e # ; }} }} V {{ E = # ; }} }} }}"));
        self.out.put("PatternBurst b { PatList { p ; } } PatternExec { PatternBurst b ; } Pattern p { W t ;");
        for _ in 0..self.random.between(1, 5) {
            self.statement();
        }
        self.out.put("}");
        if !HEX {
            self.out.0.retain(|token| token != "\\" && token != "e");
        }
    }

    fn group(&mut self, name: &str, signals: &str, scan: &str, chars: &str) {
        self.out.put(&format!("{name} = ' {signals} '"));
        if !HEX {
            return self.out.put(";");
        }
        let wrong = ["00", "0", "01LHT", "01LHTX0", "0_", "LHTXL", "", "0 1", "; LH"];
        let chars = if self.slips() { self.random.pick(&wrong) } else { chars };
        let wrong = ["ScanIn 0 ;", "ScanIn 4097 ;", "ScanOut x ;", "ScanIn 2 ; ScanOut 2 ;", "Scan 2 ;", "ScanIn 2"];
        let scan = if self.slips() { self.random.pick(&wrong) } else { scan };
        self.out.put(&format!("{{ {scan} Base Hex {chars} ; }}"));
        if self.slips() {
            self.out.put(self.random.pick(&[";", "}", "{ }"]));
        }
    }

    fn statement(&mut self) {
        let length = self.length;
        match self.random.below(8) {
            0..=4 => {
                let group = &GROUPS[self.random.below(GROUPS.len())];
                self.out.put(self.random.pick(&["V", "V", "C"]));
                self.out.put(&format!("{{ {} =", group.name));
                self.data(group.signals, group.chars);
                self.out.put("; }");
            }
            5 => {
                self.out.put("Macro m { si =");
                self.data(length, "01");
                let other = self.random.pick(&["so", "so", "B"]);
                self.out.put(&format!("; {other} ="));
                if other == "so" {
                    self.data(length, "LHX");
                } else {
                    self.out.put(&format!("\\ r{length} H"));
                }
                self.out.put("; }");
            }
            6 => {
                self.out.put("Macro k { si =");
                self.data(length, "01");
                self.out.put("; }");
            }
            _ => {
                let length = 2 * self.random.between(1, 20);
                self.out.put("Macro l { fr =");
                self.data(length, "1L0");
                self.out.put("; }");
            }
        }
        if self.random.percent(40) {
            self.out.put("V { }");
        }
    }

    /// So many characters, of which the last ones follow `\e`, here and there.
    fn data(&mut self, due: usize, chars: &str) {
        let plain = match self.random.below(8) {
            0 => due,
            1 | 2 => self.random.below(due.min(12) + 1),
            _ => 0,
        };
        let worth = if chars.len() == 2 { 4 } else { 2 };
        let mut digits = String::new();
        // What is left over of the first digit is zero, but for a slip.
        let mut surplus = (worth - (due - plain) % worth) % worth;
        if self.random.percent(self.slips) {
            surplus = (surplus + self.random.below(2 * worth)) % (2 * worth);
        }
        let same = self.random.percent(30);
        let one = self.random.below(chars.len());
        let mut value = 0;
        for at in 0..surplus + due - plain {
            let zero = at < surplus && !self.random.percent(self.slips);
            let next = if same { one } else { self.random.below(chars.len()) };
            value = (value << (4 / worth)) + if zero { 0 } else { next };
            if (at + 1) % worth == 0 {
                let digit = char::from_digit(value as u32, 16).unwrap_or('0');
                digits.push(if self.random.percent(50) { digit.to_ascii_uppercase() } else { digit });
                value = 0;
            }
        }
        self.words(&digits);
        if plain > 0 || self.random.percent(3) {
            self.out.put("\\ e");
            let letters: Vec<char> = (0..plain).map(|_| ['0', '1', 'L', 'H', 'T'][self.random.below(5)]).collect();
            self.words(&letters.iter().collect::<String>());
        }
        if self.random.percent(self.slips) {
            self.out.put(
                self.random.pick(&[
                    "0", "G", "f", "_", "#", "\\ e", "\\ e 0", "\\ r2 e", "\\ r3 #", "3 . 1", "\\ eL", "\\ h 0",
                ]),
            );
        }
    }

    /// Parted by blanks at any place, and equal ones in a row as a repeat.
    fn words(&mut self, digits: &str) {
        let mut left = digits;
        while let Some(first) = left.chars().next() {
            let run = left.chars().take_while(|&digit| digit == first).count();
            if run > 1 && self.random.percent(60) {
                self.out.put(&format!("\\ r{run} {first}"));
                left = &left[run..];
                continue;
            }
            let length = self.random.between(1, left.len());
            self.out.put(&left[..length]);
            left = &left[length..];
        }
    }
}
