//! Waveforms that reach across the cycle's edge, here and there into the next one's: made for refusal 25.

use super::random::Random;

/// The text of one seed.
pub fn crossing(seed: u64) -> Vec<u8> {
    let mut crossing = Crossing { random: Random::new(seed), odd: 0 };
    crossing.odd = [0, 0, 10, 30][crossing.random.below(4)];
    let text = match crossing.random.below(10) {
        0 => crossing.third(),
        1..=4 => crossing.chained(),
        _ => crossing.mixed(),
    };
    let slip = crossing.random.below(100);
    match SIGNS.get(slip) {
        Some(sign) => text.replacen("'0ps'", sign, 1),
        None => text,
    }
    .into_bytes()
}

/// In place of one time 0: at the bounds, the same time, and forms that are refused.
const SIGNS: [&str; 12] = [
    "'-0ps'",
    "'-0000ns'",
    "' - /**/ 0ps'",
    "'-1000000ns'",
    "'-1000000000ps'",
    "'-1000000001ps'",
    "'-1000001ns'",
    "'--1ps'",
    "'+1ps'",
    "'-'",
    "'-1'",
    "'1ps-'",
];

struct Crossing {
    random: Random,
    /// How many of a hundred values reach across an edge.
    odd: usize,
}

impl Crossing {
    /// Any statements in Loops, macros and procedures.
    fn mixed(&mut self) -> String {
        let m = self.body(1, &[]);
        let n = self.body(1, &["Macro m { A = 01y; B = 1; } ", "Macro m { A = x0; B = x; } "]);
        let q = self.body(0, &["Macro n; "]);
        let uses = [
            "Macro n; ",
            "Call q; ",
            "Call e; ",
            "Macro m { A = 10; B = 0; } ",
            "Macro m { A = \\r2 x0 01; B = y; } ",
            "Macro m { A = \\r3 0y; B = 1; } ",
            "Macro m { A = 0; B = 0; } ",
        ];
        let p = self.body(3, &uses);
        let o = self.body(2, &uses);
        let macros = format!("m {{ {m}Shift {{ V {{ A = #; }} }} V {{ ab = ##; }} }} n {{ {n}}}");
        let list = self.random.pick(&["p; ", "p; o; ", "o; p; o; ", "o; o; "]);
        let patterns = format!("Pattern p {{ W t0; {p}}} Pattern o {{ W t1; {o}}}");
        self.text(&macros, &format!("q {{ {q}}} e {{ C {{ all = xyx; }} }}"), list, &patterns)
    }

    /// Loops one in the other, the values that reach too far in a turn before, or in the one before that.
    fn chained(&mut self) -> String {
        let mut chain = format!("V {{ {} }} ", self.data());
        for _ in 0..self.random.between(2, 5) {
            let (before, behind) = (self.between(), self.between());
            chain = format!("Loop {} {{ {before}{chain}{behind}}} ", self.random.between(1, 4));
        }
        let used = self.random.percent(40);
        let pattern =
            if used { "Loop 3 { Macro m; V { } } Call q; V { A = 0; } Call q; ".into() } else { chain.clone() };
        let bodies = (format!("m {{ {chain}}}"), format!("q {{ {chain}}}"));
        self.text(&bodies.0, &bodies.1, "p; ", &format!("Pattern p {{ W t0; C {{ all = 010; }} {pattern}}}"))
    }

    /// No value in the first turn, and in the third one that may not follow itself: no earlier pair shows it.
    fn third(&mut self) -> String {
        let vector = self.random.pick(&["V { } ", "Loop 1 { V { } } ", "Loop 2 { } V { } "]);
        let late = self.random.pick(&["A = x;", "ab = xx;", "all = xxx;", "D = x; ab = xy;"]);
        let turns = self.random.pick(&["2", "3", "4", "16777215"]);
        let chain = format!("Loop {turns} {{ {vector}C {{ {late} }} }} ");
        let bodies = (format!("m {{ {chain}}}"), format!("q {{ {chain}}}"));
        let pattern =
            self.random.pick(&[chain.as_str(), "Macro m; ", "Call q; ", "Loop 2 { Call q; } ", "Loop 1 { Macro m; } "]);
        self.text(&bodies.0, &bodies.1, "p; ", &format!("Pattern p {{ W t0; {pattern}}}"))
    }

    fn between(&mut self) -> String {
        match self.random.below(5) {
            0 => format!("W t{}; ", self.random.below(3)),
            1 | 2 => format!("C {{ {} }} ", self.data()),
            3 => format!("V {{ {} }} ", self.data()),
            _ => String::new(),
        }
    }

    fn body(&mut self, level: usize, uses: &[&str]) -> String {
        let mut text = String::new();
        for _ in 0..self.random.between(1, 4) {
            text += &match self.random.below(12) {
                0 => format!("W t{}; ", self.random.below(3)),
                1 | 2 => format!("C {{ {} }} ", self.data()),
                3..=5 if level > 0 => {
                    format!("Loop {} {{ {}}} ", self.random.between(1, 5), self.body(level - 1, uses))
                }
                6 | 7 if !uses.is_empty() => self.random.pick(uses).to_string(),
                _ => format!("V {{ {} }} ", self.data()),
            };
        }
        text
    }

    fn data(&mut self) -> String {
        let odd = self.odd;
        let mut character = || match self.random.below(200) {
            chance if chance < odd => "x",
            chance if chance < 2 * odd => "y",
            chance => ["0", "1"][chance % 2],
        };
        let (one, two, three) = (character(), character(), character());
        match self.random.below(5) {
            0 => format!("A = {one};"),
            1 => format!("D = {one};"),
            2 => format!("ab = {one}{two};"),
            3 => format!("all = {one}{two}{three};"),
            _ => String::new(),
        }
    }

    fn text(&mut self, macros: &str, procedures: &str, list: &str, patterns: &str) -> String {
        let tables: String = (0..3).map(|number| self.table(number)).collect();
        format!(
            "STIL 1.0; Signals {{ A In; B In; D In; }} SignalGroups {{ ab = 'A+B'; all = 'D+ab'; }} Timing {{ {tables}}}
MacroDefs {{ {macros} }} Procedures {{ {procedures} }}
PatternBurst b {{ PatList {{ {list}}} }} PatternExec {{ PatternBurst b; }} {patterns}"
        )
    }

    /// 0 and 1 stay within the cycle; x is late, y is early, both by little more or less than the others bear.
    fn table(&mut self, number: usize) -> String {
        let period = [1, 2, 1_000, 20_000][self.random.below(4)];
        let mut pins = String::new();
        for pin in ["A", "B", "D"] {
            let compare = if self.random.percent(50) { format!("'{}ps' L/H; ", period / 2) } else { String::new() };
            let late = self.events(period, [period, period - 1, period + 1, 2 * period, 0]);
            let early = self.events(period, [-1, 0, -period, 1 - period, -1_000_000_000]);
            let lacking = self.random.percent(2);
            let early = if lacking { String::new() } else { format!("y {{ {early}}} ") };
            pins += &format!("{pin} {{ 01 {{ '0ps' D/U; {compare}}} x {{ {late}}} {early}}} ");
        }
        format!("WaveformTable t{number} {{ Period '{period}ps'; Waveforms {{ {pins}}} }} ")
    }

    /// One to three events of either category, one of them at one of these times.
    fn events(&mut self, period: i64, odd: [i64; 5]) -> String {
        let mut times = vec![odd[self.random.below(odd.len())]];
        for _ in 0..self.random.below(3) {
            times.push([0, period / 2, period - 1, period, -1, 3 * period][self.random.below(6)]);
        }
        times.sort_unstable();
        times.dedup();
        let letters = [["D", "U", "Z"], ["L", "x", "T"]][self.random.below(2)];
        let mut events: String =
            times.iter().map(|time| format!("'{time}ps' {}; ", self.random.pick(&letters))).collect();
        if self.random.percent(30) {
            events += &format!("'{}ps' {}; ", period - 1, if letters[0] == "D" { "H" } else { "P" });
        }
        events
    }
}
