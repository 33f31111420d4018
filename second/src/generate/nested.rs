//! Few signals, many Loops, tables that lack a character here and there: made for refusal 17.

use super::random::Random;

/// The text of one seed; nothing but 17 can be wrong with it.
pub fn nested(seed: u64) -> Vec<u8> {
    let mut nested = Nested(Random::new(seed));
    let text = if nested.0.percent(50) { nested.mixed() } else { nested.chained() };
    text.into_bytes()
}

struct Nested(Random);

impl Nested {
    /// Any statements in Loops, macros and procedures.
    fn mixed(&mut self) -> String {
        let tables: String = (0..3).map(|number| self.table(number, &["01xy", "01xy", "01x", "10y", "01"])).collect();
        // Their depths are at most 1, 3, 4 and 8.
        let m = self.body(1, &[]);
        let n = self.body(1, &["Macro m { A = 01y; B = 1; }"]);
        let q = self.body(0, &["Macro n;"]);
        let uses = [
            "Macro n;",
            "Call q;",
            "Macro m { A = 10; B = 0; }",
            "Macro m { A = \\r2 x0 01; B = y; }",
            "Macro m { A = \\r3 0y; B = 1; }",
        ];
        let p = self.body(3, &uses);
        let start = self.0.pick(&["W t0;", "W t1;", "W t2;", "W t0;", "W t1;", "W t2;", ""]);
        // What a Shift leaves shows in a cycle of its own, also by another table.
        let left = self.0.pick(&["", "", "V { }", "W t1; V { }", "W t2; V { B = 0; }"]);
        let macros = format!("m {{ {m} Shift {{ V {{ A = #; }} }} {left} V {{ ab = ##; }} }} n {{ {n} }}");
        text(&tables, &macros, &format!("q {{ {q} }}"), &format!("{start} {p}"))
    }

    /// Loops one in the other, the inner ones in a body, made to fail in a second turn within a second turn.
    fn chained(&mut self) -> String {
        let tables = [self.table(0, &["01xy"]), self.table(1, &["01", "01x"]), self.table(2, &["01", "y10"])].concat();
        let mut loops: Vec<Loop> = (0..self.0.between(4, 7)).map(|_| self.a_loop()).collect();
        self.plant(&mut loops);
        let (outside, inside) = loops.split_at(loops.len() - 3);
        let used = self.0.pick(&["Macro m; ", "Macro m; ", "Macro m; ", "Call q; "]);
        let (body, p) = (chain(inside, "V { } "), chain(outside, used));
        text(&tables, &format!("m {{ {body} }}"), &format!("q {{ {body} }}"), &format!("W t0; {p}"))
    }

    /// Now and then something that saves a cycle, or that makes one fail.
    fn a_loop(&mut self) -> Loop {
        let mut made = Loop { turns: self.0.between(1, 3), before: "", behind: "" };
        if self.0.percent(20) {
            made.before = self.0.pick(&["W t0; ", "C { A = 0; } ", "C { ab = 01; } ", "C { D = 0; } "]);
        }
        if self.0.percent(20) {
            made.behind = self.0.pick(&["W t1; ", "W t2; ", "C { A = x; } ", "C { B = y; } ", "C { D = x; } "]);
        }
        made
    }

    /// The value is from the turn before of one Loop, the table from that of another.
    fn plant(&mut self, loops: &mut [Loop]) {
        let outer = self.0.below(loops.len() - 1);
        let inner = self.0.between(outer + 1, loops.len() - 1);
        let (value, table) = ("C { all = xyx; } ", self.0.pick(&["W t1; ", "W t2; "]));
        let by_table = self.0.percent(50);
        loops[outer].behind = if by_table { value } else { table };
        loops[inner - 1].before = if by_table { "W t0; " } else { "C { all = 010; } " };
        loops[inner].behind = if by_table { table } else { value };
        loops[inner].turns = 2;
        loops[outer].turns = 2;
    }

    /// A table that has some of these characters for each signal.
    fn table(&mut self, number: usize, chars: &[&str]) -> String {
        let pin = |pin: &&str| format!("{pin} {{ {} {{ '0ns' D; }} }} ", self.0.pick(chars));
        let pins: String = ["A", "B", "D"].iter().map(pin).collect();
        format!("WaveformTable t{number} {{ Period '1ns'; Waveforms {{ {pins}}} }} ")
    }

    fn body(&mut self, level: usize, uses: &[&str]) -> String {
        let mut text = String::new();
        for _ in 0..self.0.between(1, 4) {
            text += &match self.0.below(12) {
                0 => format!("W t{}; ", self.0.below(3)),
                1 | 2 => format!("C {{ {} }} ", self.data()),
                3..=5 if level > 0 => format!("Loop {} {{ {} }} ", self.0.between(1, 3), self.body(level - 1, uses)),
                6 | 7 if !uses.is_empty() => format!("{} ", self.0.pick(uses)),
                _ => format!("V {{ {} }} ", self.data()),
            };
        }
        text
    }

    fn data(&mut self) -> String {
        let mut character = || ["0", "1", "0", "1", "0", "1", "0", "1", "x", "y"][self.0.below(10)];
        let (one, two, three) = (character(), character(), character());
        match self.0.below(5) {
            0 => format!("A = {one};"),
            1 => format!("D = {one};"),
            2 => format!("ab = {one}{two};"),
            3 => format!("all = {one}{two}{three};"),
            _ => String::new(),
        }
    }
}

/// A Loop of a chain: its turns, and what stands in it before and behind the inner one.
struct Loop {
    turns: usize,
    before: &'static str,
    behind: &'static str,
}

fn chain(loops: &[Loop], innermost: &str) -> String {
    loops.iter().rev().fold(innermost.into(), |inner, Loop { turns, before, behind }| {
        format!("Loop {turns} {{ {before}{inner}{behind}}} ")
    })
}

fn text(tables: &str, macros: &str, procedures: &str, pattern: &str) -> String {
    format!(
        "STIL 1.0; Signals {{ A In; B In; D In; }} SignalGroups {{ ab = 'A+B'; all = 'D+ab'; }} Timing {{ {tables} }}
        MacroDefs {{ {macros} }} Procedures {{ {procedures} }}
        PatternBurst b {{ PatList {{ p; p; }} }} PatternExec {{ PatternBurst b; }} Pattern p {{ {pattern} }}"
    )
}
