//! All blocks but the statements in them.

use super::plan::{Slip, EARLIEST};
use super::{Group, Writer};

/// Event times with a sign that is none, too many, or at a number that is refused.
const WRONG_SIGNS: [&str; 16] = [
    "- - 5ns",
    "+ 5ns",
    "+ 0ps",
    "- + 5ns",
    "+ - 5ns",
    "5ns -",
    "- 5ns -",
    "5ns - 3ns",
    "-",
    "- 5",
    "- 5 ns",
    "- ns",
    "- 1.5ns",
    "- 1000000001ps",
    "- 1000001ns",
    "- 99999999999999999999999ns",
];

impl Writer {
    pub(super) fn blocks(&mut self) {
        self.out.put("STIL 1.0 ;");
        self.signal_block();
        if self.plan.groups > 0 || self.random.percent(20) {
            self.group_block();
        }
        self.timing_block();
        self.body_blocks();
        self.run_blocks();
    }

    fn signal_block(&mut self) {
        self.out.put("Signals {");
        for _ in 0..self.plan.signals {
            let name = self.declare(&self.signals.clone());
            self.out.word(name.clone());
            let direction = self.random.pick(&["In", "Out", "InOut"]);
            self.out.put(direction);
            self.out.put(";");
            self.signals.push(name);
        }
        self.out.put("}");
    }

    fn group_block(&mut self) {
        self.out.put("SignalGroups {");
        for _ in 0..self.plan.groups {
            let name = self.declare(&self.pin_names());
            self.out.word(name.clone());
            self.out.put("= '");
            let all = (0..self.signals.len()).collect();
            let mut pins = self.expression(all, 0);
            if self.slips(Slip::GroupEmpty) {
                let signal = self.signals[0].clone();
                self.out.put(&format!("- ( {signal} - {signal} )"));
                let rest: Vec<String> = pins.iter().map(|&pin| format!("- {}", self.signals[pin])).collect();
                self.out.put(&rest.join(" "));
            } else if pins.is_empty() {
                self.out.put("+");
                pins = self.term((0..self.signals.len()).collect(), 9);
            }
            self.out.put("' ;");
            self.plan.brackets = 0;
            self.groups.push(Group { name, pins });
        }
        self.out.put("}");
    }

    /// An expression over some of the allowed signals; gives its meaning.
    fn expression(&mut self, allowed: Vec<usize>, nest: usize) -> Vec<usize> {
        let mut meaning: Vec<usize> = Vec::new();
        for number in 0..self.random.between(1, 4) {
            let mut minus = number > 0 && !meaning.is_empty() && self.random.percent(30);
            let others = || allowed.iter().copied().filter(|pin| !meaning.contains(pin)).collect::<Vec<usize>>();
            let mut pool = if minus { meaning.clone() } else { others() };
            if number > 0 && !meaning.is_empty() && self.slips(Slip::GroupRepeat) {
                (minus, pool) = (false, meaning.clone());
            } else if number > 0 && !others().is_empty() && self.slips(Slip::GroupAbsent) {
                (minus, pool) = (true, others());
            }
            if pool.is_empty() {
                break;
            }
            if number > 0 {
                self.out.put(if minus { "-" } else { "+" });
            }
            let term = self.term(pool, nest);
            if minus {
                meaning.retain(|pin| !term.contains(pin));
            } else {
                meaning.extend(term);
            }
        }
        meaning
    }

    fn term(&mut self, pool: Vec<usize>, nest: usize) -> Vec<usize> {
        if nest < self.plan.brackets || (nest < 3 && self.random.percent(15)) {
            self.out.put("(");
            let inner = self.expression(pool, nest + 1);
            self.out.put(")");
            return inner;
        }
        let within = |group: &&Group| group.pins.iter().all(|pin| pool.contains(pin)) && !group.pins.is_empty();
        let fitting: Vec<(String, Vec<usize>)> =
            self.groups.iter().filter(within).map(|group| (group.name.clone(), group.pins.clone())).collect();
        if !fitting.is_empty() && self.random.percent(40) {
            let (name, pins) = &fitting[self.random.below(fitting.len())];
            self.put_name(name);
            return pins.clone();
        }
        let pin = pool[self.random.below(pool.len())];
        let name = self.signals[pin].clone();
        self.put_name(&name);
        vec![pin]
    }

    fn timing_block(&mut self) {
        self.out.put("Timing {");
        for _ in 0..self.plan.tables {
            let name = self.declare(&self.tables.clone());
            self.out.put("WaveformTable");
            self.out.word(name.clone());
            self.out.put("{ Period");
            let period = self.plan.period.take().unwrap_or(1000 * self.random.between(1, 400) as u64);
            // A period has no sign.
            let sign = if self.plan.early && self.random.percent(2) { "-" } else { "" };
            self.time(sign, period);
            self.out.put("; Waveforms {");
            self.waveforms();
            self.out.put("} }");
            self.tables.push(name);
        }
        self.out.put("}");
    }

    fn time(&mut self, sign: &str, ps: u64) {
        let whole = ps % 1000 == 0 && self.random.percent(80);
        let digits = self.digits(if whole { ps / 1000 } else { ps });
        self.out.time(sign, format!("{digits}{}", if whole { "ns" } else { "ps" }));
    }

    fn event_time(&mut self, ps: i64) {
        if self.slips(Slip::Sign) {
            let wrong = self.random.pick(&WRONG_SIGNS);
            return self.out.put(&format!("' {wrong} '"));
        }
        // Zero has a sign or none.
        let before = ps < 0 || (ps == 0 && self.plan.early && self.random.percent(40));
        self.time(if before { "-" } else { "" }, ps.unsigned_abs());
    }

    /// Every signal gets its characters, alone or with a group.
    fn waveforms(&mut self) {
        let mut left: Vec<usize> = (0..self.signals.len()).collect();
        while !left.is_empty() {
            let within = |group: &&Group| group.pins.iter().all(|pin| left.contains(pin)) && !group.pins.is_empty();
            let groups: Vec<(String, Vec<usize>)> =
                self.groups.iter().filter(within).map(|group| (group.name.clone(), group.pins.clone())).collect();
            let (name, pins) = if !groups.is_empty() && self.random.percent(50) {
                groups[self.random.below(groups.len())].clone()
            } else {
                (self.signals[left[0]].clone(), vec![left[0]])
            };
            left.retain(|pin| !pins.contains(pin));
            self.put_name(&name);
            self.out.put("{");
            self.entries();
            self.out.put("}");
            if self.random.percent(10) {
                self.put_name(&name);
                self.out.put("{ }");
            }
        }
    }

    fn entries(&mut self) {
        let mut chars: Vec<u8> = self.base.to_vec();
        chars.extend(self.extra.iter().filter(|byte| *byte % 2 == 0));
        if self.plan.chars > 0 {
            let more = b"ghijkmnopqstuvwz";
            chars.extend(more.iter().take(std::mem::take(&mut self.plan.chars) - chars.len()));
        }
        if self.plan.slip == Some(Slip::NoWaveform) && self.random.percent(30) {
            chars.remove(0);
        }
        self.random.shuffle(&mut chars);
        if self.slips(Slip::CharsRepeated) {
            chars.push(chars[0]);
        }
        if self.slips(Slip::CharsTaken) {
            self.entry(&chars[..1]);
        }
        if chars.len() < 15 && self.random.percent(30) {
            let (first, second) = chars.split_at(1);
            self.entry(first);
            self.entry(second);
        } else {
            self.entry(&chars);
        }
    }

    fn entry(&mut self, chars: &[u8]) {
        self.out.word(String::from_utf8_lossy(chars));
        self.out.put("{");
        let count = match std::mem::take(&mut self.plan.events) {
            0 => self.random.between(1, 3),
            count => count,
        };
        let mut last = [None, None];
        for _ in 0..count {
            self.event(chars.len(), &mut last);
        }
        self.out.put("}");
    }

    /// Drive and compare events each rise; only events of one category may share a time with the other.
    fn event(&mut self, chars: usize, last: &mut [Option<i64>; 2]) {
        let category = self.random.below(2);
        let letters = [["D", "U", "Z", "P"], ["L", "H", "X", "l"]][category];
        let step = 1 + 500 * self.random.below(40) as i64;
        let rising = last[category].map_or_else(|| self.first_time(step), |last| last + step);
        let time = match last[category] {
            Some(last) if self.slips(Slip::TimeNotRising) => self.no_later(last, step),
            _ => self.plan.time.take().unwrap_or(rising),
        };
        last[category] = Some(time);
        self.event_time(time);
        let mut count = if self.random.percent(60) { 1 } else { chars };
        if self.slips(Slip::Alternatives) {
            count = chars + 1;
        }
        for number in 0..count {
            let letter = self.random.pick(&letters);
            self.out.put(if number > 0 { "/" } else { "" });
            self.out.put(letter);
        }
        self.out.put(";");
    }

    fn first_time(&mut self, step: i64) -> i64 {
        if !self.plan.early {
            return step - 1;
        }
        [step - 1, 0, -1, -step, -step, -1000 * step, EARLIEST, EARLIEST + step][self.random.below(8)]
    }

    /// The same time, or one that is earlier though its amount is as large or larger.
    fn no_later(&mut self, time: i64, step: i64) -> i64 {
        if !self.plan.early {
            return time;
        }
        [time, time - step, -time.abs()][self.random.below(3)]
    }

    fn run_blocks(&mut self) {
        let mut names: Vec<String> = Vec::new();
        for _ in 0..=self.plan.patterns {
            let name = self.declare(&names);
            names.push(name);
        }
        let burst = names[0].clone();
        self.out.put("PatternBurst");
        self.out.word(burst.clone());
        self.out.put("{ PatList {");
        for _ in 0..self.plan.listed {
            let mut name = names[1 + self.random.below(names.len() - 1)].clone();
            if self.slips(Slip::ListedUndefined) {
                name = if self.random.percent(50) { burst.clone() } else { format!("{name}_") };
            }
            self.out.word(name);
            self.out.put(";");
        }
        self.out.put("} } PatternExec { PatternBurst");
        self.put_name(&burst);
        self.out.put("; }");
        for name in &names[1..] {
            self.out.put("Pattern");
            self.out.word(name.clone());
            self.pattern();
        }
    }
}
