//! Bodies, patterns and their statements.

use super::plan::Slip;
use super::{Body, Writer};
use crate::bounds::{MAX_DEPTH, MAX_REPEAT};
use crate::statements::Extent;

/// A use of this many bodies of this size stays well within the bound on the run.
const LARGEST_USE: u64 = 400;
/// The longest word that is looked for to be repeated; what it says is spelled out all the same up to this length, here and there.
const LONGEST_WORD: usize = 17;
const LONGEST_SPELLED: usize = 40;
/// One use of the padding macro costs 64.
const PADDING: usize = 63;

/// The body that is being written.
struct Inside {
    takes_arguments: bool,
    has_shift: bool,
    depth: usize,
    uses: Vec<usize>,
    shifted: Vec<bool>,
}

fn one(cycles: u64) -> Extent {
    Extent { size: 1, cycles }
}

impl Writer {
    fn inside(&self, takes_arguments: bool) -> Inside {
        let signals = self.signals.len();
        Inside { takes_arguments, has_shift: false, depth: 0, uses: vec![0; signals], shifted: vec![false; signals] }
    }

    pub(super) fn body_blocks(&mut self) {
        let macros = if self.random.percent(20) { self.plan.bodies } else { self.random.below(self.plan.bodies + 1) };
        let special = self.plan.size.is_some() || self.plan.uses_deep > 0 || self.plan.argument > 0;
        let mut order = [(true, macros), (false, self.plan.bodies - macros)];
        if self.random.percent(40) {
            order.reverse();
        }
        for (is_macro, count) in order {
            if count == 0 && !(is_macro && special) && self.random.percent(70) {
                continue;
            }
            self.out.put(if is_macro { "MacroDefs {" } else { "Procedures {" });
            if is_macro && special {
                self.special_macros();
            }
            for _ in 0..count {
                self.body(is_macro);
            }
            self.out.put("}");
        }
    }

    fn body_names(&self, is_macro: bool) -> Vec<String> {
        self.bodies.iter().filter(|body| body.is_macro == is_macro).map(|body| body.name.clone()).collect()
    }

    /// Macros that one of the bounds needs: padding, a chain of uses, a Shift.
    fn special_macros(&mut self) {
        if self.plan.size.is_some() {
            self.out.put("pad_ {");
            self.out.put(&"C { } ".repeat(PADDING));
            self.out.put("}");
        }
        if self.plan.uses_deep > 0 {
            self.out.put("c0 { C { } }");
            for depth in 1..=self.plan.uses_deep {
                self.out.put(&format!("c{depth} {{ Macro c{} ; }}", depth - 1));
            }
        }
        if self.plan.argument > 0 {
            let signal = self.signals[0].clone();
            self.out.put(&format!("arg_ {{ V {{ {signal} = # ; }} Shift {{ V {{ {signal} = # ; }} }} }}"));
        }
    }

    fn body(&mut self, is_macro: bool) {
        let name = self.declare(&self.body_names(is_macro));
        self.out.word(name.clone());
        let mut inside = self.inside(true);
        self.out.put("{");
        let count = self.random.below(5);
        let sum = self.statements(&mut inside, 0, count);
        self.out.put("}");
        let Inside { depth, uses, shifted, .. } = inside;
        self.bodies.push(Body { name, is_macro, depth, size: sum.size, cycles: sum.cycles, uses, shifted });
    }

    pub(super) fn pattern(&mut self) {
        let mut inside = self.inside(false);
        self.out.put("{");
        let mut sum = Extent::default();
        if !self.slips(Slip::NoTable) {
            sum.add(self.table());
        }
        let count = self.random.between(1, 6);
        sum.add(self.statements(&mut inside, 0, count));
        self.bounds(&mut sum);
        self.out.put("}");
    }

    /// What sits on a bound of depth, size or cycles stands at a pattern's end.
    fn bounds(&mut self, sum: &mut Extent) {
        let deep = std::mem::take(&mut self.plan.loops_deep);
        self.out.put(&"Loop 2 { ".repeat(deep));
        self.out.put(&"} ".repeat(deep));
        if self.plan.uses_deep > 0 {
            self.out.put(&format!("Macro c{} ;", self.plan.uses_deep.min(7)));
        }
        if self.plan.argument > 0 {
            let signal = self.signals[0].clone();
            self.out.put(&format!("Macro arg_ {{ {signal} ="));
            let word = self.random.pick(&[&b"0"[..], b"01", b"001", b"0110100110010110", b"01101001100101101"]);
            let chars: Vec<u8> = word.iter().map(|bit| self.base[usize::from(bit & 1)]).collect();
            self.data(&chars.iter().copied().cycle().take(self.plan.argument).collect::<Vec<u8>>());
            self.out.put("; }");
        }
        if let Some(size) = self.plan.size {
            let left = size.saturating_sub(1 + sum.size) as usize;
            self.out.put(&"Macro pad_ ; ".repeat(left / (PADDING + 1)));
            self.out.put(&"C { } ".repeat(left % (PADDING + 1)));
        }
        if let Some(cycles) = self.plan.cycles {
            let left = (cycles - 65_536 * 16_777_215).saturating_sub(sum.cycles).max(1);
            self.out.put(&format!("Loop 65536 {{ Loop 16777215 {{ V {{ }} }} }} Loop {left} {{ V {{ }} }}"));
        }
    }

    fn table(&mut self) -> Extent {
        let name = self.tables[self.random.below(self.tables.len())].clone();
        self.out.put("W");
        self.put_name(&name);
        self.out.put(";");
        one(0)
    }

    fn statements(&mut self, inside: &mut Inside, level: usize, count: usize) -> Extent {
        let mut sum = Extent::default();
        for _ in 0..count {
            sum.add(self.statement(inside, level));
        }
        sum
    }

    fn statement(&mut self, inside: &mut Inside, level: usize) -> Extent {
        match self.random.below(100) {
            0..=39 => self.vector(inside, level, false),
            40..=49 => self.condition(inside),
            50..=56 => self.table(),
            57..=72 if level < 4 => self.repeat(inside, level),
            73..=84 if inside.takes_arguments && level == 0 && !inside.has_shift => self.shift(inside),
            _ => self.body_use(inside, level).unwrap_or_else(|| self.vector(inside, level, false)),
        }
    }

    fn repeat(&mut self, inside: &mut Inside, level: usize) -> Extent {
        if self.slips(Slip::TooDeep) {
            self.out.put(&"Loop 1 { ".repeat(9));
            self.out.put(&"} ".repeat(9));
        }
        if self.slips(Slip::LoopsTooLong) {
            self.out.put("Loop 16777215 { Loop 9999999 { V { } } }");
        }
        inside.depth = inside.depth.max(level + 1);
        let small = if self.random.percent(5) { self.random.between(5, 3000) } else { self.random.between(1, 4) };
        let turns = self.plan.turns.take().unwrap_or(small as u64);
        self.out.put("Loop");
        let digits = self.digits(turns);
        self.out.word(digits);
        self.out.put("{");
        let count = self.random.below(4);
        let turn = self.statements(inside, level + 1, count);
        self.out.put("}");
        Extent { size: turn.size + 1, cycles: turn.cycles.saturating_mul(turns) }
    }

    fn shift(&mut self, inside: &mut Inside) -> Extent {
        inside.has_shift = true;
        inside.depth = inside.depth.max(1);
        self.out.put("Shift {");
        self.vector(inside, 0, true);
        self.out.put("}");
        Extent { size: 2, cycles: 0 }
    }

    /// A use of a body whose depth and size leave room for it.
    fn body_use(&mut self, inside: &mut Inside, level: usize) -> Option<Extent> {
        let fits =
            |body: &&Body| level + 1 + body.depth <= MAX_DEPTH && body.size < LARGEST_USE && body.cycles < 10_000;
        let numbers: Vec<usize> = (0..self.bodies.len()).filter(|&at| fits(&&self.bodies[at])).collect();
        if numbers.is_empty() {
            return None;
        }
        let number = numbers[self.random.below(numbers.len())];
        let (name, is_macro) = (self.bodies[number].name.clone(), self.bodies[number].is_macro);
        inside.depth = inside.depth.max(level + 1 + self.bodies[number].depth);
        self.out.put(if is_macro { "Macro" } else { "Call" });
        self.put_name(&name);
        let shifts = self.arguments(number);
        let body = &self.bodies[number];
        Some(Extent { size: body.size + 1, cycles: body.cycles.saturating_add(shifts as u64) })
    }

    fn arguments(&mut self, number: usize) -> usize {
        let shifts = if self.random.percent(3) { self.random.between(100, 3000) } else { self.random.below(4) };
        let body = &self.bodies[number];
        let (uses, shifted) = (body.uses.clone(), body.shifted.clone());
        let mut pins: Vec<usize> = (0..uses.len()).filter(|&pin| uses[pin] > 0 || shifted[pin]).collect();
        self.random.shuffle(&mut pins);
        if !pins.is_empty() && self.slips(Slip::ArgumentMissing) {
            pins.pop();
        }
        if self.slips(Slip::ArgumentUnused) {
            pins.push(self.random.below(uses.len()));
        }
        if pins.is_empty() && self.random.percent(70) {
            self.out.put(";");
            return 0;
        }
        self.out.put("{");
        for &pin in &pins {
            let mut length = uses[pin] + if shifted[pin] { shifts } else { 0 };
            length += usize::from(self.slips(Slip::ArgumentUnfit));
            let name = self.argument_name(pin);
            self.put_name(&name);
            self.out.put("=");
            let chars = self.argument_data(length);
            self.data(&chars);
            self.out.put(";");
        }
        self.out.put("}");
        if shifted.contains(&true) {
            shifts
        } else {
            0
        }
    }

    /// The signal's own name or that of a group of it alone.
    fn argument_name(&mut self, pin: usize) -> String {
        let alone: Vec<&String> =
            self.groups.iter().filter(|group| group.pins == [pin]).map(|group| &group.name).collect();
        if !alone.is_empty() && self.random.percent(50) {
            return alone[self.random.below(alone.len())].clone();
        }
        self.signals[pin].clone()
    }

    fn character(&mut self) -> u8 {
        let extra = self.plan.slip == Some(Slip::NoWaveform) && self.random.percent(8);
        let among = if extra || self.random.below(400) == 0 { self.extra } else { self.base };
        among[self.random.below(among.len())]
    }

    fn vector(&mut self, inside: &mut Inside, level: usize, in_shift: bool) -> Extent {
        self.out.put("V {");
        let hashes = match (inside.takes_arguments && level == 0, in_shift) {
            (true, true) => 60,
            (true, false) => 15,
            _ => 0,
        };
        self.assignments(inside, hashes, in_shift);
        self.out.put("}");
        one(1)
    }

    fn condition(&mut self, inside: &mut Inside) -> Extent {
        self.out.put("C {");
        self.assignments(inside, 0, false);
        self.out.put("}");
        one(0)
    }

    /// Some disjoint names with their data; in a Shift at least one `#`.
    fn assignments(&mut self, inside: &mut Inside, hashes: usize, in_shift: bool) {
        let names = self.pin_names();
        let mut taken = vec![false; self.signals.len()];
        let mut needs_hash = in_shift && !self.slips(Slip::ShiftWithoutHash);
        let hashes = if in_shift && !needs_hash { 0 } else { hashes };
        for _ in 0..self.random.between(usize::from(in_shift), 3) {
            let number = self.random.below(names.len());
            let pins = match number.checked_sub(self.signals.len()) {
                Some(group) => self.groups[group].pins.clone(),
                None => vec![number],
            };
            if pins.iter().any(|&pin| taken[pin]) && !self.slips(Slip::SignalTwice) {
                continue;
            }
            pins.iter().for_each(|&pin| taken[pin] = true);
            self.put_name(&names[number]);
            self.out.put("=");
            let mut chars = Vec::new();
            for &pin in &pins {
                let hash = needs_hash || (hashes > 0 && self.random.percent(hashes));
                needs_hash = false;
                chars.push(if hash { b'#' } else { self.character() });
                inside.shifted[pin] |= hash && in_shift;
                inside.uses[pin] += usize::from(hash && !in_shift);
            }
            self.slip_data(&mut chars);
            self.data(&chars);
            self.out.put(";");
        }
    }

    fn slip_data(&mut self, chars: &mut Vec<u8>) {
        if self.slips(Slip::DataByte) {
            chars[0] = b'_';
        }
        if self.slips(Slip::HashMisplaced) {
            chars.push(b'#');
            chars.swap_remove(0);
        }
        if self.slips(Slip::DataLength) {
            chars.push(self.base[0]);
        }
    }

    /// DATA: what stands there several times by `\r`, if it is short now and then only; all else cut into words.
    fn data(&mut self, chars: &[u8]) {
        let mut word = String::new();
        let mut at = 0;
        while at < chars.len() {
            let rest = &chars[at..];
            let (length, times) = longest_repeat(rest);
            let repeats = length * times > LONGEST_SPELLED || self.random.percent(if times > 1 { 30 } else { 2 });
            if rest[0] == b'#' || repeats || self.random.percent(8) {
                self.out.put(&std::mem::take(&mut word));
            }
            if rest[0] == b'#' {
                self.out.put("#");
                at += 1;
            } else if repeats {
                at += self.repeated(rest, length, times);
            } else {
                word.push(rest[0] as char);
                at += 1;
            }
        }
        self.out.put(&word);
    }

    /// A word by `\r`, also once, one more than is allowed, or the same word twice in a longer one; gives the characters it stands for.
    fn repeated(&mut self, rest: &[u8], length: usize, times: usize) -> usize {
        let times = times.min(MAX_REPEAT as usize + 1);
        let twice = times % 2 == 0 && self.random.percent(20);
        let (length, times) = if twice { (2 * length, times / 2) } else { (length, times) };
        let digits = self.digits(times as u64);
        self.out.put("\\");
        self.out.word(format!("r{digits}"));
        self.out.word(String::from_utf8_lossy(&rest[..length]));
        length * times
    }

    /// An argument's characters: any, or one word again and again and the beginning of it.
    fn argument_data(&mut self, length: usize) -> Vec<u8> {
        let word = if self.random.percent(40) { self.random.between(1, LONGEST_WORD) } else { length };
        let word: Vec<u8> = (0..word.min(length)).map(|_| self.character()).collect();
        word.iter().copied().cycle().take(length).collect()
    }
}

/// The word that begins here and stands there again so often that most is said by it, and how often; one of no `#`.
fn longest_repeat(rest: &[u8]) -> (usize, usize) {
    let plain = rest.iter().take_while(|&&byte| byte != b'#').count();
    let times = |length: usize| {
        let (word, rest) = rest[..plain].split_at(length);
        1 + rest.chunks(length).take_while(|&other| other == word).count()
    };
    let repeats = (1..=LONGEST_WORD.min(plain)).map(|length| (length, times(length)));
    // Of several the shortest word, which stands there most often.
    repeats
        .rev()
        .filter(|&(length, times)| length == 1 || times > 1)
        .max_by_key(|&(length, times)| length * times)
        .unwrap_or((1, 1))
}
