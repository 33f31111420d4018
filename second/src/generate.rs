//! Seeded texts to compare readers on: valid, at the bounds, with one slip, or damaged.

mod blocks;
mod contrived;
mod crossing;
mod damage;
mod flat;
mod hexed;
mod hurt;
mod large;
mod marked;
mod nested;
mod plan;
pub mod random;
mod runs;
mod statements;
mod tokens;

pub use contrived::{contrived, CONTRIVED_KINDS};
pub use crossing::crossing;
pub use flat::flat;
pub use hexed::hexed;
pub use hurt::hurt;
pub use large::{large, sized, LARGE_KINDS, SIZED_KINDS};
pub use marked::{marked, report};
pub use nested::nested;
use plan::{Plan, Slip};
use random::Random;
pub use runs::{run, RUN_KINDS};
use tokens::Tokens;

/// The text of one seed; the same seed gives the same text.
pub fn text(seed: u64) -> Vec<u8> {
    let mut random = Random::new(seed);
    let plan = Plan::new(&mut random);
    planned(random, plan)
}

/// The text of one seed with event times before the cycle's start.
pub fn early(seed: u64) -> Vec<u8> {
    let mut random = Random::new(seed);
    let plan = Plan::early(&mut random);
    planned(random, plan)
}

fn planned(random: Random, plan: Plan) -> Vec<u8> {
    let mut writer = Writer::new(random, plan);
    writer.blocks();
    let Writer { mut random, plan, mut out, .. } = writer;
    for _ in 0..plan.token_damage {
        damage::damage_tokens(&mut out, &mut random);
    }
    let mut text = tokens::render(&out, &mut random);
    for _ in 0..plan.byte_damage {
        damage::damage_bytes(&mut text, &mut random);
    }
    if let Some(length) = plan.length {
        lengthen(&mut text, length, &mut random);
    }
    text
}

/// Blanks or one long comment up to the wanted length.
fn lengthen(text: &mut Vec<u8>, length: usize, random: &mut Random) {
    if random.percent(50) && text.len() + 4 < length {
        text.extend_from_slice(b"\n//");
    }
    let fill = if random.percent(50) { b' ' } else { b'\t' };
    while text.len() < length {
        text.push(fill);
    }
}

struct Group {
    name: String,
    pins: Vec<usize>,
}

/// What a use must know of a body.
struct Body {
    name: String,
    is_macro: bool,
    depth: usize,
    size: u64,
    cycles: u64,
    /// For each signal its `#` outside the Shift, and whether it is in the Shift.
    uses: Vec<usize>,
    shifted: Vec<bool>,
}

struct Writer {
    random: Random,
    plan: Plan,
    out: Tokens,
    signals: Vec<String>,
    groups: Vec<Group>,
    tables: Vec<String>,
    bodies: Vec<Body>,
    /// Characters that every signal has in every table, and others that may lack somewhere.
    base: &'static [u8],
    extra: &'static [u8],
    slipped: bool,
}

const STEMS: [&str; 28] = [
    "A",
    "B",
    "a",
    "b",
    "AA",
    "A1",
    "A_",
    "_A",
    "A2",
    "Ab",
    "aB",
    "V1",
    "In_",
    "x",
    "y",
    "CLK",
    "clk",
    "Header",
    "Stop",
    "SI",
    "t",
    "t0",
    "p",
    "p0",
    "m",
    "r4",
    "abcdefghijklmnopqrstuvwxyz01234",
    "abcdefghijklmnopqrstuvwxyz0123",
];
const NO_NAMES: [&str; 8] = ["V", "Loop", "In", "1A", "A.1", ".", "PatList", "abcdefghijklmnopqrstuvwxyz0123456"];
const ALPHABETS: [(&[u8], &[u8]); 4] = [(b"01", b"xLHZ"), (b"LH", b"01X"), (b"V1", b"WCr"), (b"aA", b"bB9")];

impl Writer {
    fn new(mut random: Random, plan: Plan) -> Writer {
        let (base, extra) = ALPHABETS[random.below(ALPHABETS.len())];
        Writer {
            random,
            plan,
            out: Tokens::default(),
            signals: Vec::new(),
            groups: Vec::new(),
            tables: Vec::new(),
            bodies: Vec::new(),
            base,
            extra,
            slipped: false,
        }
    }

    /// True at one place of a text that is to have this slip.
    fn slips(&mut self, slip: Slip) -> bool {
        let now = self.plan.slip == Some(slip) && !self.slipped && self.random.percent(40);
        self.slipped |= now;
        now
    }

    /// A name that is not yet among `used`, often near to one that is.
    fn declare(&mut self, used: &[String]) -> String {
        if self.slips(Slip::ReservedName) {
            return self.random.pick(&NO_NAMES).to_string();
        }
        if !used.is_empty() && self.slips(Slip::UsedName) {
            return used[self.random.below(used.len())].clone();
        }
        let mut name = self.random.pick(&STEMS).to_string();
        if self.plan.name_length > 0 {
            let length = std::mem::take(&mut self.plan.name_length);
            return format!("{name:_<length$}");
        }
        let mut number = 0;
        while used.contains(&name) || name.len() > 32 {
            number += 1;
            name = format!("{}{number}", self.random.pick(&STEMS));
        }
        name
    }

    /// A declared name as it is used.
    fn refer(&mut self, name: &str) -> String {
        if self.slips(Slip::UnknownName) {
            return format!("{name}_");
        }
        if self.slips(Slip::ReservedName) {
            return self.random.pick(&NO_NAMES).to_string();
        }
        name.to_string()
    }

    fn put_name(&mut self, name: &str) {
        let name = self.refer(name);
        self.out.word(name);
    }

    /// A number's digits, now and then with zeros before them or out of its bounds.
    fn digits(&mut self, value: u64) -> String {
        if self.slips(Slip::BadNumber) {
            let wrong = ["0x1", "1.0", "99999999999999999999999", "x", "1_0"];
            return self.random.pick(&wrong).to_string();
        }
        let zeros = if self.random.percent(5) { "000" } else { "" };
        format!("{zeros}{value}")
    }

    fn pin_names(&self) -> Vec<String> {
        let groups = self.groups.iter().map(|group| group.name.clone());
        self.signals.iter().cloned().chain(groups).collect()
    }
}
