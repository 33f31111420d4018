//! The intake: raw texts in chunks. Each call is made of both readers, and its answer, the whole state and the whole store are compared.

use crate::lent::{Lent, Rooms, Slices};
use crate::raw::{lutemeteor_intake, lutemeteor_intake_close};
use crate::tally::{say, Tally};
use second::bounds::{MAX_RAW, MAX_TEXT};
use second::generate::random::Random;
use second::generate::text;
use second::intake::Within;
use second::refusal::BUFFER_TOO_SHORT;
use second::{Intake, Progress};

/// Numbers of a state.
pub const STATE: usize = 6;

/// An intake in the form of the C interface; without a chunk it is closed.
pub trait Intakes {
    fn call(&mut self, state: &mut [u64], chunk: Option<&[u8]>, store: &mut [u8]) -> u64;
}

/// The proved one: all of it is in the state that is lent.
pub struct ProvedIntake;

impl Intakes for ProvedIntake {
    // SAFETY: all slices live through the call and are lent to it alone, and the function is proved for any bytes, numbers
    // and lengths.
    fn call(&mut self, state: &mut [u64], chunk: Option<&[u8]>, store: &mut [u8]) -> u64 {
        let (numbers, numbers_room) = (state.as_mut_ptr(), state.len());
        let (bytes, bytes_room) = (store.as_mut_ptr(), store.len());
        unsafe {
            match chunk {
                Some(chunk) => lutemeteor_intake(numbers, numbers_room, chunk.as_ptr(), chunk.len(), bytes, bytes_room),
                None => lutemeteor_intake_close(numbers, numbers_room, bytes, bytes_room),
            }
        }
    }
}

/// The second one, which keeps its own state and tells it in the numbers that are lent.
#[derive(Default)]
pub struct SecondIntake(Intake);

impl Intakes for SecondIntake {
    fn call(&mut self, state: &mut [u64], chunk: Option<&[u8]>, store: &mut [u8]) -> u64 {
        if state.len() < STATE {
            return BUFFER_TOO_SHORT.into();
        }
        let progress = match chunk {
            Some(chunk) => self.0.take(chunk, store),
            None => self.0.close(store),
        };
        state[..STATE].copy_from_slice(&self.numbers(progress));
        told(progress)
    }
}

impl SecondIntake {
    fn numbers(&self, progress: Progress) -> [u64; STATE] {
        let Intake { taken, stored, within, mark, .. } = &self.0;
        let (mode, opening) = match *within {
            Within::Tokens => (0, 0),
            Within::Slash => (1, taken - 1),
            Within::Line => (2, 0),
            Within::Comment { open, star } => (3 + u64::from(star), open),
        };
        match progress {
            Progress::Open => [0, *taken as u64, *stored as u64, mark.unwrap_or(0).into(), mode, opening as u64],
            Progress::Refused(refusal) => [1, refusal.number.into(), refusal.place, 0, 0, 0],
            Progress::Closed(length) => [2, length, 0, 0, 0, 0],
        }
    }
}

fn told(progress: Progress) -> u64 {
    match progress {
        Progress::Refused(refusal) => 32 * refusal.place + u64::from(refusal.number),
        Progress::Open | Progress::Closed(_) => 0,
    }
}

/// One call: its chunk, or the close, and how much of the state and of the store is lent.
struct Ask {
    chunk: Option<Vec<u8>>,
    state: usize,
    store: usize,
}

/// The calls of one intake, and the room of its state and of its store.
pub struct Plan {
    asks: Vec<Ask>,
    state: usize,
    store: usize,
}

impl Plan {
    /// A raw text cut at these lengths, the last one again and again; then the close, and calls behind it.
    fn new(raw: &[u8], cuts: &[usize], store: usize) -> Plan {
        let mut plan = Plan { asks: Vec::new(), state: STATE, store };
        let mut cuts = cuts.iter().copied();
        let mut length = raw.len().max(1);
        let mut rest = raw;
        while !rest.is_empty() {
            length = cuts.next().unwrap_or_else(|| length.max(1)).min(rest.len());
            let (chunk, more) = rest.split_at(length);
            plan.ask(Some(chunk));
            rest = more;
        }
        [None, Some(&b"a"[..]), None].iter().for_each(|&chunk| plan.ask(chunk));
        plan
    }

    fn ask(&mut self, chunk: Option<&[u8]>) {
        let chunk = chunk.map(|chunk| chunk.to_vec());
        self.asks.push(Ask { chunk, state: self.state, store: self.store });
    }

    /// Random cuts and rooms: now and then too short a state, a shorter store, an empty chunk, or a close before the end.
    fn draw(raw: &[u8], store: usize, random: &mut Random) -> Plan {
        let longest = [1, 3, 10, 100, 1_000][random.below(5)].max(raw.len() / 50);
        let cuts: Vec<usize> = (0..40).map(|_| random.between(0, longest)).collect();
        let mut plan = Plan::new(raw, &cuts, store);
        plan.state = random.between(STATE, STATE + 3);
        for ask in &mut plan.asks {
            ask.state = if random.percent(5) { random.below(STATE) } else { plan.state };
            ask.store = if random.percent(3) { random.below(store + 1) } else { store };
        }
        if random.percent(10) {
            let at = random.below(plan.asks.len());
            plan.asks[at].chunk = None;
        }
        plan
    }

    fn fresh(&self) -> Lent {
        let mut lent = Lent::new(Rooms { numbers: self.state, bytes: self.store, ..Rooms::default() });
        lent.slices().numbers[..STATE].fill(0);
        lent
    }

    /// All its calls, made of the second reader and of the one that is tried.
    pub fn follow(&self, named: &str, tried: &mut dyn Intakes, tally: &mut Tally) {
        let mut second = SecondIntake::default();
        let (mut ours, mut theirs) = (self.fresh(), self.fresh());
        for (number, ask) in self.asks.iter().enumerate() {
            let answers = (ask.make(tried, &mut ours), ask.make(&mut second, &mut theirs));
            tally.count(answers.1);
            let differ = match answers {
                (proved, second) if proved != second => Some(format!("proved {}, second {}", say(proved), say(second))),
                (answer, _) => ours.difference(&theirs).map(|what| format!("both {}; {what}", say(answer))),
            };
            if let Some(what) = differ {
                let chunk = ask.chunk.as_ref().map(|chunk| chunk[..chunk.len().min(60)].escape_ascii().to_string());
                tally.report(&format!("{named}: call {number}, {chunk:?}: {what}"));
                return;
            }
        }
    }
}

impl Ask {
    fn make(&self, reader: &mut dyn Intakes, lent: &mut Lent) -> u64 {
        let Slices { numbers, bytes, .. } = lent.slices();
        reader.call(&mut numbers[..self.state], self.chunk.as_deref(), &mut bytes[..self.store])
    }
}

/// Bytes that the intake tells apart, each as often as it stands here.
const KINDS: &[u8] = b"////***\n\n\r\t  aab;\"";
const NOT_ALLOWED: [u8; 4] = [0, 127, 128, 255];

fn short(random: &mut Random) -> Vec<u8> {
    let byte = |random: &mut Random| match random.below(100) {
        0 => NOT_ALLOWED[random.below(NOT_ALLOWED.len())],
        _ => KINDS[random.below(KINDS.len())],
    };
    (0..random.between(0, 60)).map(|_| byte(random)).collect()
}

/// Comments and blanks, also such as look closed and are not, put into a text where blanks are.
fn commented(text: &[u8], random: &mut Random) -> Vec<u8> {
    let comments: [&[u8]; 10] =
        [b"// a // */\n", b"//\n", b"/* a */", b"/**/", b"/*/ */", b"/***/", b"/* \n **/", b"\t \r", b" \n\n", b"/ /"];
    let mut raw = Vec::new();
    for &byte in text {
        raw.push(byte);
        if byte.is_ascii_whitespace() && random.percent(20) {
            raw.extend_from_slice(comments[random.below(comments.len())]);
        }
    }
    raw
}

/// Four short raw texts in short stores, and one of the generator's in a store that has room, or about as much as is due.
pub fn seeded(seed: u64) -> Vec<Plan> {
    let mut random = Random::new(seed ^ 0x696e_7461_6b65);
    let mut plans: Vec<Plan> = Vec::new();
    for _ in 0..4 {
        let raw = short(&mut random);
        let store = if random.percent(30) { random.below(12) } else { random.between(0, 70) };
        plans.push(Plan::draw(&raw, store, &mut random));
    }
    let raw = commented(&text(seed), &mut random);
    let store = match random.below(4) {
        0 => MAX_TEXT + random.below(100),
        1 => random.below(raw.len() + 1),
        _ => raw.len() + random.below(100),
    };
    plans.push(Plan::draw(&raw, store, &mut random));
    plans
}

/// Around the bounds: raw texts of up to one byte too many, full stores, and places past every text.
pub fn fixed() -> Vec<Plan> {
    let of = |byte: u8, length: usize, rest: &[u8]| [&vec![byte; length], rest].concat();
    let cuts: &[usize] = &[100_000, 0, 1];
    let far = MAX_TEXT + 1;
    vec![
        Plan::new(b"", &[], 0),
        Plan::new(b"", &[], far),
        Plan::new(&of(b' ', MAX_RAW - 1, b"a"), &[MAX_RAW / 2], far),
        Plan::new(&of(b' ', MAX_RAW, b"a"), &[MAX_RAW - 1, 1], far),
        Plan::new(&of(b'/', MAX_RAW + 1, b""), &[MAX_RAW + 1], far),
        Plan::new(&of(b'a', MAX_TEXT, b""), &[MAX_TEXT], far),
        Plan::new(&of(b'a', MAX_TEXT, b" "), &[MAX_TEXT], far + 100),
        Plan::new(&of(b'a', MAX_TEXT, b"a"), &[MAX_TEXT, 1], far + 100),
        Plan::new(&of(b'a', MAX_TEXT - 1, b"/"), &[MAX_TEXT], MAX_TEXT),
        Plan::new(&of(b'\n', MAX_TEXT, b"\0"), &[MAX_TEXT, 1], 9),
        Plan::new(&of(b'\n', far, b"\0"), &[far, 1], 9),
        Plan::new(&of(b' ', far, b"/* a\n"), &[far], 9),
        Plan::new(&of(b' ', 100_002, b"a /"), cuts, 2),
    ]
}
