//! What one seed aims at: how much of everything, which bound to sit on, which slip to make.

use super::random::Random;
use crate::bounds::*;

/// One wrong step that a writer of texts makes, aimed at one refusal.
#[derive(Clone, Copy, Debug, PartialEq, Eq)]
pub enum Slip {
    ReservedName,
    UnknownName,
    UsedName,
    BadNumber,
    GroupRepeat,
    GroupAbsent,
    GroupEmpty,
    CharsRepeated,
    CharsTaken,
    Alternatives,
    TimeNotRising,
    DataByte,
    SignalTwice,
    DataLength,
    HashMisplaced,
    ArgumentUnused,
    ShiftWithoutHash,
    ArgumentMissing,
    ArgumentUnfit,
    TooDeep,
    ListedUndefined,
    LoopsTooLong,
    NoTable,
    NoWaveform,
    Sign,
}

/// Those of any text: a slip in a sign stands only where times are before the cycle's start.
pub const SLIPS: [Slip; 24] = [
    Slip::ReservedName,
    Slip::UnknownName,
    Slip::UsedName,
    Slip::BadNumber,
    Slip::GroupRepeat,
    Slip::GroupAbsent,
    Slip::GroupEmpty,
    Slip::CharsRepeated,
    Slip::CharsTaken,
    Slip::Alternatives,
    Slip::TimeNotRising,
    Slip::DataByte,
    Slip::SignalTwice,
    Slip::DataLength,
    Slip::HashMisplaced,
    Slip::ArgumentUnused,
    Slip::ShiftWithoutHash,
    Slip::ArgumentMissing,
    Slip::ArgumentUnfit,
    Slip::TooDeep,
    Slip::ListedUndefined,
    Slip::LoopsTooLong,
    Slip::NoTable,
    Slip::NoWaveform,
];

pub const EARLIEST: i64 = -(MAX_TIME as i64);

pub struct Plan {
    pub signals: usize,
    pub groups: usize,
    pub tables: usize,
    pub bodies: usize,
    pub patterns: usize,
    pub listed: usize,
    pub brackets: usize,
    pub chars: usize,
    pub events: usize,
    pub name_length: usize,
    pub loops_deep: usize,
    pub uses_deep: usize,
    pub argument: usize,
    pub turns: Option<u64>,
    pub period: Option<u64>,
    pub time: Option<i64>,
    pub size: Option<u64>,
    pub cycles: Option<u64>,
    pub length: Option<usize>,
    /// Event times may be before the cycle's start.
    pub early: bool,
    pub slip: Option<Slip>,
    pub token_damage: usize,
    pub byte_damage: usize,
}

impl Plan {
    /// Something of everything, nothing near a bound.
    fn plain(random: &mut Random) -> Plan {
        Plan {
            signals: random.between(1, 6),
            groups: random.below(5),
            tables: random.between(1, 3),
            bodies: random.below(6),
            patterns: random.between(1, 3),
            listed: random.below(5),
            brackets: 0,
            chars: 0,
            events: 0,
            name_length: 0,
            loops_deep: 0,
            uses_deep: 0,
            argument: 0,
            turns: None,
            period: None,
            time: None,
            size: None,
            cycles: None,
            length: None,
            early: false,
            slip: None,
            token_damage: 0,
            byte_damage: 0,
        }
    }

    pub fn new(random: &mut Random) -> Plan {
        let mut plan = Plan::plain(random);
        match random.below(100) {
            0..=9 => {}
            10..=37 => plan.edge(random),
            38..=75 => plan.slip = Some(SLIPS[random.below(SLIPS.len())]),
            76..=87 => plan.token_damage = random.between(1, 2),
            _ => plan.byte_damage = random.between(1, 2),
        }
        plan
    }

    /// Event times before the cycle's start: at the bound, past it, or with a slip in them.
    pub fn early(random: &mut Random) -> Plan {
        let mut plan = Plan { early: true, ..Plan::plain(random) };
        match random.below(10) {
            0..=3 => {}
            4 => plan.time = Some(EARLIEST - random.below(2) as i64),
            5 => plan.events = MAX_EVENTS + random.below(2),
            6 | 7 => plan.slip = Some(Slip::Sign),
            8 => plan.slip = Some(Slip::TimeNotRising),
            _ => plan.token_damage = random.between(1, 2),
        }
        plan
    }

    /// One bound, met or passed by one.
    fn edge(&mut self, random: &mut Random) {
        let over = random.below(2);
        match random.below(20) {
            // So many signals with three tables would be a text that is too long.
            0 => (self.signals, self.tables) = (MAX_SIGNALS + over, 1),
            1 => self.groups = MAX_GROUPS + over,
            2 => self.tables = MAX_TABLES + over,
            3 => self.bodies = MAX_BODIES + over,
            4 => self.patterns = MAX_PATTERNS + over,
            5 => self.listed = MAX_LISTED + over,
            6 => (self.brackets, self.groups) = (MAX_BRACKETS + over, 3),
            7 => self.chars = MAX_CHARS + over,
            8 => self.events = MAX_EVENTS + over,
            9 => self.name_length = MAX_NAME + over,
            10 => self.loops_deep = MAX_DEPTH + over,
            11 => (self.uses_deep, self.bodies) = (MAX_DEPTH + over, 0),
            12 => (self.argument, self.bodies) = (MAX_ARGUMENT as usize + over, 2),
            13 => self.turns = Some(MAX_TURNS + over as u64),
            14 => self.period = Some([1, 0, MAX_PERIOD, MAX_PERIOD + 1][random.below(4)]),
            15 => self.time = Some((MAX_TIME as usize + over) as i64),
            16 => self.size = Some(MAX_SIZE + over as u64),
            17 => self.cycles = Some(MAX_CYCLES + over as u64),
            _ => self.length = Some(MAX_TEXT + over),
        }
        if self.size.is_some() || self.cycles.is_some() {
            (self.patterns, self.listed) = (1, 1);
        }
    }
}
