//! The bounds of document 01 and of the requests made after it, each in one place.

pub const MAX_TEXT: usize = 65_536;
pub const MAX_NAME: usize = 32;
pub const MAX_SIGNALS: usize = 256;
pub const MAX_GROUPS: usize = 128;
pub const MAX_TABLES: usize = 8;
pub const MAX_CHARS: usize = 16;
pub const MAX_EVENTS: usize = 16;
pub const MAX_BODIES: usize = 32;
pub const MAX_PATTERNS: usize = 16;
pub const MAX_LISTED: usize = 16;
pub const MAX_BRACKETS: usize = 8;
pub const MAX_DEPTH: usize = 8;
pub const MAX_ARGUMENT: u64 = 4_096;
pub const MAX_REPEAT: u64 = 4_096;
pub const MAX_SCAN: u64 = 4_096;
pub const MAX_TURNS: u64 = 16_777_215;
pub const MAX_PERIOD: u64 = 1_000_000_000;
/// An event's time, behind its cycle's start or, negative, before it.
pub const MAX_TIME: u64 = 1_000_000_000;
pub const MAX_SIZE: u64 = 65_536;
pub const MAX_CYCLES: u64 = 1_099_511_627_776;
pub const MAX_LISTING: u64 = 1_000_000;
pub const MAX_FOLDED: u64 = 1_000_000;
pub const MAX_WAVEFORMS: usize = 64;
pub const MAX_RAW: usize = 1_048_576;

/// No index is longer: a line for each listed pattern, with a name, two numbers of cycles and a place, and one for each table.
pub const MAX_INDEX: usize = "PATTERNS 16\n".len()
    + MAX_LISTED * (MAX_NAME + " 1099511627776 1099511627776 65535\n".len())
    + "TABLES 8\n".len()
    + MAX_TABLES * (MAX_NAME + 1);

/// No text has more spans to overwrite: blocks don't overlap, and each but the last has a word and two braces.
pub const MAX_SPANS: usize = MAX_LISTED + MAX_TEXT / "Pattern{}".len() + 1;
