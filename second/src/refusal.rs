//! The one way a text or a call is turned down: a number of document 01's table, or of a request after it, and a place.

use crate::lines::{position, Position};

#[derive(Clone, Copy, Debug, PartialEq, Eq)]
pub struct Refusal {
    pub number: u8,
    pub place: u64,
}

pub type Answer<T> = Result<T, Refusal>;

pub const TEXT_TOO_LONG: u8 = 1;
pub const BYTE_NOT_ALLOWED: u8 = 2;
pub const COMMENT_NOT_CLOSED: u8 = 3;
pub const TOKEN_NOT_ALLOWED: u8 = 4;
pub const NOT_A_NAME: u8 = 5;
pub const NAME_UNKNOWN: u8 = 6;
pub const NAME_USED: u8 = 7;
pub const ONE_TOO_MANY: u8 = 8;
pub const BAD_NUMBER: u8 = 9;
pub const BAD_GROUP: u8 = 10;
pub const BAD_WAVEFORM: u8 = 11;
pub const BAD_DATA: u8 = 12;
pub const BAD_ARGUMENT: u8 = 13;
pub const TOO_DEEP: u8 = 14;
pub const PATTERN_NOT_DEFINED: u8 = 15;
pub const RUN_TOO_LARGE: u8 = 16;
pub const CYCLE_WITHOUT_WAVEFORM: u8 = 17;
pub const NO_SUCH_ITEM: u8 = 18;
pub const BUFFER_TOO_SHORT: u8 = 19;
pub const STORE_TOO_SHORT: u8 = 20;
pub const INDEX_NOT_OF_TEXT: u8 = 21;
pub const TOO_MANY_PATTERNS: u8 = 22;
pub const TOO_MANY_CYCLES: u8 = 23;
pub const NOT_IN_RUN: u8 = 24;
pub const EVENTS_OUT_OF_ORDER: u8 = 25;

impl Refusal {
    /// Of its place in the text that it is about; a refusal that is about no byte is at place 0, the first line's first.
    pub fn position(self, text: &[u8]) -> Position {
        position(text, self.place)
    }

    pub fn new(number: u8, place: usize) -> Refusal {
        Refusal { number, place: place as u64 }
    }
}
