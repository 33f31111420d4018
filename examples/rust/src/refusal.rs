//! The refusals: numbers, meanings, and the one number in which a number and a place come.

use std::fmt;

/// Why a call is refused, by document 01's numbers.
#[derive(Clone, Copy, Debug, PartialEq, Eq)]
pub enum Refusal {
    TextTooLong = 1,
    ByteNotAllowed,
    CommentOpen,
    NotHere,
    NotAName,
    NameUnknown,
    NameUsed,
    TooMany,
    BadNumber,
    BadGroup,
    BadWaveform,
    BadData,
    BadArgument,
    TooDeep,
    NotDefined,
    RunTooLarge,
    NotPlayable,
    NoSuch,
    NoRoom,
}

use Refusal::*;

/// Each refusal in the order of its number, and what it means.
const MEANINGS: [(Refusal, &str); 19] = [
    (TextTooLong, "text too long"),
    (ByteNotAllowed, "byte not allowed"),
    (CommentOpen, "comment not closed"),
    (NotHere, "token not allowed here, or text ended"),
    (NotAName, "name needed, and this is none"),
    (NameUnknown, "name unknown"),
    (NameUsed, "name already used"),
    (TooMany, "one too many"),
    (BadNumber, "number malformed or out of bounds"),
    (BadGroup, "group with a signal twice, absent or without any"),
    (BadWaveform, "waveform with a character twice, wrong alternatives or a time that does not rise"),
    (BadData, "data with a wrong character, a signal twice or a wrong length"),
    (BadArgument, "misplaced #, or arguments that do not fit"),
    (TooDeep, "bodies nested too deep"),
    (NotDefined, "listed pattern not defined"),
    (RunTooLarge, "run too large"),
    (NotPlayable, "cycle without a table, or character without a waveform"),
    (NoSuch, "no such table, signal or character"),
    (NoRoom, "buffer too short"),
];

impl fmt::Display for Refusal {
    fn fmt(&self, f: &mut fmt::Formatter) -> fmt::Result {
        f.write_str(MEANINGS[*self as usize - 1].1)
    }
}

/// A refused call: why, and at which byte of the text.
#[derive(Clone, Copy, Debug, PartialEq, Eq)]
pub struct Refused {
    pub refusal: Refusal,
    pub place: usize,
}

impl fmt::Display for Refused {
    fn fmt(&self, f: &mut fmt::Formatter) -> fmt::Result {
        write!(f, "REFUSED {} AT {}: {}", self.refusal as u8, self.place, self.refusal)
    }
}

impl std::error::Error for Refused {}

/// The library's one number: 0, or 32 times the place and the refusal's number, which is 1 to 19.
pub(crate) fn answered(answer: u64) -> Result<(), Refused> {
    match answer {
        0 => Ok(()),
        _ => Err(Refused { refusal: MEANINGS[(answer % 32) as usize - 1].0, place: (answer / 32) as usize }),
    }
}
