//! Waveforms by the list: up to 64 in one call, their events written one group after another.

use crate::bounds::MAX_WAVEFORMS;
use crate::document::Document;
use crate::refusal::*;
use crate::timing::Asked;

/// The numbers of one waveform in the list: table, signal, character.
pub const ASKED: usize = 3;

/// Here alone a refusal follows writing: it is part of the answer.
#[derive(Clone, Copy, Debug, PartialEq, Eq)]
pub enum Waveforms {
    /// All were served, with so many events together.
    All { events: u64 },
    /// The first that is refused; those `served` before it stay written.
    Stopped { served: u64, refusal: Refusal },
}

/// A refusal says that no waveform was looked at, and nothing written.
pub fn waveforms(
    text: &[u8],
    list: &[u64],
    times: &mut [i64],
    letters: &mut [u8],
    counts: &mut [u64],
) -> Answer<Waveforms> {
    Document::read(text)?.waveforms(list, times, letters, counts)
}

/// What is refused before any waveform: 8 for a list above the bound, then 19 for too few counts.
pub fn accept_list(list: &[u64], counts: &[u64]) -> Answer<()> {
    let waveforms = list.chunks(ASKED).len();
    if waveforms > MAX_WAVEFORMS {
        return Err(Refusal::new(ONE_TOO_MANY, 0));
    }
    if waveforms > counts.len() {
        return Err(Refusal::new(BUFFER_TOO_SHORT, 0));
    }
    Ok(())
}

impl Document<'_> {
    /// Single calls made in order, each on the room still left.
    pub fn waveforms(
        &self,
        list: &[u64],
        times: &mut [i64],
        letters: &mut [u8],
        counts: &mut [u64],
    ) -> Answer<Waveforms> {
        accept_list(list, counts)?;
        let mut used = 0;
        for (served, numbers) in list.chunks(ASKED).enumerate() {
            let single = |asked| self.waveform(asked, &mut times[used..], &mut letters[used..]);
            match asked(numbers).and_then(single) {
                Ok(events) => {
                    counts[served] = events;
                    used += events as usize;
                }
                Err(refusal) => return Ok(Waveforms::Stopped { served: served as u64, refusal }),
            }
        }
        Ok(Waveforms::All { events: used as u64 })
    }
}

/// Numbers left over at the list's end, and one above every byte, name no character.
fn asked(numbers: &[u64]) -> Answer<Asked> {
    match *numbers {
        [table, signal, character] if character <= u8::MAX.into() => {
            Ok(Asked { table, signal, character: character as u8 })
        }
        _ => Err(Refusal::new(NO_SUCH_ITEM, 0)),
    }
}
