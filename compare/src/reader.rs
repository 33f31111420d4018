//! What a reader answers of one text, in the form of the C interface; and the second reader in that form.

use crate::lent::Slices;
use second::refusal::{Answer, BUFFER_TOO_SHORT, NO_SUCH_ITEM};
use second::report::Refused;
use second::save::saved;
use second::services::Summary;
use second::timing::Asked;
use second::tokens::next_token;
use second::waveforms::accept_list;
use second::{accept_mark, position, save, Declared, Document, Position, Refusal, Waveforms};

/// Each service gives 0 for an answer, else 32 times the place plus the number of the refusal; then every lent slice is as it was,
/// but for what a list of waveforms had served before. A refusal of a report has 2 to the power of 32 more, and its place there.
pub trait Reader {
    /// Five numbers: signals, tables, listed patterns, cycles, size.
    fn check(&self, numbers: &mut [u64]) -> u64;
    /// Two numbers: place and length.
    fn name(&self, table: u8, number: u64, numbers: &mut [u64]) -> u64;
    /// One number: the count of events. Their times are signed, in two's complement.
    fn waveform(&self, asked: Asked, times: &mut [u64], letters: &mut [u8], count: &mut [u64]) -> u64;
    /// One number: all events, or how many waveforms were served before the first that is refused.
    fn waveforms(&self, list: &[u64], lent: Slices) -> u64;
    /// Two numbers: rows and visits.
    fn window(&self, first: u64, wanted: u64, mark: u8, rows: &mut [u8], numbers: &mut [u64]) -> u64;
    /// Three numbers: 1, place and length; or three times 0 where there is no further token.
    fn token(&self, at: u64, numbers: &mut [u64]) -> u64;
    /// Two numbers: line and column.
    fn line(&self, place: u64, numbers: &mut [u64]) -> u64;
    /// One number: the index's length.
    fn index(&self, index: &mut [u8], numbers: &mut [u64]) -> u64;
    fn belongs(&self, index: &[u8]) -> u64;
    /// Two numbers: 1 and the listed pattern's number; or two times 0 where none holds the cycle.
    fn holds(&self, index: &[u8], cycle: u64, numbers: &mut [u64]) -> u64;
    /// Of the text that is lent, which is saved where it stands. One number: how many spans are overwritten, of which the list has two each.
    fn save(&self, text: &mut [u8], spans: &mut [u64], numbers: &mut [u64]) -> u64;
    /// One number: the folded text's length.
    fn fold(&self, folded: &mut [u8], numbers: &mut [u64]) -> u64;
    /// Of each offset the run's cycle goes to the times, the signal's number to the counts, the letter to the bytes, 0 where there is none. One number:
    /// how many there are.
    fn report(&self, report: &[u8], lent: Slices) -> u64;
}

/// The second reader, which reads its text once.
pub struct Second<'t> {
    pub text: &'t [u8],
    document: Answer<Document<'t>>,
}

impl<'t> Second<'t> {
    pub fn new(text: &'t [u8]) -> Second<'t> {
        Second { text, document: Document::read(text) }
    }

    pub fn document(&self) -> Answer<&Document<'t>> {
        self.document.as_ref().map_err(|&refusal| refusal)
    }
}

pub fn told(answer: Answer<()>) -> u64 {
    answer.map_or_else(|refusal| 32 * refusal.place + u64::from(refusal.number), |()| 0)
}

/// What a refusal of a report has more than one of the text.
pub const OF_REPORT: u64 = 1 << 32;

pub fn told_of_report(answer: Result<(), Refused>) -> u64 {
    let of_report = matches!(answer, Err(Refused { of_report: true, .. }));
    told(answer.map_err(|refused| refused.refusal)) + if of_report { OF_REPORT } else { 0 }
}

fn too_short() -> Refusal {
    Refusal::new(BUFFER_TOO_SHORT, 0)
}

/// The token service, which needs no more of a text than its bytes.
pub fn token_at(text: &[u8], at: u64, numbers: &mut [u64]) -> u64 {
    let next = next_token(text, at).map(|next| next.map(|next| (next.place.into(), next.length.into())));
    told(next.and_then(|next| write_next(numbers, next)))
}

/// Place and length, if there is a token.
pub fn write_next(room: &mut [u64], next: Option<(u64, u64)>) -> Answer<()> {
    write_front(room, next.map_or([0; 3], |(place, length)| [1, place, length]))
}

/// The line service, which needs no more either, and refuses no text.
pub fn line_of(text: &[u8], place: u64, numbers: &mut [u64]) -> u64 {
    let Position { line, column } = position(text, place);
    told(write_front(numbers, [line, column]))
}

/// The saving, which takes another text than the reader's own.
pub fn save_in(text: &mut [u8], spans: &mut [u64], numbers: &mut [u64]) -> u64 {
    // Without room for the count the answer is a refusal as well: the text's own, which comes first, or 19.
    let count = match numbers.first_mut() {
        Some(count) => save(text, spans).map(|spans| *count = spans),
        None => saved(text).and(Err(too_short())),
    };
    told(count)
}

/// Times are signed, and lent in as many bits without a sign, as all numbers are.
fn signed<T>(times: &mut [u64], write: impl FnOnce(&mut [i64]) -> T) -> T {
    let mut signed: Vec<i64> = times.iter().map(|&time| time as i64).collect();
    let answer = write(&mut signed);
    times.iter_mut().zip(signed).for_each(|(time, signed)| *time = signed as u64);
    answer
}

/// Writes the numbers to the front; the rest stays.
fn write_front<const N: usize>(room: &mut [u64], numbers: [u64; N]) -> Answer<()> {
    room.get_mut(..N).ok_or_else(too_short)?.copy_from_slice(&numbers);
    Ok(())
}

impl Reader for Second<'_> {
    fn check(&self, numbers: &mut [u64]) -> u64 {
        told(self.document().and_then(|document| {
            let Summary { signals, tables, patterns, cycles, size } = document.summary();
            write_front(numbers, [signals, tables, patterns, cycles, size])
        }))
    }

    fn name(&self, table: u8, number: u64, numbers: &mut [u64]) -> u64 {
        let declared = if table == 0 { Declared::Signal } else { Declared::Table };
        told(self.document().and_then(|document| {
            let number = usize::try_from(number).unwrap_or(usize::MAX);
            let name = document.name(declared, number).ok_or_else(|| Refusal::new(NO_SUCH_ITEM, 0))?;
            write_front(numbers, [name.place.into(), name.length.into()])
        }))
    }

    fn waveform(&self, asked: Asked, times: &mut [u64], letters: &mut [u8], count: &mut [u64]) -> u64 {
        told(self.document().and_then(|document| match count.first_mut() {
            Some(count) => {
                signed(times, |times| document.waveform(asked, times, letters)).map(|events| *count = events)
            }
            // Every waveform has an event, so without any room the answer is 18 or 19 as well.
            None => document.waveform(asked, &mut [], &mut []).map(|_| ()),
        }))
    }

    fn waveforms(&self, list: &[u64], lent: Slices) -> u64 {
        told(self.document().and_then(|document| {
            accept_list(list, lent.counts)?;
            let number = lent.numbers.first_mut().ok_or_else(too_short)?;
            let Slices { times, bytes, counts, .. } = lent;
            let (told, answer) = match signed(times, |times| document.waveforms(list, times, bytes, counts))? {
                Waveforms::All { events } => (events, Ok(())),
                Waveforms::Stopped { served, refusal } => (served, Err(refusal)),
            };
            *number = told;
            answer
        }))
    }

    fn window(&self, first: u64, wanted: u64, mark: u8, rows: &mut [u8], numbers: &mut [u64]) -> u64 {
        told(self.document().and_then(|document| {
            accept_mark(mark)?;
            let numbers = numbers.get_mut(..2).ok_or_else(too_short)?;
            let window = document.window(first, wanted, mark, rows)?;
            numbers.copy_from_slice(&[window.rows, window.visits]);
            Ok(())
        }))
    }

    fn token(&self, at: u64, numbers: &mut [u64]) -> u64 {
        token_at(self.text, at, numbers)
    }

    fn line(&self, place: u64, numbers: &mut [u64]) -> u64 {
        line_of(self.text, place, numbers)
    }

    fn index(&self, index: &mut [u8], numbers: &mut [u64]) -> u64 {
        told(self.document().and_then(|document| {
            let length = numbers.first_mut().ok_or_else(too_short)?;
            *length = document.index(index)?;
            Ok(())
        }))
    }

    fn belongs(&self, index: &[u8]) -> u64 {
        told(self.document().and_then(|document| document.belongs(index)))
    }

    fn holds(&self, index: &[u8], cycle: u64, numbers: &mut [u64]) -> u64 {
        told(self.document().and_then(|document| {
            let pattern = document.holds(index, cycle)?;
            write_front(numbers, pattern.map_or([0; 2], |number| [1, number]))
        }))
    }

    fn save(&self, text: &mut [u8], spans: &mut [u64], numbers: &mut [u64]) -> u64 {
        save_in(text, spans, numbers)
    }

    fn fold(&self, folded: &mut [u8], numbers: &mut [u64]) -> u64 {
        told(self.document().and_then(|document| {
            // Without room for its length there is none for any folded text: 23 and 22 come first.
            let room = if numbers.is_empty() { &mut [] } else { folded };
            let length = document.fold(room)?;
            write_front(numbers, [length])
        }))
    }

    fn report(&self, report: &[u8], lent: Slices) -> u64 {
        let document = self.document().map_err(Refused::of_text);
        told_of_report(document.and_then(|document| match lent.numbers.first_mut() {
            Some(count) => document.report(report, lent.times, lent.counts, lent.bytes).map(|fails| *count = fails),
            // Without room for the count the report's own refusals come first all the same.
            None => document.fails(report).map_err(Refused::of_report).and(Err(Refused::of_text(too_short()))),
        }))
    }
}
