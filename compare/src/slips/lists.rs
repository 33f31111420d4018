//! Slips in the waveforms by the list.

use super::{Slip, Slipping};
use crate::lent::{Lent, Rooms, Slices};
use crate::reader::Reader;
use second::bounds::{MAX_EVENTS, MAX_WAVEFORMS};
use second::waveforms::ASKED;

const FULL: usize = MAX_WAVEFORMS * ASKED;

impl Slipping<'_> {
    /// The list as a slip reads it.
    fn list_read(&self, list: &[u64]) -> Vec<u64> {
        let waveforms = list.chunks(ASKED).len();
        let mut read = list.to_vec();
        let cut = |number: &mut u64| *number &= 0xff;
        match self.slip {
            Slip::ListTableCut => read.chunks_mut(ASKED).for_each(|asked| cut(&mut asked[0])),
            Slip::ListCharacterCut => read.iter_mut().skip(2).step_by(ASKED).for_each(cut),
            Slip::ListOneMore if waveforms == MAX_WAVEFORMS + 1 => read.truncate(FULL),
            Slip::ListOneLess if waveforms == MAX_WAVEFORMS => read.resize(FULL + 1, 0),
            Slip::ListLeftOverUncounted if waveforms == MAX_WAVEFORMS + 1 => read.truncate(list.len() / ASKED * ASKED),
            Slip::ListLeftOverDropped => read.truncate(list.len() / ASKED * ASKED),
            Slip::ListLeftOverFilled => read.resize(waveforms * ASKED, b'0'.into()),
            _ => {}
        }
        read
    }

    /// What a slip refuses before anything else is looked at.
    fn list_refused(&self, list: &[u64], lent: &Slices) -> Option<u64> {
        let waveforms = list.chunks(ASKED).len();
        let accepted = self.second.document().is_ok() && waveforms <= MAX_WAVEFORMS && waveforms <= lent.counts.len();
        match self.slip {
            Slip::ListBeforeText if waveforms > MAX_WAVEFORMS => Some(8),
            Slip::ListCountsFirst if self.second.document().is_ok() && waveforms > lent.counts.len() => Some(19),
            Slip::ListNumbersFirst if self.second.document().is_ok() && lent.numbers.is_empty() => Some(19),
            Slip::ListLeftOverFirst if accepted && list.len() % ASKED > 0 && !lent.numbers.is_empty() => Some(18),
            Slip::ListRoomForAll if accepted && lent.times.len().min(lent.bytes.len()) < waveforms => Some(19),
            _ => None,
        }
    }

    pub(super) fn list(&self, list: &[u64], mut lent: Slices) -> u64 {
        if let Some(answer) = self.list_refused(list, &lent) {
            return answer;
        }
        let list = self.list_read(list);
        let answer = self.list_answer(&list, lent.again());
        self.list_left(answer, &list, lent)
    }

    /// The right answer, with more room where a slip does not ask for it.
    fn list_answer(&self, list: &[u64], lent: Slices) -> u64 {
        let mut tried = Lent::new(lent.rooms());
        let answer = self.second.waveforms(list, tried.slices());
        if self.slips(Slip::ListWritesNothing, answer != 0) {
            return answer;
        }
        let mut more = Lent::new(Rooms { numbers: 1, counts: MAX_WAVEFORMS, ..Rooms::default() });
        let more = more.slices();
        let lent = match self.slip {
            Slip::ListCountsLater => Slices { counts: more.counts, ..lent },
            Slip::ListNumbersUnasked if lent.numbers.is_empty() => Slices { numbers: more.numbers, ..lent },
            _ => lent,
        };
        self.second.waveforms(list, lent)
    }

    /// What a slip makes of that which a right reader leaves.
    fn list_left(&self, answer: u64, list: &[u64], lent: Slices) -> u64 {
        let served = lent.counts.iter().take_while(|&&count| count <= MAX_EVENTS as u64).count();
        let events: u64 = lent.counts.iter().take(served).sum();
        let room = lent.times.len().min(lent.bytes.len()).saturating_sub(events as usize);
        let stopped = answer != 0 && lent.numbers.first() == Some(&(served as u64));
        match self.slip {
            Slip::ListServed if stopped => lent.numbers[0] += 1,
            Slip::ListEventsAtRefusal if stopped => lent.numbers[0] = events,
            Slip::ListServedAtAnswer if answer == 0 => lent.numbers[0] = served as u64,
            Slip::ListNumbersKept if stopped => lent.numbers[0] = u64::MAX - 16,
            Slip::ListNumbersRest if lent.numbers.len() > 1 => lent.numbers[1] = 0,
            Slip::ListWritesThoughRefused if answer == 8 && !lent.numbers.is_empty() => lent.numbers[0] = 0,
            Slip::ListPartOfGroup if stopped && answer == 19 && room > 0 => lent.bytes[events as usize] = b'D',
            Slip::ListCountOfRefused if stopped => lent.counts[served] = 0,
            Slip::ListCountsRest if answer == 0 && lent.counts.len() > served => lent.counts[served] = 0,
            Slip::ListCountsShifted if served > 1 => lent.counts[..served].rotate_left(1),
            Slip::ListCountsAdded if served > 1 => lent.counts[1] += lent.counts[0],
            Slip::ListAtFront if served > 1 => lent.bytes[0] = lent.bytes[lent.counts[0] as usize],
            Slip::ListLaterTimes if served > 1 => lent.times[events as usize - 1] += 1,
            Slip::ListNoRefusal if stopped => return 0,
            Slip::ListPlace if stopped => return answer + 32 * served as u64,
            Slip::ListGoesOn if stopped && list.len() > (served + 1) * ASKED => {
                let (times, bytes) = (&mut lent.times[events as usize..], &mut lent.bytes[events as usize..]);
                let rest = Slices { numbers: &mut [0], times, bytes, counts: &mut lent.counts[served..] };
                self.second.waveforms(&list[(served + 1) * ASKED..], rest);
            }
            _ => {}
        }
        answer
    }
}
