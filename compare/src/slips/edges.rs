//! Slips in the rule for events across the cycle's edge.

use super::{Slip, Slipping, WITH_EDGES};
use crate::reader::told;
use second::refusal::EVENTS_OUT_OF_ORDER;
use second::services::Summary;
use second::timing::Asked;
use second::tokens::tokens;
use second::{check, Document, Refusal, DOT};

/// Longer runs are not listed for a slip.
const MOST_CYCLES: u64 = 3_000;

impl Slipping<'_> {
    /// What a slip answers otherwise where 25 is asked for; none where it answers right.
    pub(super) fn edges_checked(&self, numbers: &mut [u64]) -> Option<u64> {
        if !WITH_EDGES.contains(&self.slip) {
            return None;
        }
        let (text, right) = (self.second.text, check(self.second.text).err());
        let failing = right.filter(|refusal| refusal.number == EVENTS_OUT_OF_ORDER);
        if right.is_some() && failing.is_none() {
            return None;
        }
        let unplayed = Document::read_unplayed(text).ok()?;
        let accepts = match self.slip {
            Slip::EdgesUnchecked => failing.is_some(),
            Slip::EdgesTwoTurns => failing.is_some() && check(&in_two_turns(text)).is_ok(),
            Slip::EdgesAtEarlier => {
                let place = failing?.place;
                let before = tokens(text, 0).take_while(|token| u64::from(token.place) < place);
                let earlier = before.filter(|token| token.bytes(text) == b"V").last()?;
                return Some(told(Err(earlier.refuse(EVENTS_OUT_OF_ORDER))));
            }
            _ if unplayed.extent.cycles < MOST_CYCLES => {
                let accepts = self.in_order(&unplayed);
                if !accepts && failing.is_none() {
                    return Some(told(Err(Refusal { number: EVENTS_OUT_OF_ORDER, place: 0 })));
                }
                accepts && failing.is_some()
            }
            _ => false,
        };
        let Summary { signals, tables, patterns, cycles, size } = unplayed.summary();
        let room = numbers.get_mut(..5).filter(|_| accepts)?;
        room.copy_from_slice(&[signals, tables, patterns, cycles, size]);
        Some(0)
    }

    /// Whether all pairs are in order as a slip sees them.
    fn in_order(&self, document: &Document) -> bool {
        let width = document.row_width();
        let mut rows = vec![0; document.extent.cycles as usize * width];
        let listed = document.window(0, u64::MAX, DOT, &mut rows);
        let rows: Vec<&[u8]> = rows.chunks(width).filter(|_| listed.is_ok()).collect();
        let (mut first, mut in_order) = (0, true);
        let together = self.slip == Slip::EdgesAcrossPatterns;
        for &pattern in &document.run {
            let end = first + document.patterns[pattern].extent.cycles as usize;
            in_order &= self.rows_in_order(document, &rows[first..end]);
            first = end;
        }
        in_order && (!together || self.rows_in_order(document, &rows))
    }

    fn rows_in_order(&self, document: &Document, rows: &[&[u8]]) -> bool {
        let signals = if self.slip == Slip::EdgesFirstSignal { 1 } else { document.pins.signals };
        let categories: &[&[u8]] =
            if self.slip == Slip::EdgesOneCategory { &[b"DUZPLHXTlhx"] } else { &[b"DUZP", b"LHXTlhx"] };
        let pairs = (0..signals).flat_map(|signal| categories.iter().map(move |category| (signal, category)));
        pairs.into_iter().all(|(signal, category)| {
            let mut last = None;
            rows.iter().all(|row| {
                let table = row[document.pins.signals] - b'0';
                let period = document.timing.periods[table as usize] as i64;
                let asked = Asked { table: table.into(), signal: signal as u64, character: row[signal] };
                let events = document.timing.waveform(document.text, &document.pins, asked).unwrap_or_default();
                let mut times = events.iter().filter(|(_, letter)| category.contains(letter)).map(|&(time, _)| time);
                let soonest = times.clone().min();
                let fits = match (last, soonest) {
                    (Some((late, before)), Some(soon)) => self.fits(late, before, soon, period),
                    _ => true,
                };
                let kept = last.filter(|_| self.slip == Slip::EdgesPastOthers);
                last = times.by_ref().max().map(|late| (late, period)).or(kept);
                fits
            })
        })
    }

    fn fits(&self, late: i64, period: i64, soon: i64, later_period: i64) -> bool {
        match self.slip {
            Slip::EdgesSameTime => late <= period + soon,
            Slip::EdgesLaterPeriod => late < later_period + soon,
            Slip::EdgesNoPeriod => late < soon,
            _ => late < period + soon,
        }
    }
}

/// The same text, as long, with no more than two turns in each Loop.
fn in_two_turns(text: &[u8]) -> Vec<u8> {
    let mut changed = text.to_vec();
    let words: Vec<_> = tokens(text, 0).collect();
    for pair in words.windows(2).filter(|pair| pair[0].bytes(text) == b"Loop") {
        let (place, end) = (pair[1].place as usize, pair[1].end());
        let turns: u64 = String::from_utf8_lossy(pair[1].bytes(text)).parse().unwrap_or(0);
        if turns > 2 {
            changed[place..end].fill(b'0');
            changed[end - 1] = b'2';
        }
    }
    changed
}
