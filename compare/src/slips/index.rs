//! Slips in the index and in what is asked of it.

use super::{Slip, Slipping};
use crate::index::right;
use crate::reader::Reader;
use second::Document;

impl Slipping<'_> {
    fn right(&self) -> Vec<u8> {
        self.second.document().map_or(Vec::new(), right)
    }

    pub(super) fn slipped_index(&self, index: &mut [u8], numbers: &mut [u64]) -> u64 {
        let right = self.right();
        let made = self.second.document().ok().and_then(|document| self.made(document, &right));
        if self.slips(Slip::IndexRoomOneMore, made_here(&right, index)) {
            return 19;
        }
        let answer = self.second.index(index, numbers);
        match (self.slip, answer) {
            (Slip::IndexLength, 0) => numbers[0] -= 1,
            (Slip::IndexRest, 0) if index.len() > right.len() => index[right.len()] = 0,
            (Slip::IndexWritesThoughShort, 19) if !index.is_empty() => index[0] = b'P',
            (Slip::IndexNumberThoughShort, 19) if !numbers.is_empty() => numbers[0] = right.len() as u64,
            (_, 0) => {
                if let Some(made) = made.filter(|made| made.len() <= index.len()) {
                    numbers[0] = made.len() as u64;
                    index[..made.len()].copy_from_slice(&made);
                }
            }
            _ => {}
        }
        answer
    }

    /// The index as a slip writes it.
    fn made(&self, document: &Document, right: &[u8]) -> Option<Vec<u8>> {
        let text = String::from_utf8_lossy(right).to_string();
        let lines: Vec<&str> = text.lines().collect();
        let (listed, rest) = lines[1..].split_at(document.run.len());
        let first = |at: usize| document.run[..at].iter().all(|&pattern| pattern != document.run[at]);
        let cycles = |at: usize| document.patterns[document.run[at]].extent.cycles;
        let only = |kept: &dyn Fn(usize) -> bool| {
            let kept = (0..listed.len()).filter(|&at| kept(at)).map(|at| listed[at]);
            joined(lines[..1].iter().copied().chain(kept).chain(rest.iter().copied()))
        };
        match self.slip {
            Slip::IndexNoTables => Some(joined(lines[..1 + listed.len()].iter().copied())),
            Slip::IndexListedOnce => Some(only(&first)),
            Slip::IndexWithoutEmpty => Some(only(&|at| cycles(at) > 0)),
            Slip::IndexLastLine => Some(joined(lines[..lines.len() - 1].iter().copied())),
            Slip::IndexPlaceOfName => {
                let place = document.headings.first().map(|heading| (heading.keyword.place, heading.name.place))?;
                Some(text.replace(&format!(" {}\n", place.0), &format!(" {}\n", place.1)).into_bytes())
            }
            _ => None,
        }
    }

    pub(super) fn slipped_belongs(&self, index: &[u8]) -> u64 {
        let right = self.right();
        let answer = self.second.belongs(index);
        match (self.slip, answer) {
            (Slip::BelongsAny, 21) => 0,
            (Slip::BelongsLonger, 21) if index.starts_with(&right) => 0,
            (Slip::BelongsShorter, 21) if right.starts_with(index) => 0,
            (Slip::BelongsLength, 21) if right.len() == index.len() => 0,
            (Slip::BelongsBeforeText, 1..) if !index.starts_with(b"PATTERNS ") => 21,
            _ => answer,
        }
    }

    pub(super) fn slipped_holds(&self, index: &[u8], cycle: u64, numbers: &mut [u64]) -> u64 {
        let right = self.right();
        let document = self.second.document().ok();
        let (cycles, run) = document.map_or((0, &[][..]), |document| (document.extent.cycles, &document.run));
        let (index, cycle) = match self.slip {
            Slip::HoldsOfAny => (&right[..], cycle),
            Slip::HoldsCut => (index, cycle & 0xffff_ffff),
            Slip::HoldsLastCycle => (index, if cycle <= cycles { cycle.saturating_sub(1) } else { cycle }),
            Slip::HoldsPastEnd if cycles > 0 => (index, cycle.min(cycles - 1)),
            _ => (index, cycle),
        };
        let room = numbers.len();
        let answer = self.second.holds(index, cycle, numbers);
        match (self.slip, answer) {
            (Slip::HoldsRoomFirst, 21) if room < 2 => return 19,
            (Slip::HoldsNoneWithoutRoom, 19) if cycle >= cycles => return 0,
            (Slip::HoldsFromOne, 0) => numbers[1] += numbers[0],
            (Slip::HoldsNumberAlone, 0) => numbers[0] = numbers[1],
            (Slip::HoldsRest, 0) if room > 2 => numbers[2] = 0,
            (Slip::HoldsFirstListed, 0) if numbers[0] == 1 => {
                let pattern = run[numbers[1] as usize];
                numbers[1] = run.iter().position(|&listed| listed == pattern).unwrap_or(0) as u64;
            }
            _ => {}
        }
        answer
    }
}

/// There is an index, and just room for it.
fn made_here(right: &[u8], room: &[u8]) -> bool {
    !right.is_empty() && room.len() == right.len()
}

fn joined<'l>(lines: impl Iterator<Item = &'l str>) -> Vec<u8> {
    lines.flat_map(|line| line.bytes().chain([b'\n'])).collect()
}
