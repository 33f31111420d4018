//! Slips in the folding.

use super::{Slip, Slipping};
use crate::reader::Reader;
use second::bounds::{MAX_FOLDED, MAX_TEXT};

impl Slipping<'_> {
    pub(super) fn slipped_fold(&self, folded: &mut [u8], numbers: &mut [u64]) -> u64 {
        let right = self.second.document().ok().and_then(|document| document.folded().ok()).unwrap_or_default();
        let (room, numbers_room) = (folded.len(), numbers.len());
        if let Some(answer) = self.fold_refused(&right, room, numbers_room) {
            return answer;
        }
        let answer = self.second.fold(folded, numbers);
        match (self.slip, answer) {
            (Slip::FoldLength, 0) => numbers[0] += 1,
            (Slip::FoldRest, 0) if room > right.len() => folded[right.len()] = 0,
            (Slip::FoldNumbersRest, 0) if numbers_room > 1 => numbers[1] = 0,
            (Slip::FoldWritesThoughShort, 19) if room > 0 => folded[0] = b'S',
            (Slip::FoldNumberThoughShort, 19) if numbers_room > 0 => numbers[0] = right.len() as u64,
            (_, 0) => {
                let made = self.written(&String::from_utf8_lossy(&right));
                if let Some(front) = folded.get_mut(..made.len()) {
                    front.copy_from_slice(made.as_bytes());
                    numbers[0] = made.len() as u64;
                }
            }
            _ => {}
        }
        answer
    }

    /// What a slip refuses or accepts otherwise, with these rooms.
    fn fold_refused(&self, right: &[u8], room: usize, numbers: usize) -> Option<u64> {
        let document = self.second.document().ok()?;
        let cycles = document.extent.cycles;
        let refused = document.folded().err().map_or(0, |refusal| refusal.number);
        let patterns = right.windows(10).filter(|bytes| bytes == b"\nPattern p").count();
        match self.slip {
            Slip::FoldRoomFirst if refused > 19 && room < MAX_TEXT => Some(19),
            Slip::FoldNumbersFirst if refused > 19 && numbers == 0 => Some(19),
            Slip::FoldCyclesLess if cycles == MAX_FOLDED => Some(23),
            Slip::FoldCyclesMore if cycles == MAX_FOLDED + 1 => Some(19),
            Slip::FoldPatternsLess if patterns == 16 => Some(22),
            Slip::FoldPatternsMore if refused == 22 => Some(19),
            Slip::FoldTextLess if right.len() == MAX_TEXT => Some(19),
            Slip::FoldTextMore if refused == 19 && room > MAX_TEXT && numbers > 0 => Some(0),
            Slip::FoldRoomOneMore if room == right.len() => Some(19),
            _ => None,
        }
    }

    /// The folded text as a slip writes it.
    fn written(&self, right: &str) -> String {
        match self.slip {
            Slip::FoldOneSplitLess => right.replacen("}\nPattern p1{\n", "", 1),
            Slip::FoldEmptyDropped if !right.contains("PatList{}") => without_empty(right),
            Slip::FoldEmptyListed => right.replace("PatList{}", "PatList{p0;}"),
            Slip::FoldEmptyUnwritten if right.contains("PatList{}") => without_empty(right),
            Slip::FoldTimes => right.replace("'0ns'", "'0ps'"),
            Slip::FoldPeriods => right.replace("00ns';Wave", "00000ps';Wave"),
            Slip::FoldDirections => right.replace("InOut;", "In;"),
            Slip::FoldOldNames => right.replace("PatternBurst b", "PatternBurst p"),
            Slip::FoldListBackwards => right.replacen("{p0;p1;", "{p1;p0;", 1),
            Slip::FoldLastLineEnd => right.trim_end().into(),
            _ => self.lines_written(right),
        }
    }

    fn lines_written(&self, right: &str) -> String {
        let mut written = String::new();
        let mut before = "";
        for line in right.split_inclusive('\n') {
            let in_pattern = before.ends_with("{\n");
            written += &match self.slip {
                Slip::FoldTablesOnce if line.starts_with("W ") && !in_pattern => String::new(),
                Slip::FoldTablesTwice if line.starts_with("W ") => line.repeat(2),
                Slip::FoldTwoAsTwo if line.starts_with("Loop 2{") => vector(line).repeat(2),
                Slip::FoldLoopOneLess => line.replacen("Loop 3{", "Loop 2{", 1),
                Slip::FoldLoopOfOne if line.starts_with("V{") => format!("Loop 1{{{}}}\n", line.trim_end()),
                Slip::FoldHeldPins if is_row(line) && is_row(before) => line.replacen(first_pin(before), "", 1),
                Slip::FoldMarks => line.replace("V{}", "V{A=?;}"),
                Slip::FoldLastCharacter if line.ends_with(";}}\n") && !is_row(line) => last_dropped(line),
                _ => line.into(),
            };
            before = line;
        }
        written
    }
}

fn without_empty(right: &str) -> String {
    (0..16).fold(right.into(), |text: String, number| text.replace(&format!("Pattern p{number}{{\n}}\n"), ""))
}

fn is_row(line: &str) -> bool {
    line.starts_with("V{") || line.starts_with("Loop ")
}

/// The V of a Loop's line, as a line.
fn vector(line: &str) -> String {
    line[line.find('V').unwrap_or(0)..].replace("}}", "}")
}

fn first_pin(line: &str) -> &str {
    let given = &line[line.find("V{").map_or(0, |at| at + 2)..];
    &given[..given.find(';').map_or(0, |at| at + 1)]
}

/// A signal's line without its last character, if there is one before it.
fn last_dropped(line: &str) -> String {
    match line.rfind(";}").and_then(|last| line[..last].rfind(";}")) {
        Some(end) => format!("{}}}\n", &line[..end + 2]),
        None => line.into(),
    }
}
