//! Slips in what a fail report says.

use super::{Slip, Slipping};
use crate::lent::Slices;
use crate::reader::{told, Reader, OF_REPORT};
use second::bounds::MAX_TEXT;
use second::refusal::NOT_IN_RUN;
use second::report::{Fail, NO_LETTER};
use second::statements::{Act, Range};
use second::tokens::{check_bytes, tokens, Token};
use second::Document;

impl Slipping<'_> {
    pub(super) fn slipped_report(&self, report: &[u8], mut lent: Slices) -> u64 {
        let numbers = lent.numbers.len();
        if let Some(answer) = self.report_refused(report, &lent) {
            return answer;
        }
        let answer = self.second.report(report, lent.again());
        let fails = self.second.document().ok().and_then(|document| document.fails(report).ok()).unwrap_or_default();
        let rooms = [lent.times.len(), lent.counts.len(), lent.bytes.len()];
        match (self.slip, answer) {
            (Slip::ReportWritesThoughShort, 19) if rooms[0] > 0 => lent.times[0] = fails[0].cycle,
            (Slip::ReportNumberThoughShort, 19) if numbers > 0 => lent.numbers[0] = fails.len() as u64,
            (Slip::ReportWithoutNumber, 19) if numbers == 0 && rooms.iter().all(|&room| room >= fails.len()) => {
                return 0
            }
            (Slip::ReportRoomOneMore, 0) if rooms.contains(&fails.len()) => return 19,
            (Slip::ReportCount, 0) => lent.numbers[0] += 1,
            (Slip::ReportRest, 0) if rooms[2] > fails.len() => lent.bytes[fails.len()] = NO_LETTER,
            (Slip::ReportNumbersRest, 0) if numbers > 1 => lent.numbers[1] = 0,
            (_, 0) => self.write(&self.told_fails(report, &fails), lent),
            _ => {}
        }
        answer
    }

    fn write(&self, fails: &[Fail], lent: Slices) {
        for (at, fail) in fails.iter().enumerate() {
            lent.times[at] = fail.cycle;
            lent.counts[at] = fail.signal;
            lent.bytes[at] = fail.letter.unwrap_or(NO_LETTER);
        }
        lent.numbers[0] = fails.len() as u64;
    }

    /// What a slip refuses or accepts otherwise.
    fn report_refused(&self, report: &[u8], lent: &Slices) -> Option<u64> {
        let document = match self.second.document() {
            Ok(document) => document,
            Err(_) => {
                let before = check_bytes(report).err().filter(|_| self.slip == Slip::ReportBeforeText);
                return before.map(|refusal| told(Err(refusal)) + OF_REPORT);
            }
        };
        let refusal = document.fails(report).err()?;
        let (right, number) = (told(Err(refusal)), refusal.number);
        let words: Vec<Token> = if number == NOT_IN_RUN { tokens(report, 0).collect() } else { Vec::new() };
        let at = words.iter().position(|word| u64::from(word.place) == refusal.place).unwrap_or(0);
        let digits = words.get(at).map_or(false, |word| word.first.is_ascii_digit());
        match self.slip {
            Slip::ReportOfText => Some(right),
            Slip::ReportOutsideOfText if number == NOT_IN_RUN => Some(right),
            Slip::ReportRoomFirst if number == NOT_IN_RUN && lent.numbers.is_empty() => Some(19),
            Slip::ReportUnknownAsName if number == NOT_IN_RUN && at > 6 && !digits => Some(right - 24 + 6 + OF_REPORT),
            Slip::ReportOutsideAtReference if digits => {
                let behind = |word: &&Token| matches!(word.first, b'{' | b';');
                let before = words[..at].iter().rfind(behind)?.end();
                Some(32 * u64::from(tokens(report, before).next()?.place) + u64::from(NOT_IN_RUN) + OF_REPORT)
            }
            Slip::ReportListedTwice if at == 3 => Some(0),
            Slip::ReportOneTooLong if report.len() == MAX_TEXT + 1 => Some(4 + OF_REPORT),
            _ => None,
        }
    }

    /// What a slip says of a report that is answered.
    fn told_fails(&self, report: &[u8], right: &[Fail]) -> Vec<Fail> {
        let document = match self.second.document() {
            Ok(document) => document,
            Err(_) => return Vec::new(),
        };
        let words: Vec<Token> = tokens(report, 0).collect();
        let name = words[3].bytes(report);
        let heading = |pattern: &usize| document.headings[*pattern].name.bytes(document.text) == name;
        let listed = document.run.iter().position(heading).unwrap_or(0);
        let first: u64 = document.run[..listed].iter().map(|&pattern| document.patterns[pattern].extent.cycles).sum();
        let references = references(report, &words);
        let mut told = Vec::new();
        for (&fail, &(reference, by_offset)) in right.iter().zip(&references) {
            let (before, last) = mark(document, document.run[listed], reference).unwrap_or((0, 0));
            let Fail { cycle, signal, letter } = fail;
            match self.slip {
                Slip::ReportWithoutOffsetLost if !by_offset => {}
                Slip::ReportCycleOfPattern => told.push(Fail { cycle: cycle - first, ..fail }),
                Slip::ReportSignalFromOne => told.push(Fail { signal: signal + 1, ..fail }),
                Slip::ReportLetterLost => told.push(Fail { letter: None, ..fail }),
                Slip::ReportNoLetterShown => told.push(Fail { letter: letter.or(Some(b'X')), ..fail }),
                Slip::ReportMarkAtBegin => told.push(Fail { cycle: cycle - before, ..fail }),
                Slip::ReportMarkOneLess => told.push(Fail { cycle: cycle - before.min(1), ..fail }),
                Slip::ReportMarkInLastTurn => told.push(Fail { cycle: cycle - before + last, ..fail }),
                _ => told.push(fail),
            }
        }
        if self.slip == Slip::ReportBackwards {
            told.reverse();
        }
        told
    }
}

/// Of each answer its reference, and whether an offset is written.
fn references<'r>(report: &'r [u8], words: &[Token]) -> Vec<(&'r [u8], bool)> {
    let mut found = Vec::new();
    let mut at = 7;
    while at + 2 < words.len() && words[at].first != b'}' {
        let reference = words[at].bytes(report);
        let end = at + words[at..].iter().position(|word| word.first == b';').unwrap_or(0);
        let offsets = words[at + 2..end].iter().filter(|word| word.first.is_ascii_digit()).count();
        found.extend((0..offsets.max(1)).map(|_| (reference, offsets > 0)));
        at = end + 1;
    }
    found
}

/// The cycles of the pattern before an X name's first execution, and before its last.
fn mark(document: &Document, pattern: usize, name: &[u8]) -> Option<(u64, u64)> {
    mark_in(document, document.patterns[pattern].statements, name)
}

fn mark_in(document: &Document, body: Range, name: &[u8]) -> Option<(u64, u64)> {
    let (mut at, mut before) = (body.first, 0);
    while at < body.end {
        let statement = &document.program.statements[at as usize];
        match statement.act {
            Act::Mark(mark) if mark.bytes(document.text) == name => return Some((before, before)),
            Act::Loop { turns, turn_cycles } => {
                let found = mark_in(document, Range { first: at + 1, end: statement.next }, name);
                if let Some((first, last)) = found {
                    return Some((before + first, before + u64::from(turns - 1) * turn_cycles + last));
                }
            }
            _ => {}
        }
        before += statement.extent.cycles;
        at = statement.next;
    }
    None
}
