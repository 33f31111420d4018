//! Fail reports (request 9): the run's cycles and the signals at which a tester saw a device fail.

use crate::bounds::MAX_CYCLES;
use crate::document::Document;
use crate::numbers::decimal;
use crate::reader::Reader;
use crate::refusal::*;
use crate::statements::{Act, Range};
use crate::tokens::Token;
use std::collections::HashMap;

/// What one offset of a report stands for.
#[derive(Clone, Copy, Debug, PartialEq, Eq)]
pub struct Fail {
    /// Of the whole run.
    pub cycle: u64,
    pub signal: u64,
    pub letter: Option<u8>,
}

/// The byte that stands for a fail without a letter: no report holds it.
pub const NO_LETTER: u8 = 0;

/// A refusal, and whether it is the report's, so that its place is there.
#[derive(Clone, Copy, Debug, PartialEq, Eq)]
pub struct Refused {
    pub of_report: bool,
    pub refusal: Refusal,
}

impl Refused {
    pub fn of_text(refusal: Refusal) -> Refused {
        Refused { of_report: false, refusal }
    }

    pub fn of_report(refusal: Refusal) -> Refused {
        Refused { of_report: true, refusal }
    }
}

/// Writes run cycle, signal number and letter of each offset to the fronts of three buffers; gives how many there are.
pub fn report(
    text: &[u8],
    report: &[u8],
    cycles: &mut [u64],
    signals: &mut [u64],
    letters: &mut [u8],
) -> Result<u64, Refused> {
    Document::read(text).map_err(Refused::of_text)?.report(report, cycles, signals, letters)
}

/// Of a report as it is read: what a 24 is asked of stands as tokens.
struct Report {
    pattern: Token,
    records: Vec<Record>,
}

struct Record {
    reference: Token,
    signal: u64,
    offsets: Vec<Offset>,
}

struct Offset {
    word: Token,
    cycles: u64,
    letter: Option<u8>,
}

impl Document<'_> {
    pub fn report(
        &self,
        report: &[u8],
        cycles: &mut [u64],
        signals: &mut [u64],
        letters: &mut [u8],
    ) -> Result<u64, Refused> {
        let fails = self.fails(report).map_err(Refused::of_report)?;
        if fails.len() > cycles.len().min(signals.len()).min(letters.len()) {
            return Err(Refused::of_text(Refusal::new(BUFFER_TOO_SHORT, 0)));
        }
        for (at, fail) in fails.iter().enumerate() {
            cycles[at] = fail.cycle;
            signals[at] = fail.signal;
            letters[at] = fail.letter.unwrap_or(NO_LETTER);
        }
        Ok(fails.len() as u64)
    }

    /// What the report says, one for each offset; or its refusal: 1 to 9, then 24.
    pub fn fails(&self, report: &[u8]) -> Answer<Vec<Fail>> {
        let Report { pattern, records } = self.read_report(&mut Reader::new(report)?)?;
        let name = pattern.bytes(report);
        let of_name = |&(number, _): &(usize, _)| self.headings[number].name.bytes(self.text) == name;
        let mut listed = self.listed().filter(of_name);
        let (number, cycles) = match (listed.next(), listed.next()) {
            (Some(once), None) => once,
            _ => return Err(pattern.refuse(NOT_IN_RUN)),
        };
        let mut marks = HashMap::from([(name, 0)]);
        self.find_marks(self.patterns[number].statements, 0, &mut marks);
        let mut fails = Vec::new();
        for Record { reference, signal, offsets } in records {
            let before = *marks.get(reference.bytes(report)).ok_or_else(|| reference.refuse(NOT_IN_RUN))?;
            let none = Offset { word: reference, cycles: 0, letter: None };
            let offsets = if offsets.is_empty() { vec![none] } else { offsets };
            for Offset { word, cycles: offset, letter } in offsets {
                let cycle = cycles.start + before + offset;
                if !cycles.contains(&cycle) {
                    return Err(word.refuse(NOT_IN_RUN));
                }
                fails.push(Fail { cycle, signal, letter });
            }
        }
        Ok(fails)
    }

    /// The X names of a body, each with the cycles before its first execution: a Loop is gone into in its first turn.
    fn find_marks<'d>(&'d self, statements: Range, before: u64, marks: &mut HashMap<&'d [u8], u64>) {
        let (mut at, mut before) = (statements.first, before);
        while at < statements.end {
            let statement = &self.program.statements[at as usize];
            match statement.act {
                Act::Mark(name) => {
                    marks.insert(name.bytes(self.text), before);
                }
                Act::Loop { .. } => self.find_marks(Range { first: at + 1, end: statement.next }, before, marks),
                _ => {}
            }
            before += statement.extent.cycles;
            at = statement.next;
        }
    }
}

/// The report's form: 4 to 9.
impl Document<'_> {
    fn read_report(&self, reader: &mut Reader) -> Answer<Report> {
        reader.fixed(b"PatternFailReport")?;
        reader.byte(b'{')?;
        reader.fixed(b"Pattern")?;
        let pattern = reader.name()?;
        reader.byte(b';')?;
        reader.fixed(b"FailData")?;
        reader.byte(b'{')?;
        let mut records = Vec::new();
        while !reader.is(b'}') {
            records.push(self.read_record(reader)?);
        }
        reader.bytes(b"}}")?;
        if reader.at_end() {
            Ok(Report { pattern, records })
        } else {
            Err(reader.refuse(TOKEN_NOT_ALLOWED))
        }
    }

    fn read_record(&self, reader: &mut Reader) -> Answer<Record> {
        let reference = reader.name()?;
        let signal = self.signal_of(reader)?;
        let mut offsets = Vec::new();
        while !reader.is(b';') {
            let word = reader.peek();
            let cycles = reader.number(decimal, 0, MAX_CYCLES)?;
            let letter = if reader.is(b'\'') { Some(state_letter(reader)?) } else { None };
            offsets.push(Offset { word, cycles, letter });
        }
        reader.take();
        Ok(Record { reference, signal, offsets })
    }

    /// A signal by its own name; a group's is none.
    fn signal_of(&self, reader: &mut Reader) -> Answer<u64> {
        let name = reader.name()?;
        let number = self.pins.names.find(self.text, name.bytes(reader.text));
        let signal = number.filter(|&number| number < self.pins.signals);
        signal.map(|number| number as u64).ok_or_else(|| name.refuse(NAME_UNKNOWN))
    }
}

/// `'H'`, or L, T or X: the state that was seen.
fn state_letter(reader: &mut Reader) -> Answer<u8> {
    reader.byte(b'\'')?;
    let letter = match *reader.word() {
        [letter @ (b'H' | b'L' | b'T' | b'X')] => letter,
        _ => return Err(reader.refuse(TOKEN_NOT_ALLOWED)),
    };
    reader.take();
    reader.byte(b'\'')?;
    Ok(letter)
}
