//! A text folded flat, as docs/FOLDED.md has it: no groups, macros or procedures, and each stretch of equal rows one Loop.

use crate::bounds::{MAX_FOLDED, MAX_PATTERNS, MAX_TEXT};
use crate::document::Document;
use crate::refusal::*;
use crate::rows::{self, DOT};
use crate::timing::Asked;
use crate::tokens::token_from;
use std::ops::Range;

/// Rows played at a time, so that a long run needs no more memory.
const ROWS_AT_ONCE: u64 = 4_096;

/// Writes the folded text to the front of the buffer; gives its length.
pub fn fold(text: &[u8], buffer: &mut [u8]) -> Answer<u64> {
    Document::read(text)?.fold(buffer)
}

impl Document<'_> {
    pub fn fold(&self, buffer: &mut [u8]) -> Answer<u64> {
        let folded = self.folded()?;
        let front = buffer.get_mut(..folded.len()).ok_or_else(|| Refusal::new(BUFFER_TOO_SHORT, 0))?;
        front.copy_from_slice(&folded);
        Ok(folded.len() as u64)
    }

    /// The folded text, or 23, 22, or 19 for one that is too long to be a text.
    pub fn folded(&self) -> Answer<Vec<u8>> {
        if self.extent.cycles > MAX_FOLDED {
            return Err(Refusal::new(TOO_MANY_CYCLES, 0));
        }
        let patterns = self.flat_patterns();
        if patterns.begun > MAX_PATTERNS {
            return Err(Refusal::new(TOO_MANY_PATTERNS, 0));
        }
        let mut folded = Text::default();
        self.put_declared(&mut folded);
        let listed: String = (0..patterns.begun).map(|number| format!("p{number};")).collect();
        folded.put(&format!("PatternBurst b{{PatList{{{listed}}}}}\nPatternExec{{PatternBurst b;}}\n"));
        folded.bytes(&patterns.text.0);
        if patterns.begun == 0 {
            folded.put("Pattern p0{\n}\n");
        }
        let Text(folded) = folded;
        Some(folded).filter(|folded| folded.len() <= MAX_TEXT).ok_or_else(|| Refusal::new(BUFFER_TOO_SHORT, 0))
    }

    fn flat_patterns(&self) -> Patterns<'_> {
        let mut patterns = Patterns { document: self, text: Text::default(), begun: 0, table: DOT, stretch: None };
        for (_, cycles) in self.listed() {
            patterns.begin();
            self.each_row(cycles, |row| patterns.row(row));
            patterns.end();
        }
        patterns
    }

    /// The rows of these cycles in order, pins without a value as the dot.
    fn each_row(&self, cycles: Range<u64>, mut show: impl FnMut(&[u8])) {
        let width = self.row_width();
        let mut first = cycles.start;
        while first < cycles.end {
            let count = ROWS_AT_ONCE.min(cycles.end - first);
            let mut page = vec![0; count as usize * width];
            rows::write(self, first, DOT, &mut page);
            page.chunks(width).for_each(&mut show);
            first += count;
        }
    }
}

/// Signals and Timing.
impl Document<'_> {
    fn signal_name(&self, signal: usize) -> &[u8] {
        self.pins.names.get(signal).map_or(b"", |name| name.bytes(self.text))
    }

    fn table_name(&self, table: usize) -> &[u8] {
        self.timing.names.get(table).map_or(b"", |name| name.bytes(self.text))
    }

    fn put_declared(&self, folded: &mut Text) {
        folded.put("STIL 1.0;\nSignals{");
        for name in (0..self.pins.signals).filter_map(|signal| self.pins.names.get(signal)) {
            folded.bytes(name.bytes(self.text));
            folded.put(" ");
            // In, Out or InOut stands behind the name.
            folded.bytes(token_from(self.text, name.end()).bytes(self.text));
            folded.put(";");
        }
        folded.put("}\nTiming{\n");
        for (table, &period) in self.timing.periods.iter().enumerate() {
            folded.put("WaveformTable ");
            folded.bytes(self.table_name(table));
            folded.put(&format!("{{Period'{}';Waveforms{{\n", time(period as i64)));
            (0..self.pins.signals).for_each(|signal| self.put_waveforms(table, signal, folded));
            folded.put("}}\n");
        }
        folded.put("}\n");
    }

    /// A signal's line in a table: an entry for each of its characters, the lowest byte first; none where it has no character.
    fn put_waveforms(&self, table: usize, signal: usize, folded: &mut Text) {
        let asked = |character| Asked { table: table as u64, signal: signal as u64, character };
        let mut entries = Text::default();
        for character in 0..=u8::MAX {
            if let Some(events) = self.timing.waveform(self.text, &self.pins, asked(character)) {
                entries.bytes(&[character, b'{']);
                events.iter().for_each(|&(at, letter)| entries.put(&format!("'{}'{};", time(at), letter as char)));
                entries.put("}");
            }
        }
        if !entries.0.is_empty() {
            folded.bytes(self.signal_name(signal));
            folded.put("{");
            folded.bytes(&entries.0);
            folded.put("}\n");
        }
    }
}

/// In ns where it is a whole number of them, with its sign if it is before the cycle.
fn time(ps: i64) -> String {
    if ps % 1_000 == 0 {
        format!("{}ns", ps / 1_000)
    } else {
        format!("{ps}ps")
    }
}

/// Bytes of the folded text, kept as long as they can be part of one.
#[derive(Default)]
struct Text(Vec<u8>);

impl Text {
    fn bytes(&mut self, bytes: &[u8]) {
        if self.0.len() <= MAX_TEXT {
            self.0.extend_from_slice(bytes);
        }
    }

    fn put(&mut self, bytes: &str) {
        self.bytes(bytes.as_bytes());
    }
}

/// Equal rows, one after another.
struct Stretch {
    row: Vec<u8>,
    times: u64,
}

/// The Pattern blocks, row by row.
struct Patterns<'d> {
    document: &'d Document<'d>,
    text: Text,
    begun: usize,
    /// The digit of the table that the last W of this Pattern chose.
    table: u8,
    stretch: Option<Stretch>,
}

impl Patterns<'_> {
    fn begin(&mut self) {
        self.text.put(&format!("Pattern p{}{{\n", self.begun));
        self.begun += 1;
        self.table = DOT;
    }

    fn end(&mut self) {
        self.put_stretch();
        self.text.put("}\n");
    }

    fn row(&mut self, row: &[u8]) {
        match &mut self.stretch {
            Some(stretch) if stretch.row == row => stretch.times += 1,
            Some(stretch) if loses_a_pin(&stretch.row, row) => {
                self.end();
                self.begin();
                self.stretch = Some(Stretch { row: row.to_vec(), times: 1 });
            }
            _ => {
                self.put_stretch();
                self.stretch = Some(Stretch { row: row.to_vec(), times: 1 });
            }
        }
    }

    fn put_stretch(&mut self) {
        let (row, times) = match self.stretch.take() {
            Some(Stretch { row, times }) => (row, times),
            None => return,
        };
        let signals = self.document.pins.signals;
        let table = row[signals];
        if table != self.table {
            self.table = table;
            self.text.put("W ");
            self.text.bytes(self.document.table_name(usize::from(table - b'0')));
            self.text.put(";\n");
        }
        if times > 1 {
            self.text.put(&format!("Loop {times}{{"));
        }
        self.put_vector(&row[..signals]);
        self.text.put(if times > 1 { "}\n" } else { "\n" });
    }

    fn put_vector(&mut self, values: &[u8]) {
        self.text.put("V{");
        for (signal, &value) in values.iter().enumerate().filter(|(_, &value)| value != DOT) {
            self.text.bytes(self.document.signal_name(signal));
            self.text.bytes(&[b'=', value, b';']);
        }
        self.text.put("}");
    }
}

/// Whether some pin has a value in the first row and none in the next.
fn loses_a_pin(row: &[u8], next: &[u8]) -> bool {
    row.iter().zip(next).any(|(&before, &now)| before != DOT && now == DOT)
}
