//! The intake: takes a raw text in chunks and fills a lent store, where each longest run of blanks and comments is one byte.

use crate::bounds::{MAX_RAW, MAX_TEXT};
use crate::lines::Position;
use crate::refusal::*;
use crate::tokens::{is_allowed, is_blank};

#[derive(Clone, Copy, Debug, PartialEq, Eq)]
pub enum Progress {
    Open,
    /// Its place is one in the raw text.
    Refused(Refusal),
    /// The stored length.
    Closed(u64),
}

/// What the next byte of the raw text stands in or behind.
#[derive(Clone, Copy, Debug, PartialEq, Eq)]
pub enum Within {
    /// No comment.
    Tokens,
    /// Behind a `/` that might open a comment.
    Slash,
    /// In `//`.
    Line,
    /// In `/*`, which stands at `open`; perhaps behind a `*` that might close it.
    Comment { open: usize, star: bool },
}

/// What a whole raw text in one chunk is stored as, in a store of as many bytes as any is filled with.
pub fn stored(raw: &[u8]) -> Answer<Vec<u8>> {
    let (mut intake, mut store) = (Intake::default(), vec![0; MAX_TEXT]);
    intake.chunk(raw, &mut store)?;
    intake.end(&mut store)?;
    store.truncate(intake.stored);
    Ok(store)
}

#[derive(Clone, Debug)]
pub struct Intake {
    progress: Progress,
    /// Where the next raw byte stands, and where the last comment by `/*` was opened.
    next: Position,
    opened: Position,
    /// Raw bytes so far, and how many are stored.
    pub taken: usize,
    pub stored: usize,
    pub within: Within,
    /// Of the run that is not yet shown to be over.
    pub mark: Option<u8>,
}

impl Default for Intake {
    fn default() -> Intake {
        let start = Position::START;
        Intake {
            progress: Progress::Open,
            next: start,
            opened: start,
            taken: 0,
            stored: 0,
            within: Within::Tokens,
            mark: None,
        }
    }
}

impl Intake {
    /// Takes the next bytes of the raw text; where one of them is refused, nothing is written.
    pub fn take(&mut self, chunk: &[u8], store: &mut [u8]) -> Progress {
        if self.progress == Progress::Open {
            if let Err(refusal) = self.chunk(chunk, store) {
                self.progress = Progress::Refused(refusal);
            }
        }
        self.progress
    }

    /// Ends the raw text, and stores what waited for more of it.
    pub fn close(&mut self, store: &mut [u8]) -> Progress {
        if self.progress == Progress::Open {
            self.progress = match self.end(store) {
                Ok(()) => Progress::Closed(self.stored as u64),
                Err(refusal) => Progress::Refused(refusal),
            };
        }
        self.progress
    }

    /// Line and column of the refusal's place in the raw text, which the intake alone has seen whole.
    pub fn refused_at(&self) -> Option<Position> {
        match self.progress {
            Progress::Refused(Refusal { number: COMMENT_NOT_CLOSED, .. }) => Some(self.opened),
            Progress::Refused(_) => Some(self.next),
            Progress::Open | Progress::Closed(_) => None,
        }
    }

    fn chunk(&mut self, chunk: &[u8], store: &mut [u8]) -> Answer<()> {
        let mut added = Vec::new();
        for &byte in chunk {
            if self.taken == MAX_RAW {
                return Err(Refusal::new(TEXT_TOO_LONG, self.taken));
            }
            if !is_allowed(byte) {
                return Err(Refusal::new(BYTE_NOT_ALLOWED, self.taken));
            }
            let before = added.len();
            self.byte(byte, &mut added);
            if added.len() > before {
                self.accept(&added, store)?;
            }
            self.taken += 1;
            self.next = self.next.past(&[byte]);
        }
        self.write(&added, store);
        Ok(())
    }

    fn end(&mut self, store: &mut [u8]) -> Answer<()> {
        if let Within::Comment { open, .. } = self.within {
            return Err(Refusal::new(COMMENT_NOT_CLOSED, open));
        }
        let mut added = Vec::new();
        self.add_waiting(&mut added);
        if !added.is_empty() {
            self.accept(&added, store)?;
        }
        self.write(&added, store);
        Ok(())
    }

    /// One byte of the raw text; what it adds to the store goes behind `added`.
    fn byte(&mut self, byte: u8, added: &mut Vec<u8>) {
        match (self.within, byte) {
            (Within::Line, b'\n') => self.join(byte, Within::Tokens),
            (Within::Line, _) => {}
            (Within::Comment { star: true, .. }, b'/') => self.within = Within::Tokens,
            (Within::Comment { open, .. }, _) => self.join(byte, Within::Comment { open, star: byte == b'*' }),
            (Within::Slash, b'/') => self.join(byte, Within::Line),
            (Within::Slash, b'*') => {
                self.opened = Position { column: self.next.column - 1, ..self.next };
                self.join(byte, Within::Comment { open: self.taken - 1, star: false });
            }
            (Within::Tokens, b'/') => self.within = Within::Slash,
            (Within::Tokens, _) if is_blank(byte) => self.join(byte, Within::Tokens),
            // The run is over, or no comment opens.
            (Within::Tokens, _) => {
                self.add_waiting(added);
                added.push(byte);
            }
            (Within::Slash, _) => {
                self.add_waiting(added);
                self.byte(byte, added);
            }
        }
    }

    /// The byte is one of a run, and a LF makes the whole run's mark a LF.
    fn join(&mut self, byte: u8, within: Within) {
        if byte == b'\n' {
            self.mark = Some(b'\n');
        }
        self.mark = self.mark.or(Some(b' '));
        self.within = within;
    }

    /// A run's mark comes before the `/` behind it.
    fn add_waiting(&mut self, added: &mut Vec<u8>) {
        added.extend(self.mark.take());
        if self.within == Within::Slash {
            added.push(b'/');
        }
        self.within = Within::Tokens;
    }

    /// The last raw byte, or the close, is refused where the store lacks room for what was added.
    fn accept(&self, added: &[u8], store: &[u8]) -> Answer<()> {
        if self.stored + added.len() > store.len().min(MAX_TEXT) {
            return Err(Refusal::new(STORE_TOO_SHORT, self.taken));
        }
        Ok(())
    }

    fn write(&mut self, added: &[u8], store: &mut [u8]) {
        if !added.is_empty() {
            store[self.stored..][..added.len()].copy_from_slice(added);
        }
        self.stored += added.len();
    }
}
