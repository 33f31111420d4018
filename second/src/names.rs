//! What a name is, and one name space.

use crate::bounds::{MAX_GROUPS, MAX_NAME, MAX_SIGNALS};
use crate::tokens::Token;

/// Twice the names of the largest name space that has a bound, and more: a power of two.
const SLOTS: usize = (2 * (MAX_SIGNALS + MAX_GROUPS)).next_power_of_two();

pub fn is_name(word: &[u8]) -> bool {
    !word.is_empty()
        && word.len() <= MAX_NAME
        && !word[0].is_ascii_digit()
        && !word.contains(&b'.')
        && !is_reserved(word)
}

#[rustfmt::skip]
fn is_reserved(word: &[u8]) -> bool {
    matches!(word,
        b"STIL" | b"Signals" | b"SignalGroups" | b"Timing" | b"WaveformTable" | b"Period" | b"Waveforms"
        | b"Procedures" | b"MacroDefs" | b"PatternBurst" | b"PatList" | b"PatternExec" | b"Pattern"
        | b"In" | b"Out" | b"InOut" | b"V" | b"W" | b"C" | b"Call" | b"Macro" | b"Loop" | b"Shift" | b"X")
}

/// Names numbered in the order they were declared, found by a small hash table.
pub struct NameTable {
    names: Vec<Token>,
    slots: Vec<u16>,
}

impl NameTable {
    pub fn new() -> NameTable {
        NameTable { names: Vec::new(), slots: vec![0; SLOTS] }
    }

    pub fn count(&self) -> usize {
        self.names.len()
    }

    pub fn get(&self, index: usize) -> Option<Token> {
        self.names.get(index).copied()
    }

    pub fn find(&self, text: &[u8], word: &[u8]) -> Option<usize> {
        let mut slot = self.slot_of(word);
        loop {
            let index = (self.slots[slot] as usize).checked_sub(1)?;
            if self.names[index].bytes(text) == word {
                return Some(index);
            }
            slot = (slot + 1) % self.slots.len();
        }
    }

    /// The caller has looked that the name is new and within the space's bound, if it has one.
    pub fn add(&mut self, text: &[u8], name: Token) {
        self.names.push(name);
        if 2 * self.names.len() > self.slots.len() {
            self.slots = vec![0; 2 * self.slots.len()];
            (0..self.names.len()).for_each(|index| self.fill_slot(text, index));
        } else {
            self.fill_slot(text, self.names.len() - 1);
        }
    }

    fn fill_slot(&mut self, text: &[u8], index: usize) {
        let mut slot = self.slot_of(self.names[index].bytes(text));
        while self.slots[slot] != 0 {
            slot = (slot + 1) % self.slots.len();
        }
        // No text has room for as many names as a u16 counts.
        self.slots[slot] = index as u16 + 1;
    }

    fn slot_of(&self, word: &[u8]) -> usize {
        let mix = |hash: u32, &byte: &u8| (hash ^ u32::from(byte)).wrapping_mul(16_777_619);
        let hash = word.iter().take(MAX_NAME).fold(2_166_136_261, mix);
        (hash ^ (hash >> 16)) as usize % self.slots.len()
    }
}

impl Default for NameTable {
    fn default() -> NameTable {
        NameTable::new()
    }
}
