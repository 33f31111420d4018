//! Signals, and the name space they share with groups.

use crate::bounds::MAX_SIGNALS;
use crate::hex::Based;
use crate::names::NameTable;
use crate::pinset::PinSet;
use crate::reader::Reader;
use crate::refusal::*;
use crate::tokens::Token;

/// Where a name's ordered signals stand in `Pins`.
#[derive(Clone, Copy, Debug)]
pub struct List {
    start: u32,
    pub length: u32,
}

/// Signals (numbered first) and groups: each name with its ordered list and the same as a set.
pub struct Pins {
    pub names: NameTable,
    pub signals: usize,
    members: Vec<u8>,
    lists: Vec<(List, PinSet)>,
    /// The base of each name that has one.
    based: Vec<Option<Based>>,
}

impl Pins {
    pub fn declare(&mut self, text: &[u8], name: Token, members: &[u8], based: Option<Based>) {
        let mut set = PinSet::EMPTY;
        members.iter().for_each(|&pin| set.insert(pin));
        let list = List { start: self.members.len() as u32, length: members.len() as u32 };
        self.members.extend_from_slice(members);
        self.lists.push((list, set));
        self.based.push(based);
        self.names.add(text, name);
    }

    pub fn list(&self, name: usize) -> List {
        self.lists[name].0
    }

    pub fn set(&self, name: usize) -> &PinSet {
        &self.lists[name].1
    }

    pub fn based(&self, name: usize) -> Option<Based> {
        self.based[name]
    }

    pub fn members(&self, list: List) -> &[u8] {
        &self.members[list.start as usize..(list.start + list.length) as usize]
    }
}

pub fn read(reader: &mut Reader) -> Answer<Pins> {
    let mut pins =
        Pins { names: NameTable::new(), signals: 0, members: Vec::new(), lists: Vec::new(), based: Vec::new() };
    reader.fixed(b"Signals")?;
    reader.byte(b'{')?;
    while pins.signals == 0 || !reader.is(b'}') {
        let name = reader.new_name(&pins.names, pins.signals == MAX_SIGNALS)?;
        if !matches!(reader.word(), b"In" | b"Out" | b"InOut") {
            return Err(reader.refuse(TOKEN_NOT_ALLOWED));
        }
        reader.take();
        reader.byte(b';')?;
        pins.declare(reader.text, name, &[pins.signals as u8], None);
        pins.signals += 1;
    }
    reader.take();
    Ok(pins)
}
