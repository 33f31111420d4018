//! SignalGroups and their expressions.

use crate::bounds::{MAX_BRACKETS, MAX_GROUPS, MAX_SIGNALS};
use crate::hex;
use crate::pinset::PinSet;
use crate::reader::Reader;
use crate::refusal::*;
use crate::requests::HEX;
use crate::signals::Pins;
use crate::tokens::Token;

/// What an expression means so far: signals in order, none twice.
struct Ordered {
    pins: [u8; MAX_SIGNALS],
    length: usize,
    set: PinSet,
}

impl Ordered {
    const EMPTY: Ordered = Ordered { pins: [0; MAX_SIGNALS], length: 0, set: PinSet::EMPTY };

    fn members(&self) -> &[u8] {
        &self.pins[..self.length]
    }

    /// False if one of them is already there.
    fn append(&mut self, term: &[u8], set: &PinSet) -> bool {
        if self.set.meets(set) {
            return false;
        }
        self.pins[self.length..self.length + term.len()].copy_from_slice(term);
        self.length += term.len();
        self.set.add(set);
        true
    }

    /// False if one of them is absent.
    fn remove(&mut self, set: &PinSet) -> bool {
        if !self.set.holds(set) {
            return false;
        }
        let mut kept = 0;
        for at in 0..self.length {
            let pin = self.pins[at];
            self.pins[kept] = pin;
            kept += usize::from(!set.contains(pin));
        }
        self.length = kept;
        self.set.drop(set);
        true
    }

    fn join(&mut self, adding: bool, term: &[u8], set: &PinSet) -> bool {
        if adding {
            self.append(term, set)
        } else {
            self.remove(set)
        }
    }
}

pub fn read(reader: &mut Reader, pins: &mut Pins) -> Answer<()> {
    reader.fixed(b"SignalGroups")?;
    reader.byte(b'{')?;
    while !reader.is(b'}') {
        let full = pins.names.count() == pins.signals + MAX_GROUPS;
        let name = reader.new_name(&pins.names, full)?;
        reader.bytes(b"='")?;
        let whole = expression(reader, pins, 0)?;
        let quote = reader.byte(b'\'')?;
        if whole.length == 0 {
            return Err(quote.refuse(BAD_GROUP));
        }
        let mut based = None;
        if HEX && reader.is(b'{') {
            based = Some(hex::read(reader, whole.length)?);
        } else {
            reader.byte(b';')?;
        }
        pins.declare(reader.text, name, whole.members(), based);
    }
    reader.take();
    Ok(())
}

fn expression(reader: &mut Reader, pins: &Pins, depth: usize) -> Answer<Ordered> {
    let mut whole = Ordered::EMPTY;
    let mut adding = true;
    loop {
        let last = term(reader, pins, depth, &mut whole, adding)?;
        if let Some(last) = last {
            return Err(last.refuse(BAD_GROUP));
        }
        adding = match reader.peek().first {
            b'+' => true,
            b'-' => false,
            _ => return Ok(whole),
        };
        reader.take();
    }
}

/// Joins one term to the whole; gives its last token if it does not fit there.
fn term(reader: &mut Reader, pins: &Pins, depth: usize, whole: &mut Ordered, adding: bool) -> Answer<Option<Token>> {
    let (fits, last) = if reader.is(b'(') {
        if depth == MAX_BRACKETS {
            return Err(reader.refuse(ONE_TOO_MANY));
        }
        reader.take();
        let inner = expression(reader, pins, depth + 1)?;
        let close = reader.byte(b')')?;
        (whole.join(adding, inner.members(), &inner.set), close)
    } else {
        let (name, token) = reader.known(&pins.names)?;
        (whole.join(adding, pins.members(pins.list(name)), pins.set(name)), token)
    };
    Ok(if fits { None } else { Some(last) })
}
