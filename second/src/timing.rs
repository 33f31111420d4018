//! Timing: tables, their waveform entries and which characters a signal has in which table.

use crate::bounds::*;
use crate::names::NameTable;
use crate::numbers::time;
use crate::reader::Reader;
use crate::refusal::*;
use crate::signals::{List, Pins};
use crate::tokens::Token;

/// Word bytes are ASCII, so a signal's characters fit a row of 128.
const BYTES: usize = 128;

/// Which waveform is asked for.
#[derive(Clone, Copy, Debug)]
pub struct Asked {
    pub table: u64,
    pub signal: u64,
    pub character: u8,
}

struct Entry {
    table: u8,
    list: List,
    chars: Token,
    first_event: u32,
    events: u32,
}

struct Event {
    time: i64,
    first_letter: u32,
    letters: u32,
}

impl Event {
    /// One letter stands for all characters, else the i-th for the i-th.
    fn letter<'l>(&self, letters: &'l [u8], character: usize) -> &'l u8 {
        let which = if self.letters == 1 { 0 } else { character };
        &letters[self.first_letter as usize + which]
    }
}

/// The times of the first and the last event of a waveform, of its compare events and of its drive events.
pub type Reach = [Option<(i64, i64)>; 2];

/// A waveform by its reach alone.
pub struct Shape<'d> {
    pub table: u8,
    pub pins: &'d [u8],
    pub character: u8,
    pub reach: Reach,
}

pub struct Timing {
    pub names: NameTable,
    pub periods: Vec<u64>,
    entries: Vec<Entry>,
    events: Vec<Event>,
    letters: Vec<u8>,
    /// For each signal and byte, a bit for each table where it lacks a waveform.
    lacks: Vec<u8>,
}

impl Timing {
    fn new(signals: usize) -> Timing {
        Timing {
            names: NameTable::new(),
            periods: Vec::new(),
            entries: Vec::new(),
            events: Vec::new(),
            letters: Vec::new(),
            lacks: vec![0xff; signals * BYTES],
        }
    }

    /// The tables, one bit each, where this character of the signal has no waveform.
    pub fn lacks(&self, pin: u8, character: u8) -> u8 {
        self.lacks[pin as usize * BYTES + character as usize % BYTES]
    }

    /// Times and letters of one waveform's events, as written.
    pub fn waveform(&self, text: &[u8], pins: &Pins, asked: Asked) -> Option<Vec<(i64, u8)>> {
        let Asked { table, signal, character } = asked;
        let within = table < self.names.count() as u64 && signal < pins.signals as u64;
        if !within || !character.is_ascii() || self.lacks(signal as u8, character) >> table & 1 == 1 {
            return None;
        }
        for entry in self.entries.iter().filter(|entry| u64::from(entry.table) == table) {
            if !pins.members(entry.list).contains(&(signal as u8)) {
                continue;
            }
            if let Some(which) = entry.chars.bytes(text).iter().position(|&byte| byte == character) {
                return Some(self.events_of(entry, which));
            }
        }
        None
    }

    fn events_of(&self, entry: &Entry, which: usize) -> Vec<(i64, u8)> {
        let events = &self.events[entry.first_event as usize..][..entry.events as usize];
        events.iter().map(|event| (event.time, *event.letter(&self.letters, which))).collect()
    }

    /// All waveforms, each with the signals that it is of.
    pub fn shapes<'d>(&'d self, text: &'d [u8], pins: &'d Pins) -> impl Iterator<Item = Shape<'d>> {
        self.entries.iter().flat_map(move |entry| {
            let shape = move |(which, &character): (usize, &u8)| {
                let (table, pins, mut reach) = (entry.table, pins.members(entry.list), Reach::default());
                for (time, letter) in self.events_of(entry, which) {
                    let first = reach[usize::from(is_drive(letter))].map_or(time, |(first, _)| first);
                    reach[usize::from(is_drive(letter))] = Some((first, time));
                }
                Shape { table, pins, character, reach }
            };
            entry.chars.bytes(text).iter().enumerate().map(shape)
        })
    }
}

pub fn read(reader: &mut Reader, pins: &Pins) -> Answer<Timing> {
    let mut timing = Timing::new(pins.signals);
    reader.fixed(b"Timing")?;
    reader.byte(b'{')?;
    while timing.periods.is_empty() || !reader.is(b'}') {
        table(reader, pins, &mut timing)?;
    }
    reader.take();
    // A table that is not there lacks nothing: most characters then lack nothing at all.
    let there = (0xff_u16 >> (MAX_TABLES - timing.periods.len())) as u8;
    timing.lacks.iter_mut().for_each(|tables| *tables &= there);
    Ok(timing)
}

fn table(reader: &mut Reader, pins: &Pins, timing: &mut Timing) -> Answer<()> {
    let word = reader.fixed(b"WaveformTable")?;
    if timing.periods.len() == MAX_TABLES {
        return Err(word.refuse(ONE_TOO_MANY));
    }
    let name = reader.new_name(&timing.names, false)?;
    timing.names.add(reader.text, name);
    reader.byte(b'{')?;
    reader.fixed(b"Period")?;
    timing.periods.push(period(reader)?);
    reader.byte(b';')?;
    reader.fixed(b"Waveforms")?;
    reader.byte(b'{')?;
    while !reader.is(b'}') {
        let (name, _) = reader.known(&pins.names)?;
        reader.byte(b'{')?;
        while !reader.is(b'}') {
            entry(reader, pins, pins.list(name), timing)?;
        }
        reader.take();
    }
    reader.bytes(b"}}")
}

fn period(reader: &mut Reader) -> Answer<u64> {
    reader.byte(b'\'')?;
    let value = reader.number(time, 1, MAX_PERIOD)?;
    reader.byte(b'\'')?;
    Ok(value)
}

/// A sign stands in an event's time alone, before its word.
fn event_time(reader: &mut Reader) -> Answer<i64> {
    reader.byte(b'\'')?;
    let before = reader.is(b'-');
    if before {
        reader.take();
    }
    let value = reader.number(time, 0, MAX_TIME)? as i64;
    reader.byte(b'\'')?;
    Ok(if before { -value } else { value })
}

fn entry(reader: &mut Reader, pins: &Pins, list: List, timing: &mut Timing) -> Answer<()> {
    let chars = reader.any_word()?;
    let table = timing.periods.len() as u8 - 1;
    claim_chars(chars, chars.bytes(reader.text), pins.members(list), table, timing)?;
    reader.byte(b'{')?;
    let first_event = timing.events.len();
    let mut last_times = [[None; 2]; MAX_CHARS];
    let mut events = 0;
    while events == 0 || !reader.is(b'}') {
        if events == MAX_EVENTS && reader.is(b'\'') {
            return Err(reader.refuse(ONE_TOO_MANY));
        }
        event(reader, &mut last_times[..chars.length as usize], timing)?;
        events += 1;
    }
    reader.take();
    timing.entries.push(Entry { table, list, chars, first_event: first_event as u32, events: events as u32 });
    Ok(())
}

/// On the CHARS word 8, then 11, then 12; then its characters are the signals' own in this table.
fn claim_chars(word: Token, chars: &[u8], members: &[u8], table: u8, timing: &mut Timing) -> Answer<()> {
    if chars.len() > MAX_CHARS {
        return Err(word.refuse(ONE_TOO_MANY));
    }
    let twice = (1..chars.len()).any(|at| chars[..at].contains(&chars[at]));
    let lacking = |pin: &u8| chars.iter().all(|&byte| timing.lacks(*pin, byte) >> table & 1 == 1);
    if twice || !members.iter().all(lacking) {
        return Err(word.refuse(BAD_WAVEFORM));
    }
    if !chars.iter().all(u8::is_ascii_alphanumeric) {
        return Err(word.refuse(BAD_DATA));
    }
    for &pin in members {
        for &byte in chars {
            timing.lacks[pin as usize * BYTES + byte as usize] &= !(1 << table);
        }
    }
    Ok(())
}

/// One `'T' E;`. Each character keeps the last time of its drive and of its compare events.
fn event(reader: &mut Reader, last_times: &mut [[Option<i64>; 2]], timing: &mut Timing) -> Answer<()> {
    let time = event_time(reader)?;
    let first_letter = timing.letters.len();
    timing.letters.push(event_letter(reader)?);
    while reader.is(b'/') {
        reader.take();
        timing.letters.push(event_letter(reader)?);
    }
    let close = reader.byte(b';')?;
    let letters = timing.letters.len() - first_letter;
    if letters != 1 && letters != last_times.len() {
        return Err(close.refuse(BAD_WAVEFORM));
    }
    let event = Event { time, first_letter: first_letter as u32, letters: letters as u32 };
    for (character, last) in last_times.iter_mut().enumerate() {
        let last = &mut last[usize::from(is_drive(*event.letter(&timing.letters, character)))];
        if last.map_or(false, |last| last >= time) {
            return Err(close.refuse(BAD_WAVEFORM));
        }
        *last = Some(time);
    }
    timing.events.push(event);
    Ok(())
}

fn event_letter(reader: &mut Reader) -> Answer<u8> {
    match *reader.word() {
        [letter] if is_drive(letter) || is_compare(letter) => {
            reader.take();
            Ok(letter)
        }
        _ => Err(reader.refuse(TOKEN_NOT_ALLOWED)),
    }
}

fn is_drive(letter: u8) -> bool {
    matches!(letter, b'D' | b'U' | b'Z' | b'P')
}

fn is_compare(letter: u8) -> bool {
    matches!(letter, b'L' | b'H' | b'X' | b'T' | b'l' | b'h' | b'x')
}
