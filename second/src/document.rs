//! The whole text: its blocks in order, then the run they make.

use crate::bodies::{body, Bodies, Body};
use crate::bounds::*;
use crate::names::NameTable;
use crate::reader::Reader;
use crate::refusal::*;
use crate::signals::{self, Pins};
use crate::statements::{Extent, Program};
use crate::timing::{self, Timing};
use crate::tokens::Token;
use crate::{across, groups, run};

/// An accepted text.
pub struct Document<'t> {
    pub text: &'t [u8],
    pub pins: Pins,
    pub timing: Timing,
    pub bodies: Bodies,
    pub program: Program,
    pub patterns: Vec<Body>,
    /// One for each pattern.
    pub headings: Vec<Heading>,
    /// The listed patterns in order.
    pub run: Vec<usize>,
    pub extent: Extent,
}

/// The word Pattern and the pattern's name.
pub struct Heading {
    pub keyword: Token,
    pub name: Token,
}

impl<'t> Document<'t> {
    /// Accepts the text, or refuses it with 1 to 17 or 25.
    pub fn read(text: &'t [u8]) -> Answer<Document<'t>> {
        let document = Document::read_unplayed(text)?;
        run::check_cycles(&document)?;
        across::check_edges(&document)?;
        Ok(document)
    }

    /// All but the playing: refuses with 1 to 16.
    pub fn read_unplayed(text: &'t [u8]) -> Answer<Document<'t>> {
        let mut reader = Reader::new(text)?;
        let reader = &mut reader;
        version(reader)?;
        let mut pins = signals::read(reader)?;
        if reader.is_fixed(b"SignalGroups") {
            groups::read(reader, &mut pins)?;
        }
        let timing = timing::read(reader, &pins)?;
        let mut program = Program::default();
        let bodies = Bodies::read(reader, &pins, &timing, &mut program)?;
        let (mut names, listed) = burst(reader)?;
        exec(reader, &names)?;
        let (mut patterns, mut headings) = (Vec::new(), Vec::new());
        while patterns.is_empty() || !reader.at_end() {
            let heading = heading(reader, &names, patterns.len())?;
            names.add(text, heading.name);
            patterns.push(body(reader, &pins, &timing, &bodies, &mut program, Some(&mut names))?);
            headings.push(heading);
        }
        let run = run_of(text, &headings, &listed)?;
        let extent = extent_of(&run, &patterns)?;
        Ok(Document { text, pins, timing, bodies, program, patterns, headings, run, extent })
    }

    /// The bytes of one row: a character for each signal, the table's digit, LF.
    pub fn row_width(&self) -> usize {
        self.pins.signals + 2
    }
}

fn version(reader: &mut Reader) -> Answer<()> {
    reader.fixed(b"STIL")?;
    reader.fixed(b"1.0")?;
    reader.bytes(b";")
}

/// PatternBurst: its name begins the name space of the patterns, whose names in the list are judged later.
fn burst(reader: &mut Reader) -> Answer<(NameTable, Vec<Token>)> {
    let mut names = NameTable::new();
    let mut listed = Vec::new();
    reader.fixed(b"PatternBurst")?;
    let name = reader.name()?;
    names.add(reader.text, name);
    reader.byte(b'{')?;
    reader.fixed(b"PatList")?;
    reader.byte(b'{')?;
    while !reader.is(b'}') {
        let entry = reader.name()?;
        if listed.len() == MAX_LISTED {
            return Err(entry.refuse(ONE_TOO_MANY));
        }
        reader.byte(b';')?;
        listed.push(entry);
    }
    reader.bytes(b"}}")?;
    Ok((names, listed))
}

fn exec(reader: &mut Reader, names: &NameTable) -> Answer<()> {
    reader.fixed(b"PatternExec")?;
    reader.byte(b'{')?;
    reader.fixed(b"PatternBurst")?;
    reader.known(names)?;
    reader.bytes(b";}")
}

fn heading(reader: &mut Reader, names: &NameTable, patterns: usize) -> Answer<Heading> {
    let keyword = reader.fixed(b"Pattern")?;
    if patterns == MAX_PATTERNS {
        return Err(keyword.refuse(ONE_TOO_MANY));
    }
    let name = reader.new_name(names, false)?;
    Ok(Heading { keyword, name })
}

/// The name space is also the burst's and that of X names, which are no patterns.
fn run_of(text: &[u8], headings: &[Heading], listed: &[Token]) -> Answer<Vec<usize>> {
    let pattern = |entry: &Token| {
        let pattern = headings.iter().position(|heading| heading.name.bytes(text) == entry.bytes(text));
        pattern.ok_or_else(|| entry.refuse(PATTERN_NOT_DEFINED))
    };
    listed.iter().map(pattern).collect()
}

fn extent_of(run: &[usize], patterns: &[Body]) -> Answer<Extent> {
    let mut sum = Extent::default();
    for &pattern in run {
        sum.add(Extent { size: 1, cycles: 0 });
        sum.add(patterns[pattern].extent);
    }
    if sum.size > MAX_SIZE || sum.cycles > MAX_CYCLES {
        return Err(Refusal::new(RUN_TOO_LARGE, 0));
    }
    Ok(sum)
}
