//! window FILE: the names of a STIL text, five rows from the middle of its run and a waveform; or why the text is
//! refused, and where.

use std::ffi::{OsStr, OsString};
use std::fs::File;
use std::io::{self, Read, Write};
use std::process::ExitCode;
use stil::{Kind, Position, Refused, Text, ROW_MOST, TEXT_MOST};

const ROWS: usize = 5;
const BESIDE: usize = 36;

/// The mark for an unassigned pin, as in filed listings.
const UNASSIGNED: u8 = b'.';

/// A page that is written at the end, so that a refused text has nothing but its refusal there.
type Page = Vec<u8>;

/// One byte more than a text may have is read: a longer file is refused, and not cut.
fn read_text(path: &OsStr) -> io::Result<Vec<u8>> {
    let mut text = Vec::new();
    File::open(path)?.take(TEXT_MOST as u64 + 1).read_to_end(&mut text)?;
    Ok(text)
}

// ---- a refusal, with the part of its line that stands beside its place

fn shown(byte: &u8) -> u8 {
    match byte {
        b'\t' | b'\r' => b' ',
        32..=126 => *byte,
        _ => b'?',
    }
}

/// How many bytes are underlined: the token at the place, as far as it is shown, or 1 where there is none.
fn marked(text: Text, place: usize) -> usize {
    match text.token(place as u64) {
        Ok(Some(token)) if token.place == place => token.length.min(BESIDE),
        _ => 1,
    }
}

fn refusal(text: Text, refused: Refused) -> Page {
    let place = refused.place;
    let Position { line, column } = text.position(place as u64);
    let from = place - (column - 1).min(BESIDE);
    let right = text.0[place..].iter().take(BESIDE).take_while(|&&byte| byte != b'\n').count();

    let mut page =
        format!("REFUSED {} AT {place} LINE {line} COLUMN {column}: {}\n", refused.refusal as u8, refused.refusal).into_bytes();
    page.extend(text.0[from..place + right].iter().map(shown));
    page.push(b'\n');
    page.resize(page.len() + place - from, b' ');
    page.resize(page.len() + marked(text, place), b'^');
    page.push(b'\n');
    page
}

// ---- what an accepted text holds

fn names(text: Text, kind: Kind, count: u64, page: &mut Page) -> Result<(), Refused> {
    for number in 0..count {
        page.extend(text.name(kind, number)?);
        page.push(b'\n');
    }
    Ok(())
}

fn waveform(text: Text, table: u64, signal: u64, character: u8, page: &mut Page) -> Result<(), Refused> {
    let events = text.waveform(table, signal, character)?;
    page.extend(b"WAVEFORM ");
    page.extend(text.name(Kind::Table, table)?);
    page.push(b' ');
    page.extend(text.name(Kind::Signal, signal)?);
    page.extend(format!(" {}\nEVENTS {}\n", character as char, events.len()).bytes());
    for event in events {
        page.extend(format!("{} {}\n", event.time, event.letter as char).bytes());
    }
    Ok(())
}

/// The waveform of the last signal that has a character in a row, if there is one.
fn waveform_in(text: Text, row: &[u8], signals: usize, page: &mut Page) -> Result<(), Refused> {
    match row[..signals].iter().rposition(|&character| character != UNASSIGNED) {
        Some(signal) => waveform(text, (row[signals] - b'0') as u64, signal as u64, row[signal], page),
        None => Ok(()),
    }
}

fn middle(text: Text, signals: usize, cycles: u64, page: &mut Page) -> Result<(), Refused> {
    let mut rows = [0; ROWS * ROW_MOST];
    let first = cycles.saturating_sub(ROWS as u64) / 2;
    let window = text.window(first, ROWS as u64, UNASSIGNED, &mut rows)?;
    page.extend(format!("CYCLES {cycles}\nROWS {} FROM {first}\n", window.rows).bytes());
    page.extend(&rows[..window.rows as usize * (signals + 2)]);
    page.extend(format!("VISITS {}\n", window.visits).bytes());
    match window.rows {
        0 => Ok(()),
        _ => waveform_in(text, &rows, signals, page),
    }
}

fn listing(text: Text) -> Result<Page, Refused> {
    let counts = text.check()?;
    let mut page = format!("SIGNALS {}\n", counts.signals).into_bytes();
    names(text, Kind::Signal, counts.signals, &mut page)?;
    page.extend(format!("TABLES {}\n", counts.tables).bytes());
    names(text, Kind::Table, counts.tables, &mut page)?;
    middle(text, counts.signals as usize, counts.cycles, &mut page)?;
    Ok(page)
}

fn run(words: &[OsString]) -> Result<(), String> {
    let path = match words {
        [path] => path,
        _ => return Err("window FILE: one file is wanted".into()),
    };
    let bytes = read_text(path).map_err(|_| format!("{} cannot be read", path.to_string_lossy()))?;
    let text = Text(&bytes);
    let page = listing(text).unwrap_or_else(|refused| refusal(text, refused));
    let mut out = io::stdout();
    out.write_all(&page).and_then(|()| out.flush()).map_err(|_| "standard output cannot be written".into())
}

fn main() -> ExitCode {
    let words: Vec<_> = std::env::args_os().skip(1).collect();
    match run(&words) {
        Ok(()) => ExitCode::SUCCESS,
        Err(fault) => {
            eprintln!("{fault}");
            ExitCode::from(2)
        }
    }
}
