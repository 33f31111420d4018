//! Exactly one call of one reader, in a function of its own, so that what it costs can be counted.

use crate::call::Call;
use crate::check::Check;
use crate::fold::Fold;
use crate::index::{Given, Holds, Index};
use crate::lent::Slices;
use crate::line::Line;
use crate::name::Name;
use crate::number;
use crate::proved::Proved;
use crate::reader::{line_of, save_in, token_at, Reader, Second};
use crate::report::Report;
use crate::save::Save;
use crate::tally::say;
use crate::token::Token;
use crate::waveform::Waveform;
use crate::waveforms::Waveforms;
use second::bounds::{MAX_INDEX, MAX_TEXT};
use second::timing::Asked;
use second::waveforms::ASKED;
use second::DOT;
use std::process::ExitCode;

/// The second reader, which reads its text here at each call, as the proved one does.
struct Anew<'t>(&'t [u8]);

impl Reader for Anew<'_> {
    fn check(&self, numbers: &mut [u64]) -> u64 {
        Second::new(self.0).check(numbers)
    }

    fn name(&self, table: u8, number: u64, numbers: &mut [u64]) -> u64 {
        Second::new(self.0).name(table, number, numbers)
    }

    fn waveform(&self, asked: Asked, times: &mut [u64], letters: &mut [u8], count: &mut [u64]) -> u64 {
        Second::new(self.0).waveform(asked, times, letters, count)
    }

    fn waveforms(&self, list: &[u64], lent: Slices) -> u64 {
        Second::new(self.0).waveforms(list, lent)
    }

    fn window(&self, first: u64, wanted: u64, mark: u8, rows: &mut [u8], numbers: &mut [u64]) -> u64 {
        Second::new(self.0).window(first, wanted, mark, rows, numbers)
    }

    fn token(&self, at: u64, numbers: &mut [u64]) -> u64 {
        token_at(self.0, at, numbers)
    }

    fn line(&self, place: u64, numbers: &mut [u64]) -> u64 {
        line_of(self.0, place, numbers)
    }

    fn index(&self, index: &mut [u8], numbers: &mut [u64]) -> u64 {
        Second::new(self.0).index(index, numbers)
    }

    fn belongs(&self, index: &[u8]) -> u64 {
        Second::new(self.0).belongs(index)
    }

    fn holds(&self, index: &[u8], cycle: u64, numbers: &mut [u64]) -> u64 {
        Second::new(self.0).holds(index, cycle, numbers)
    }

    fn save(&self, text: &mut [u8], spans: &mut [u64], numbers: &mut [u64]) -> u64 {
        save_in(text, spans, numbers)
    }

    fn fold(&self, folded: &mut [u8], numbers: &mut [u64]) -> u64 {
        Second::new(self.0).fold(folded, numbers)
    }

    fn report(&self, report: &[u8], lent: Slices) -> u64 {
        Second::new(self.0).report(report, lent)
    }
}

/// What is counted.
#[inline(never)]
#[no_mangle]
fn measured_call(of_second: bool, text: &[u8], call: &dyn Call, lent: Slices) -> u64 {
    if of_second {
        call.make(&Anew(text), lent)
    } else {
        call.make(&Proved(text), lent)
    }
}

pub fn one(service: &str, reader: &str, file: &str, numbers: &[&str]) -> Result<ExitCode, String> {
    let of_second = match reader {
        "proved" => false,
        "second" => true,
        _ => return Err(format!("neither proved nor second: {reader}")),
    };
    let text = read(file)?;
    let call = call_of(service, &text, numbers)?;
    let mut lent = call.lend();
    let answer = measured_call(of_second, &text, &*call, lent.slices());
    let digest = lent.digest();
    println!("{}; numbers {:?}; all lent {digest:016x}", say(answer), lent.slices().numbers);
    Ok(ExitCode::SUCCESS)
}

fn call_of<'t>(service: &str, text: &'t [u8], numbers: &[&str]) -> Result<Box<dyn Call + 't>, String> {
    match (service, numbers) {
        ("check", []) => Ok(Box::new(Check { room: Check::DUE })),
        ("name", [declared, which]) => {
            let table = match *declared {
                "signal" => 0,
                "table" => 1,
                _ => return Err(format!("neither signal nor table: {declared}")),
            };
            Ok(Box::new(Name { table, number: number(which)?, room: Name::DUE }))
        }
        ("waveform", [table, signal, character]) => Ok(Box::new(Waveform::with_room(asked(table, signal, character)?))),
        ("waveforms", list) if list.len() % ASKED == 0 => waveforms(list),
        ("window", [first, wanted]) => window(text, number(first)?, number(wanted)?),
        ("token", [at]) => Ok(Box::new(Token::with_room(number(at)?))),
        ("line", [place]) => Ok(Box::new(Line::with_room(number(place)?))),
        ("index", []) => Ok(Box::new(Index { bytes: MAX_INDEX, room: Index::DUE })),
        ("fold", []) => Ok(Box::new(Fold { bytes: MAX_TEXT, room: Fold::DUE })),
        ("save", []) => Ok(Box::new(Save::with_room(text))),
        ("holds", [index, cycle]) => holds(index, number(cycle)?),
        ("report", [report]) => Ok(Box::new(Report::with_room(read(report)?))),
        _ => Err(format!("no such service, or not its numbers: {service} {}", numbers.join(" "))),
    }
}

fn read(file: &str) -> Result<Vec<u8>, String> {
    std::fs::read(file).map_err(|error| format!("{file}: {error}"))
}

fn asked(table: &str, signal: &str, character: &str) -> Result<Asked, String> {
    let character = *character.as_bytes().first().unwrap_or(&0);
    Ok(Asked { table: number(table)?, signal: number(signal)?, character })
}

fn waveforms(words: &[&str]) -> Result<Box<dyn Call>, String> {
    let mut list = Vec::new();
    for words in words.chunks(ASKED) {
        let Asked { table, signal, character } = asked(words[0], words[1], words[2])?;
        list.extend([table, signal, character.into()]);
    }
    Ok(Box::new(Waveforms::with_room(list)))
}

fn holds(file: &str, cycle: u64) -> Result<Box<dyn Call>, String> {
    Ok(Box::new(Holds { index: Given(read(file)?), cycle, room: Holds::DUE }))
}

fn window(text: &[u8], first: u64, wanted: u64) -> Result<Box<dyn Call>, String> {
    use crate::window::Window;
    let due = second::check(text).map_or(0, |sum| wanted.min(sum.cycles.saturating_sub(first)) * (sum.signals + 2));
    if due > 1 << 30 {
        return Err(format!("too many rows to be lent room for: {wanted}"));
    }
    Ok(Box::new(Window { first, wanted, mark: DOT, rows: due as usize, room: Window::DUE }))
}
