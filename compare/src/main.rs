//! `compare FIRST COUNT`: both readers, all services, on COUNT seeded texts from seed FIRST on and on those without a seed;
//! every difference is printed, then a line for each service.
//! `compare one SERVICE READER FILE ..`: one call of one reader, to be measured.

mod call;
mod check;
mod comparison;
mod fold;
mod index;
mod intake;
mod lent;
mod line;
mod name;
mod one;
mod proved;
#[path = "../../examples/rust/src/raw.rs"]
mod raw;
mod reader;
mod report;
mod save;
#[cfg(test)]
mod slips;
mod special;
mod tally;
mod texts;
mod token;
mod waveform;
mod waveforms;
mod window;

use std::process::ExitCode;

const USAGE: &str = "compare FIRST COUNT
compare one check READER FILE
compare one name READER FILE signal|table N
compare one waveform READER FILE TABLE SIGNAL CHARACTER
compare one waveforms READER FILE [TABLE SIGNAL CHARACTER]..
compare one window READER FILE FIRST WANTED
compare one token READER FILE AT
compare one line READER FILE PLACE
compare one index READER FILE
compare one holds READER FILE INDEXFILE N
compare one save READER FILE
compare one fold READER FILE
compare one report READER FILE REPORTFILE";

fn main() -> ExitCode {
    let words: Vec<String> = std::env::args().skip(1).collect();
    let words: Vec<&str> = words.iter().map(String::as_str).collect();
    let done = match *words {
        ["one", service, reader, file, ref numbers @ ..] => one::one(service, reader, file, numbers),
        [first, count] => compare(first, count),
        _ => Err(USAGE.into()),
    };
    done.unwrap_or_else(|line| {
        eprintln!("{line}");
        ExitCode::from(2)
    })
}

fn number(word: &str) -> Result<u64, String> {
    word.parse().map_err(|_| format!("not a number: {word}"))
}

fn compare(first: &str, count: &str) -> Result<ExitCode, String> {
    let (first, count) = (number(first)?, number(count)?);
    let mut comparison = comparison::Comparison::new();
    texts::fixed(&mut comparison);
    (first..first.saturating_add(count)).for_each(|seed| texts::seeded(seed, &mut comparison));
    print!("{}", comparison.lines());
    Ok(ExitCode::from(u8::from(comparison.differs())))
}
