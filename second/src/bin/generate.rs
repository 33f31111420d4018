//! Writes generated texts: `generate SEED`, `generate KIND SEED` for one of `SEEDED`, `generate report SEED` for the text of `generate marked SEED`,
//! `generate DIR FIRST COUNT`, `generate big KIND`, `generate big KIND BYTES SIGNALS`, `generate run KIND SIGNALS`, `generate contrived KIND SIGNALS`.

use second::generate::random::Random;
use second::generate::{
    contrived, crossing, early, flat, hexed, hurt, large, marked, nested, report, run, sized, text, CONTRIVED_KINDS,
    LARGE_KINDS, RUN_KINDS, SIZED_KINDS,
};
use second::Document;
use std::io::{self, Write};
use std::path::Path;
use std::process::ExitCode;

fn main() -> ExitCode {
    let words: Vec<String> = std::env::args().skip(1).collect();
    let words: Vec<&str> = words.iter().map(String::as_str).collect();
    match answer(&words) {
        Ok(()) => ExitCode::SUCCESS,
        Err(line) => {
            eprintln!("{line}");
            ExitCode::from(2)
        }
    }
}

/// A text of a seed, of each kind that has seeds.
type Seeded = fn(u64) -> Vec<u8>;

const SEEDED: [(&str, Seeded); 7] = [
    ("nested", nested),
    ("hurt", hurt),
    ("flat", flat),
    ("crossing", crossing),
    ("early", early),
    ("hexed", hexed),
    ("marked", marked),
];

const USAGE: &str =
    "generate SEED | generate nested|hurt|flat|crossing|early|hexed|marked|report SEED | generate DIR FIRST COUNT
generate big KIND | generate big KIND BYTES SIGNALS | generate run KIND SIGNALS | generate contrived KIND SIGNALS";

fn answer(words: &[&str]) -> Result<(), String> {
    match *words {
        ["big", kind] => {
            let made =
                large(kind).ok_or_else(|| format!("no such kind: {kind}; there are {}", LARGE_KINDS.join(" ")))?;
            write_out(&made)
        }
        ["big", kind, bytes, signals] => {
            let made = sized(kind, number(bytes)? as usize, number(signals)? as usize);
            write_out(&made.ok_or_else(|| {
                format!("no such kind, or too few bytes or signals; kinds and least signals: {SIZED_KINDS:?}")
            })?)
        }
        ["run", kind, signals] => {
            let made = run(kind, number(signals)? as usize);
            write_out(&made.ok_or_else(|| format!("no such kind: {kind}; there are {}", RUN_KINDS.join(" ")))?)
        }
        ["contrived", kind, signals] => {
            let made = contrived(kind, number(signals)? as usize);
            write_out(&made.ok_or_else(|| {
                format!(
                    "no such kind, or not 2 to 64 signals (nested, tables, eight, crowd: 256); there are {}",
                    CONTRIVED_KINDS.join(" ")
                )
            })?)
        }
        ["report", seed] => {
            let text = marked(number(seed)?);
            write_out(&report(Document::read(&text).ok().as_ref(), &mut Random::new(number(seed)?)))
        }
        [kind, seed] => {
            let (_, seeded) = SEEDED.iter().find(|(name, _)| *name == kind).ok_or(USAGE)?;
            write_out(&seeded(number(seed)?))
        }
        [seed] => write_out(&text(number(seed)?)),
        [dir, first, count] => write_files(Path::new(dir), number(first)?, number(count)?),
        _ => Err(USAGE.into()),
    }
}

fn write_out(made: &[u8]) -> Result<(), String> {
    io::stdout().write_all(made).map_err(|error| error.to_string())
}

fn number(word: &str) -> Result<u64, String> {
    word.parse().map_err(|_| format!("not a number: {word}"))
}

fn write_files(dir: &Path, first: u64, count: u64) -> Result<(), String> {
    std::fs::create_dir_all(dir).map_err(|error| error.to_string())?;
    for seed in first..first.saturating_add(count) {
        let file = dir.join(format!("{seed}.stil"));
        std::fs::write(&file, text(seed)).map_err(|error| format!("{}: {error}", file.display()))?;
    }
    Ok(())
}
