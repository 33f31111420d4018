//! The command lines of docs/COMMANDS.md.

use second::listing::refusal_line;
use second::refusal::Answer;
use second::report::{Fail, Refused};
use second::timing::Asked;
use second::tokens::next_token;
use second::{accept_mark, bounds, listing, Declared, Document, Refusal, MARK};
use std::ffi::{OsStr, OsString};
use std::fs::File;
use std::io::{self, BufWriter, Read, Write};
use std::os::unix::ffi::OsStrExt;
use std::process::ExitCode;

const HELP: &str = "\
check FILE..                          are these texts sound? a line for each, then how many
name FILE signal N                    the name of the signal of number N, and where it is declared
name FILE table N                     the same of a waveform table
window FILE FIRST COUNT [MARK]        the pins in COUNT cycles from cycle FIRST on; MARK, or ?, for no value
waveform FILE TABLE SIGNAL CHARACTER  the events of a character: times in ps, and letters
list FILE                             all signals, tables and cycles
index FILE                            the listed patterns, each with its first cycle and how many it has
holds FILE INDEXFILE N                which listed pattern holds cycle N, by an index that was kept
tokens FILE                           the words of the text, each with its place and length
intake FILE                           a long raw text without its comments
save FILE                             a hurt text with its damaged patterns made blank
fold FILE                             the text without macros, procedures and groups
report FILE REPORTFILE                the run's cycle and the signal of each offset of a fail report
help                                  these lines
Numbers count from 0. REFUSED n AT p: n says what is wrong, as docs/COMMANDS.md tells, and p is the byte where.
";

/// Rows written at a time, so that no count asked for needs more memory.
const ROWS_AT_ONCE: u64 = 65_536;

/// Why a command line is not answered: one line for standard error, in bytes, as its words may be any.
struct Fault(Vec<u8>);

impl From<io::Error> for Fault {
    fn from(error: io::Error) -> Fault {
        Fault(format!("standard output: {error}").into_bytes())
    }
}

/// What is wrong with a word, and the word.
fn wrong(what: &str, word: &OsStr) -> Fault {
    Fault([what.as_bytes(), b": ", word.as_bytes()].concat())
}

type Done = Result<(), Fault>;

fn main() -> ExitCode {
    let words: Vec<OsString> = std::env::args_os().skip(1).collect();
    let mut out = BufWriter::new(io::stdout());
    match answer(&words, &mut out).and_then(|()| Ok(out.flush()?)) {
        Ok(()) => ExitCode::SUCCESS,
        Err(Fault(mut line)) => {
            line.push(b'\n');
            // Where standard error cannot be written to there is nobody to tell.
            let _ = io::stderr().write_all(&line);
            ExitCode::from(2)
        }
    }
}

fn answer(words: &[OsString], out: &mut dyn Write) -> Done {
    let (command, rest) = words.split_first().ok_or_else(|| wrong("missing word", "command".as_ref()))?;
    match command.as_bytes() {
        b"check" => check(rest, out),
        b"name" => name(exactly(rest, ["FILE", "signal or table", "N"])?, out),
        b"window" => window(rest, out),
        b"waveform" => waveform(exactly(rest, ["FILE", "TABLE", "SIGNAL", "CHARACTER"])?, out),
        b"tokens" => tokens(exactly(rest, ["FILE"])?, out),
        b"intake" => intake(exactly(rest, ["FILE"])?, out),
        b"list" => list(exactly(rest, ["FILE"])?, out),
        b"index" => index(exactly(rest, ["FILE"])?, out),
        b"holds" => holds(exactly(rest, ["FILE", "INDEXFILE", "N"])?, out),
        b"save" => save(exactly(rest, ["FILE"])?, out),
        b"fold" => fold(exactly(rest, ["FILE"])?, out),
        b"report" => report(exactly(rest, ["FILE", "REPORTFILE"])?, out),
        b"help" => {
            exactly(rest, [])?;
            Ok(out.write_all(HELP.as_bytes())?)
        }
        _ => Err(wrong("no such command", command)),
    }
}

/// The words that must stand there, no fewer and no more.
fn exactly<'w, const N: usize>(words: &'w [OsString], due: [&str; N]) -> Result<&'w [OsString; N], Fault> {
    if words.len() < N {
        return Err(wrong("missing word", due[words.len()].as_ref()));
    }
    <&[OsString; N]>::try_from(words).map_err(|_| wrong("one word too many", &words[N]))
}

/// A file's bytes, one past the bound at most: more cannot change that it is too long.
fn read_file(file: &OsString, bound: usize) -> io::Result<Vec<u8>> {
    let mut bytes = Vec::new();
    File::open(file)?.take(bound as u64 + 1).read_to_end(&mut bytes)?;
    Ok(bytes)
}

fn bytes_of(file: &OsString, bound: usize) -> Result<Vec<u8>, Fault> {
    read_file(file, bound).map_err(|_| wrong("cannot be read", file))
}

fn text_of(file: &OsString) -> Result<Vec<u8>, Fault> {
    bytes_of(file, bounds::MAX_TEXT)
}

fn number(word: &OsString) -> Result<u64, Fault> {
    let bytes = word.as_bytes();
    let digits = !bytes.is_empty() && bytes.iter().all(u8::is_ascii_digit);
    let value = word.to_str().filter(|_| digits).and_then(|word| word.parse().ok());
    value.ok_or_else(|| wrong("not a number", word))
}

fn one_byte(word: &OsString) -> Result<u8, Fault> {
    match *word.as_bytes() {
        [byte] => Ok(byte),
        _ => Err(wrong("not one byte", word)),
    }
}

/// Writes the answer, or the one line of the text's refusal.
fn write_answer<T>(
    out: &mut dyn Write,
    text: &[u8],
    answer: Answer<T>,
    write: impl FnOnce(&mut dyn Write, T) -> io::Result<()>,
) -> Done {
    match answer {
        Ok(value) => write(out, value)?,
        Err(refusal) => out.write_all(refusal_line(text, refusal).as_bytes())?,
    }
    Ok(())
}

fn check(files: &[OsString], out: &mut dyn Write) -> Done {
    let (mut good, mut hurt, mut unread) = (0, 0, 0);
    for file in files {
        out.write_all(file.as_bytes())?;
        match read_file(file, bounds::MAX_TEXT) {
            Ok(text) => match second::check(&text) {
                Ok(sum) => {
                    good += 1;
                    writeln!(out, " OK {} {} {} {} {}", sum.signals, sum.tables, sum.patterns, sum.cycles, sum.size)?;
                }
                Err(refusal) => {
                    hurt += 1;
                    write!(out, " {}", refusal_line(&text, refusal))?;
                }
            },
            Err(_) => {
                unread += 1;
                writeln!(out, " CANNOT BE READ")?;
            }
        }
    }
    Ok(writeln!(out, "GOOD {good} HURT {hurt} UNREAD {unread}")?)
}

fn name([file, kind, which]: &[OsString; 3], out: &mut dyn Write) -> Done {
    let declared = match kind.as_bytes() {
        b"signal" => Declared::Signal,
        b"table" => Declared::Table,
        _ => return Err(wrong("neither signal nor table", kind)),
    };
    let which = number(which)?;
    let text = text_of(file)?;
    write_answer(out, &text, second::name(&text, declared, which), |out, name| {
        let bytes = &text[name.place as usize..(name.place + name.length) as usize];
        out.write_all(bytes)?;
        writeln!(out, " AT {} LENGTH {}", name.place, name.length)
    })
}

/// The last word, a mark, may be missing.
fn window(words: &[OsString], out: &mut dyn Write) -> Done {
    let (words, more) = words.split_at(words.len().min(3));
    let [file, first, count] = exactly(words, ["FILE", "FIRST", "COUNT"])?;
    let chosen = if more.is_empty() { None } else { Some(&exactly(more, ["MARK"])?[0]) };
    let (first, count) = (number(first)?, number(count)?);
    let mark = chosen.map_or(Ok(MARK), one_byte)?;
    let text = text_of(file)?;
    let answer = Document::read(&text).and_then(|document| accept_mark(mark).map(|()| document));
    write_answer(out, &text, answer, |out, document| write_rows(out, &document, first, count, mark))
}

fn write_rows(out: &mut dyn Write, document: &Document, first: u64, count: u64, mark: u8) -> io::Result<()> {
    let due = count.min(document.extent.cycles.saturating_sub(first));
    let width = document.row_width();
    let mut buffer = vec![0; due.min(ROWS_AT_ONCE) as usize * width];
    let fails = |refusal: Refusal| io::Error::new(io::ErrorKind::Other, format!("{refusal:?}"));
    let visits = document.window(first, 0, mark, &mut []).map_err(fails)?.visits;
    let mut written = 0;
    while written < due {
        let wanted = (due - written).min(ROWS_AT_ONCE);
        let rows = document.window(first + written, wanted, mark, &mut buffer).map_err(fails)?.rows;
        out.write_all(&buffer[..rows as usize * width])?;
        written += rows;
    }
    writeln!(out, "VISITS {visits}")
}

fn waveform([file, table, signal, character]: &[OsString; 4], out: &mut dyn Write) -> Done {
    let (table, signal) = (number(table)?, number(signal)?);
    let character = one_byte(character)?;
    let text = text_of(file)?;
    let (mut times, mut letters) = ([0; bounds::MAX_EVENTS], [0; bounds::MAX_EVENTS]);
    let asked = Asked { table, signal, character };
    let count = Document::read(&text).and_then(|document| document.waveform(asked, &mut times, &mut letters));
    write_answer(out, &text, count, |out, count| {
        writeln!(out, "EVENTS {count}")?;
        let mut events = times.iter().zip(&letters).take(count as usize);
        events.try_for_each(|(time, &letter)| writeln!(out, "{time} {}", letter as char))
    })
}

fn tokens([file]: &[OsString; 1], out: &mut dyn Write) -> Done {
    let text = text_of(file)?;
    let (mut place, mut count) = (0, 0);
    let end = loop {
        match next_token(&text, place) {
            Ok(Some(found)) => {
                place = u64::from(found.place + found.length);
                count += 1;
                write!(out, "{} {} ", found.place, found.length)?;
                out.write_all(found.bytes(&text))?;
                out.write_all(b"\n")?;
            }
            Ok(None) => break Ok(count),
            Err(refusal) => break Err(refusal),
        }
    };
    write_answer(out, &text, end, |out, count: u64| writeln!(out, "TOKENS {count}"))
}

fn intake([file]: &[OsString; 1], out: &mut dyn Write) -> Done {
    let raw = bytes_of(file, bounds::MAX_RAW)?;
    write_answer(out, &raw, second::intake::stored(&raw), |out, stored| out.write_all(&stored))
}

fn list([file]: &[OsString; 1], out: &mut dyn Write) -> Done {
    let text = text_of(file)?;
    write_answer(out, &text, listing(&text), |out, lines| out.write_all(&lines))
}

fn index([file]: &[OsString; 1], out: &mut dyn Write) -> Done {
    let text = text_of(file)?;
    let mut buffer = [0; bounds::MAX_INDEX];
    let length = second::index(&text, &mut buffer);
    write_answer(out, &text, length, |out, length| out.write_all(&buffer[..length as usize]))
}

fn holds([file, index, cycle]: &[OsString; 3], out: &mut dyn Write) -> Done {
    let cycle = number(cycle)?;
    // As much is read as of a text: what is longer is no index.
    let (text, index) = (text_of(file)?, text_of(index)?);
    write_answer(out, &text, second::holds(&text, &index, cycle), |out, pattern| match pattern {
        Some(number) => writeln!(out, "PATTERN {number}"),
        None => writeln!(out, "NO PATTERN"),
    })
}

/// A refusal shows line and column in the file as it is: overwriting takes line ends away.
fn save([file]: &[OsString; 1], out: &mut dyn Write) -> Done {
    let text = text_of(file)?;
    write_answer(out, &text, second::save::saved(&text), |out, (saved, spans)| {
        spans.iter().try_for_each(|span| writeln!(out, "SPAN {} {}", span.start, span.end))?;
        writeln!(out, "SPANS {}", spans.len())?;
        out.write_all(&saved)
    })
}

fn fold([file]: &[OsString; 1], out: &mut dyn Write) -> Done {
    let text = text_of(file)?;
    let folded = Document::read(&text).and_then(|document| document.folded());
    write_answer(out, &text, folded, |out, folded| out.write_all(&folded))
}

/// Where the report is refused the line says so, and its place, line and column are in the report.
fn report([file, report]: &[OsString; 2], out: &mut dyn Write) -> Done {
    let (text, report) = (text_of(file)?, text_of(report)?);
    let fails = Document::read(&text).map_err(Refused::of_text);
    match fails.and_then(|document| document.fails(&report).map_err(Refused::of_report)) {
        Ok(fails) => {
            writeln!(out, "FAILS {}", fails.len())?;
            fails.iter().try_for_each(|fail| write_fail(out, fail))?;
        }
        Err(Refused { of_report: false, refusal }) => out.write_all(refusal_line(&text, refusal).as_bytes())?,
        Err(Refused { of_report: true, refusal }) => write!(out, "REPORT {}", refusal_line(&report, refusal))?,
    }
    Ok(())
}

fn write_fail(out: &mut dyn Write, fail: &Fail) -> io::Result<()> {
    let Fail { cycle, signal, letter } = *fail;
    match letter {
        Some(letter) => writeln!(out, "{cycle} {signal} {}", letter as char),
        None => writeln!(out, "{cycle} {signal}"),
    }
}
