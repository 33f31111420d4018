//! The program's bytes, by docs/COMMANDS.md.

mod common;
use common::SAMPLE;
use std::path::PathBuf;
use std::process::{Command, Output};

fn file(name: &str, bytes: &[u8]) -> String {
    let path = PathBuf::from(env!("CARGO_TARGET_TMPDIR")).join(name);
    std::fs::write(&path, bytes).expect("a place to write");
    path.to_str().expect("plain").to_string()
}

fn run(words: &[&str]) -> Output {
    Command::new(env!("CARGO_BIN_EXE_second")).args(words).output().expect("it runs")
}

fn answers(words: &[&str], due: &str) {
    let output = run(words);
    assert_eq!(String::from_utf8_lossy(&output.stdout), due, "{words:?}");
    assert!(output.status.success() && output.stderr.is_empty(), "{words:?}");
}

/// One line on standard error that names the word, nothing else, status 2.
fn turned_down(words: &[&str], named: &str) {
    let output = run(words);
    let line = String::from_utf8_lossy(&output.stderr).to_string();
    assert!(output.stdout.is_empty(), "{words:?}");
    assert_eq!(output.status.code(), Some(2), "{words:?}");
    assert!(line.ends_with('\n') && line.lines().count() == 1 && line.contains(named), "{words:?}: {line}");
}

#[test]
fn help_names_the_commands() {
    let commands = [
        "check FILE..",
        "name FILE signal N",
        "name FILE table N",
        "window FILE FIRST COUNT [MARK]",
        "waveform FILE TABLE SIGNAL CHARACTER",
        "list FILE",
        "index FILE",
        "holds FILE INDEXFILE N",
        "tokens FILE",
        "intake FILE",
        "save FILE",
        "fold FILE",
        "report FILE REPORTFILE",
        "help",
        "Numbers count from 0. REFUSED n AT p:",
    ];
    let output = run(&["help"]);
    let lines = String::from_utf8(output.stdout).expect("plain");
    assert_eq!(lines.lines().count(), commands.len());
    lines.lines().zip(commands).for_each(|(line, due)| assert!(line.starts_with(&format!("{due} ")), "{line}"));
}

#[test]
fn reports() {
    let good = &file("reported.stil", SAMPLE.replace("Loop 2 {", "X x;\nLoop 2 {").as_bytes());
    let of = |bytes: &str| file("fails", bytes.as_bytes());
    let given = of("PatternFailReport {\n Pattern p; FailData { x A; p B 6'H' 3; } }");
    answers(&["report", good, &given], "FAILS 3\n0 0\n6 1 H\n3 1\n");
    answers(&["report", good, &of("PatternFailReport { Pattern p; FailData { } }")], "FAILS 0\n");
    answers(&["report", good, &of("\n PatternFailReport\n(")], "REPORT REFUSED 4 AT 20 LINE 3 COLUMN 1\n");
    let outside = "PatternFailReport { Pattern p; FailData {\n p B 7; } }";
    answers(&["report", good, &of(outside)], "REPORT REFUSED 24 AT 47 LINE 2 COLUMN 6\n");
    answers(&["report", good, &of(&" ".repeat(70_000))], "REPORT REFUSED 1 AT 0 LINE 1 COLUMN 1\n");
    // The text's refusal is the plain line.
    answers(&["report", &file("unread.stil", b"\nSTIL 2.0;"), &of("")], "REFUSED 4 AT 6 LINE 2 COLUMN 6\n");
    turned_down(&["report", good], "REPORTFILE");
    turned_down(&["report", good, &given, &given], "one word too many");
    turned_down(&["report", "/nowhere", "/neither"], "/nowhere");
    turned_down(&["report", good, "/nowhere"], "/nowhere");
}

#[test]
fn check_goes_on_past_every_file() {
    let (good, hurt) = (file("good.stil", SAMPLE.as_bytes()), file("hurt.stil", b"STIL 2.0;"));
    let (long, none) = (file("long.stil", &[b' '; 200_000]), "/nowhere/at/all.stil");
    let due = format!(
        "{good} OK 2 1 1 7 10\n{none} CANNOT BE READ\n{hurt} REFUSED 4 AT 5 LINE 1 COLUMN 6\n{long} REFUSED 1 AT 0 LINE 1 COLUMN 1\n/ CANNOT BE READ\nGOOD 1 HURT 2 UNREAD 2\n"
    );
    answers(&["check", &good, none, &hurt, &long, "/"], &due);
    answers(&["check"], "GOOD 0 HURT 0 UNREAD 0\n");
}

#[test]
fn single_answers() {
    let good = &file("single.stil", SAMPLE.as_bytes());
    answers(&["name", good, "signal", "0"], "A AT 20 LENGTH 1\n");
    answers(&["name", good, "signal", "0001"], "B AT 26 LENGTH 1\n");
    answers(&["name", good, "table", "0"], "t0 AT 87 LENGTH 2\n");
    answers(&["name", good, "table", "1"], "REFUSED 18 AT 0 LINE 1 COLUMN 1\n");
    answers(&["window", good, "2", "2"], "1H0\n0H0\nVISITS 16\n");
    answers(&["window", good, "6", "18446744073709551615"], "1H0\nVISITS 22\n");
    answers(&["window", good, "18446744073709551615", "1"], "VISITS 10\n");
    answers(&["waveform", good, "0", "1", "X"], "EVENTS 2\n0 Z\n50000 X\n");
    answers(&["waveform", good, "0", "1", "0"], "REFUSED 18 AT 0 LINE 1 COLUMN 1\n");
    answers(&["list", good], "SIGNALS 2\nA\nB\nTABLES 1\nt0\nCYCLES 7\n1X0\n0H0\n1H0\n0H0\n1L0\n0H0\n1H0\n");
}

#[test]
fn windows_with_a_mark() {
    let text = &file("marks.stil", SAMPLE.replace("C { B = X; } ", "").as_bytes());
    answers(&["window", text, "0", "2"], "1?0\n0H0\nVISITS 14\n");
    answers(&["window", text, "0", "1", "?"], "1?0\nVISITS 14\n");
    answers(&["window", text, "0", "1", "."], "1.0\nVISITS 14\n");
    answers(&["window", text, "0", "1", " "], "1 0\nVISITS 14\n");
    answers(&["window", text, "7", "1", "#"], "VISITS 9\n");
    for mark in ["0", "9", "a", "z", "A", "Z", "X", "\n"] {
        answers(&["window", text, "0", "1", mark], "REFUSED 12 AT 0 LINE 1 COLUMN 1\n");
        answers(&["window", text, "7", "0", mark], "REFUSED 12 AT 0 LINE 1 COLUMN 1\n");
    }
    answers(&["window", &file("marks-hurt.stil", b"STIL 2.0;"), "0", "1", "a"], "REFUSED 4 AT 5 LINE 1 COLUMN 6\n");
    let listed = run(&["list", text]).stdout;
    assert!(listed.windows(4).any(|row| row == b"1.0\n"));
}

#[test]
fn the_index_and_what_is_asked_of_it() {
    let good = &file("indexed.stil", SAMPLE.as_bytes());
    let due = "PATTERNS 1\np 0 7 312\nTABLES 1\nt0\n";
    answers(&["index", good], due);
    let right = &file("right.index", due.as_bytes());
    answers(&["holds", good, right, "0"], "PATTERN 0\n");
    answers(&["holds", good, right, "006"], "PATTERN 0\n");
    answers(&["holds", good, right, "7"], "NO PATTERN\n");
    answers(&["holds", good, right, "18446744073709551615"], "NO PATTERN\n");
    let long = [due.as_bytes(), &[b'\n'; 70_000]].concat();
    for wrong in [&b""[..], b"PATTERNS 1\np 0 7 312\nTABLES 1\nt0", &long] {
        answers(&["holds", good, &file("wrong.index", wrong), "0"], "REFUSED 21 AT 0 LINE 1 COLUMN 1\n");
    }
    let hurt = &file("not-indexed.stil", b"STIL 1.0;\nSignals { }");
    answers(&["index", hurt], "REFUSED 4 AT 20 LINE 2 COLUMN 11\n");
    answers(&["holds", hurt, right, "0"], "REFUSED 4 AT 20 LINE 2 COLUMN 11\n");
}

#[test]
fn what_is_saved_of_a_hurt_text() {
    answers(&["save", &file("sound.stil", SAMPLE.as_bytes())], &format!("SPANS 0\n{SAMPLE}"));
    let hurt = SAMPLE.replace("{ p; }", "{ p; q ; }") + "Pattern q {\n V }\n";
    let (entry, end) = (hurt.find("q ;").expect("listed"), hurt.len());
    let due = SAMPLE.replace("{ p; }", "{ p;     }") + &" ".repeat(16) + "\n";
    let spans = format!("SPAN {} {}\nSPAN {entry} {}\nSPANS 2\n", end - 17, end - 1, entry + 3);
    answers(&["save", &file("saved.stil", hurt.as_bytes())], &(spans + &due));
    // Line and column are those of the file as it is: the first of two line ends is overwritten before the second is refused.
    let beyond = SAMPLE.to_string() + "Pattern q {\n V }\n}";
    let due = format!("REFUSED 4 AT {} LINE 13 COLUMN 1\n", beyond.len() - 1);
    answers(&["save", &file("beyond.stil", beyond.as_bytes())], &due);
    answers(&["save", &file("save-long.stil", &[b' '; 65_537])], "REFUSED 1 AT 0 LINE 1 COLUMN 1\n");
}

#[test]
fn a_folded_text() {
    let output = run(&["fold", &file("fold.stil", SAMPLE.as_bytes())]);
    let folded = String::from_utf8_lossy(&output.stdout);
    assert!(
        folded.starts_with("STIL 1.0;\nSignals{A In;B Out;}\n") && folded.ends_with("\nV{A=1;B=H;}\n}\n"),
        "{folded}"
    );
    answers(&["fold", &file("folded.stil", folded.as_bytes())], &folded);
    let long = SAMPLE.replace("Loop 2 ", "Loop 500000 ");
    answers(&["fold", &file("fold-far.stil", long.as_bytes())], "REFUSED 23 AT 0 LINE 1 COLUMN 1\n");
    answers(
        &["fold", &file("fold-long.stil", SAMPLE.replace("Loop 2 ", "Loop 9999 ").as_bytes())],
        "REFUSED 19 AT 0 LINE 1 COLUMN 1\n",
    );
    answers(&["fold", &file("fold-hurt.stil", b"STIL 1.0;\nSignals { }")], "REFUSED 4 AT 20 LINE 2 COLUMN 11\n");
}

#[test]
fn refusals_are_answers() {
    let hurt = &file("refused.stil", b"STIL 1.0; Signals { }");
    for words in [
        vec!["list", hurt],
        vec!["window", hurt, "0", "1"],
        vec!["name", hurt, "table", "0"],
        vec!["waveform", hurt, "0", "0", "0"],
    ] {
        answers(&words, "REFUSED 4 AT 20 LINE 1 COLUMN 21\n");
    }
}

#[test]
fn tokens_up_to_the_refusal() {
    answers(
        &["tokens", &file("tokens.stil", b"STIL 1.0; /* x */ 'A' // e")],
        "0 4 STIL\n5 3 1.0\n8 1 ;\n18 1 '\n19 1 A\n20 1 '\nTOKENS 6\n",
    );
    answers(&["tokens", &file("bad.stil", b"ab\x01 cd")], "0 2 ab\nREFUSED 2 AT 2 LINE 1 COLUMN 3\n");
    answers(&["tokens", &file("open.stil", b"ab /*")], "0 2 ab\nREFUSED 3 AT 3 LINE 1 COLUMN 4\n");
    answers(&["tokens", &file("none.stil", b"")], "TOKENS 0\n");
    answers(&["tokens", &file("toolong.stil", &[b'a'; 65_537])], "REFUSED 1 AT 0 LINE 1 COLUMN 1\n");
}

#[test]
fn the_stored_text_of_a_raw_one() {
    let raw = b"// a reel\r\nSTIL  1.0;/* of\nlong ago */Signals{A/**/In;}\t// end";
    answers(&["intake", &file("raw.stil", raw)], "\nSTIL 1.0;\nSignals{A In;} ");
    answers(&["intake", &file("raw-none.stil", b"")], "");
    answers(&["intake", &file("raw-slash.stil", b"a / b/")], "a / b/");
    answers(&["intake", &file("raw-open.stil", b"a\n b/* c\n*")], "REFUSED 3 AT 4 LINE 2 COLUMN 3\n");
    answers(&["intake", &file("raw-byte.stil", b"a\r\n/* \x80 */")], "REFUSED 2 AT 6 LINE 2 COLUMN 4\n");
    // As many bytes are read as decide, so that what is far behind does not matter.
    let of = |length: usize, end: &[u8]| [b"\n".as_slice(), &vec![b' '; length - 1], end].concat();
    answers(&["intake", &file("raw-full.stil", &of(1_048_575, b"a"))], "\na");
    answers(&["intake", &file("raw-past.stil", &of(1_048_576, b"a"))], "REFUSED 1 AT 1048576 LINE 2 COLUMN 1048576\n");
    let past = &file("raw-far-past.stil", &of(1_048_576, &[0; 100_000]));
    answers(&["intake", past], "REFUSED 1 AT 1048576 LINE 2 COLUMN 1048576\n");
    let stores = |length: usize, end: &str| [&vec![b'a'; length], end.as_bytes()].concat();
    answers(&["intake", &file("raw-fits.stil", &stores(65_535, "//"))], &("a".repeat(65_535) + " "));
    answers(&["intake", &file("raw-more.stil", &stores(65_536, "a"))], "REFUSED 20 AT 65536 LINE 1 COLUMN 65537\n");
    answers(&["intake", &file("raw-close.stil", &stores(65_536, " \n"))], "REFUSED 20 AT 65538 LINE 2 COLUMN 1\n");
}

#[test]
fn refusals_show_line_and_column() {
    // The request's own line: the fourth line begins at 112, and eight bytes into it stands the name.
    let head = "STIL 1.0;\nSignals { A In; B Out; }\nSignalGroups {";
    let text = &file("lines.stil", format!("{head:<111}\n g = 'A+E'; }}").as_bytes());
    let due = "REFUSED 6 AT 120 LINE 4 COLUMN 9\n";
    answers(&["list", text], due);
    answers(&["name", text, "signal", "0"], due);
    answers(&["window", text, "0", "1"], due);
    answers(&["waveform", text, "0", "0", "0"], due);
    answers(&["check", text], &format!("{text} {due}GOOD 0 HURT 1 UNREAD 0\n"));
    // Where the text has ended: behind its last LF, and in a line without one.
    answers(&["list", &file("ended.stil", b"STIL 1.0;\r\n\r\n")], "REFUSED 4 AT 13 LINE 3 COLUMN 1\n");
    answers(&["list", &file("cut.stil", b"STIL 1.0;\r\n\r // x")], "REFUSED 4 AT 17 LINE 2 COLUMN 7\n");
    answers(&["tokens", &file("below.stil", b"a\n\n b/*\n")], "0 1 a\n4 1 b\nREFUSED 3 AT 5 LINE 3 COLUMN 3\n");
    let too_long = [&b"\n"[..], &[b'\n'; 65_536]].concat();
    answers(&["tokens", &file("lines-long.stil", &too_long)], "REFUSED 1 AT 0 LINE 1 COLUMN 1\n");
    let too_large = SAMPLE.replace("Loop 2 ", "Loop 16777215 { Loop 16777215 { V { } } } Loop 2 ");
    answers(&["list", &file("large.stil", too_large.as_bytes())], "REFUSED 16 AT 0 LINE 1 COLUMN 1\n");
}

#[test]
fn long_windows_in_parts() {
    let text = SAMPLE.replace("Loop 2", "Loop 100000");
    let output = run(&["window", &file("loop.stil", text.as_bytes()), "1", "200000"]);
    // From the first turn's second row to the macro's first: 1 + 2 * 99,999 + 1 rows.
    let due = format!("0H0\n{}1L0\nVISITS 17\n", "1H0\n0H0\n".repeat(99_999));
    assert!(output.stdout == due.as_bytes());
}

#[test]
fn faults_of_the_command_line() {
    let good = &file("faults.stil", SAMPLE.as_bytes());
    turned_down(&[], "command");
    turned_down(&["chek", good], "chek");
    turned_down(&["name", good, "signal"], "N");
    turned_down(&["name", good, "signals", "0"], "signals");
    turned_down(&["name", good, "signal", "0", "more"], "more");
    turned_down(&["window", good, "-1", "0"], "-1");
    turned_down(&["window", good, "0", "18446744073709551616"], "18446744073709551616");
    turned_down(&["window", good, "+1", "0"], "+1");
    turned_down(&["window", good, "", "0"], "not a number");
    turned_down(&["window", good, "0"], "COUNT");
    turned_down(&["window", good, "0", "0", ""], "not one byte");
    turned_down(&["window", good, "0", "0", "??"], "??");
    turned_down(&["window", good, "0", "0", "é"], "é");
    turned_down(&["window", good, "0", "0", "?", "more"], "more");
    turned_down(&["window", good, "x", "0", "??"], "x");
    turned_down(&["window", "/nowhere.stil", "0", "0", "??"], "??");
    turned_down(&["window", "/nowhere.stil", "0", "0", "a"], "/nowhere.stil");
    turned_down(&["waveform", good, "0", "0", "01"], "01");
    turned_down(&["waveform", good, "0", "0", ""], "not one byte");
    turned_down(&["help", "me"], "me");
    turned_down(&["holds", good], "INDEXFILE");
    turned_down(&["holds", good, good], "N");
    turned_down(&["holds", "/nowhere.stil", "/nowhere.index", "x"], "not a number: x");
    turned_down(&["holds", "/nowhere.stil", "/nowhere.index", "0"], "/nowhere.stil");
    turned_down(&["holds", good, "/nowhere.index", "0"], "/nowhere.index");
    turned_down(&["holds", good, "/", "0"], "cannot be read: /");
}

#[test]
fn faults_of_commands_with_one_file() {
    let good = &file("one-file.stil", SAMPLE.as_bytes());
    for command in ["tokens", "intake", "list", "index", "save", "fold"] {
        turned_down(&[command], "FILE");
        turned_down(&[command, good, "more"], "more");
        turned_down(&[command, "/nowhere.stil"], "cannot be read: /nowhere.stil");
        turned_down(&[command, "/"], "cannot be read: /");
    }
}

#[test]
fn times_before_the_cycle() {
    let early = &file("early.stil", SAMPLE.replace("A { 01 { '0ns'", "A { 01 { '-1500ps'").as_bytes());
    answers(&["waveform", early, "0", "0", "1"], "EVENTS 1\n-1500 U\n");
    let zero = &file("zero.stil", SAMPLE.replace("A { 01 { '0ns'", "A { 01 { '-0ns'").as_bytes());
    answers(&["waveform", zero, "0", "0", "1"], "EVENTS 1\n0 U\n");
    answers(&["list", early], &String::from_utf8_lossy(&run(&["list", zero]).stdout));
    let folded = String::from_utf8(run(&["fold", early]).stdout).expect("plain");
    assert!(folded.contains("\nA{0{'-1500ps'D;}1{'-1500ps'U;}}\n"), "{folded}");
}

#[test]
fn events_across_the_edge() {
    let late = SAMPLE.replace("A { 01 { '0ns' D/U;", "A { 01 { '0ns' D/U; '200ns' Z;");
    let place = late.find("V { ab = 0H; }").expect("there");
    let column = place - late[..place].rfind('\n').expect("a line");
    let line = 1 + late[..place].matches('\n').count();
    let late = &file("late.stil", late.as_bytes());
    answers(&["list", late], &format!("REFUSED 25 AT {place} LINE {line} COLUMN {column}\n"));
}
