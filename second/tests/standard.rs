//! The worked texts of the standard, in examples/standard: each gives the listing beside it, and the events where a file tells them.

use second::listing::refusal_line;
use second::{listing, waveform};
use std::path::{Path, PathBuf};

fn texts() -> Vec<PathBuf> {
    let folder = Path::new(env!("CARGO_MANIFEST_DIR")).join("../examples/standard");
    let entries = std::fs::read_dir(folder).expect("the folder");
    let paths = entries.map(|entry| entry.expect("an entry").path());
    let mut texts: Vec<PathBuf> = paths.filter(|path| path.extension().map_or(false, |end| end == "stil")).collect();
    texts.sort();
    texts
}

fn read(path: &Path) -> Vec<u8> {
    std::fs::read(path).unwrap_or_else(|error| panic!("{}: {error}", path.display()))
}

#[test]
fn each_text_gives_its_listing() {
    let texts = texts();
    // A folder that has gone must not pass for one without faults.
    assert!(texts.len() >= 38, "only {} texts", texts.len());
    for path in texts {
        let text = read(&path);
        let given = listing(&text).unwrap_or_else(|refusal| refusal_line(&text, refusal).into_bytes());
        let due = read(&path.with_extension("list"));
        assert_eq!(String::from_utf8_lossy(&given), String::from_utf8_lossy(&due), "{}", path.display());
    }
}

/// The events of one waveform, in the words of a line: times and letters in turn.
fn events(text: &[u8], table: &str, signal: &str, character: &str) -> String {
    let number = |word: &str| word.parse().expect("a number");
    let (mut times, mut letters) = ([0; 16], [0; 16]);
    let character = character.as_bytes()[0];
    let count = waveform(text, number(table), number(signal), character, &mut times, &mut letters).expect("a waveform");
    let told = times.iter().zip(letters).take(count as usize);
    told.map(|(time, letter)| format!("{time} {}", letter as char)).collect::<Vec<String>>().join(" ")
}

#[test]
fn each_waveform_has_the_events_told() {
    let mut asked = 0;
    for path in texts().iter().filter(|path| path.with_extension("waves").exists()) {
        let lines = String::from_utf8(read(&path.with_extension("waves"))).expect("plain");
        for line in lines.lines() {
            let words: Vec<&str> = line.splitn(4, ' ').collect();
            assert_eq!(events(&read(path), words[0], words[1], words[2]), words[3], "{}: {line}", path.display());
            asked += 1;
        }
    }
    assert!(asked >= 31, "only {asked} waveforms");
}
