//! The index (request 7): its bytes, to which text it belongs, and which listed pattern holds a cycle.

mod common;
use common::{build, SAMPLE};
use second::bounds::MAX_INDEX;
use second::generate::text;
use second::{belongs, check, holds, index, token, Document, Refusal, DOT};

const NOT_OF_TEXT: Refusal = Refusal { number: 21, place: 0 };
const SHORT: Refusal = Refusal { number: 19, place: 0 };

fn indexed(text: &[u8]) -> Vec<u8> {
    let mut buffer = vec![b'-'; MAX_INDEX];
    let length = index(text, &mut buffer).expect("accepted") as usize;
    assert!(buffer[length..].iter().all(|&byte| byte == b'-'), "the rest stays");
    buffer.truncate(length);
    buffer
}

fn shown(text: &str) -> String {
    String::from_utf8(indexed(text.as_bytes())).expect("plain")
}

/// A text with these PatList entries, and the patterns p, q and e of 3, 2 and no cycles.
fn listing(list: &str) -> String {
    let patterns = "Pattern p { W t0; Loop 3 { V { } } } Pattern e { W t1; } Pattern q { W t0; V { } V { } }";
    build("burst", &format!("PatternBurst b {{ PatList {{ {list} }} }} PatternExec {{ PatternBurst b; }} {patterns}"))
}

#[test]
fn of_document_01() {
    let due = include_str!("../../examples/worked.index");
    assert_eq!(due, "PATTERNS 1\np 0 7 312\nTABLES 1\nt0\n");
    assert_eq!(shown(SAMPLE), due);
    assert_eq!(belongs(SAMPLE.as_bytes(), due.as_bytes()), Ok(()));
    // With CR LF, eight line ends before the word Pattern are a byte longer.
    assert_eq!(shown(&SAMPLE.replace('\n', "\r\n")), due.replace("312", "320"));
}

#[test]
fn lines_in_the_order_of_the_list() {
    let text = listing("q; p; e; q; e;");
    let place = |name: &str| text.find(&format!("Pattern {name}")).expect("there");
    let (p, q, e) = (place("p"), place("q"), place("e"));
    let due = format!("PATTERNS 5\nq 0 2 {q}\np 2 3 {p}\ne 5 0 {e}\nq 5 2 {q}\ne 7 0 {e}\nTABLES 2\nt0\nt1\n");
    assert_eq!(shown(&text), due);
    assert_eq!(shown(&listing("e;")), format!("PATTERNS 1\ne 0 0 {}\nTABLES 2\nt0\nt1\n", e - "q; p; e; q; ".len()));
    assert_eq!(shown(&listing("")), "PATTERNS 0\nTABLES 2\nt0\nt1\n");
}

#[test]
fn the_longest_name_and_the_most_lines() {
    let name = |letter: &str, number: usize| format!("{letter:_<30}{number:02}");
    let tables: String =
        (0..8).map(|n| format!("WaveformTable {} {{ Period '1ns'; Waveforms {{ }} }} ", name("t", n))).collect();
    let list: String = (0..16).map(|_| name("p", 0) + "; ").collect();
    let run = format!("PatternBurst b {{ PatList {{ {list}}} }} PatternExec {{ PatternBurst b; }}");
    let pattern =
        format!("Pattern {} {{ W {}; Loop 65536 {{ Loop 1048576 {{ V {{ }} }} }} }}", name("p", 0), name("t", 7));
    let text = format!("STIL 1.0; Signals {{ A In; }} Timing {{ {tables}}} {run} {:64000} {pattern}", "");
    let cycles = 1u64 << 36;
    let place = text.rfind("Pattern").expect("there");
    let lines: String = (0..16).map(|n| format!("{} {} {cycles} {place}\n", name("p", 0), n * cycles)).collect();
    let names: String = (0..8).map(|n| name("t", n) + "\n").collect();
    let due = format!("PATTERNS 16\n{lines}TABLES 8\n{names}");
    assert_eq!(shown(&text), due);
    assert!(due.len() <= MAX_INDEX);
    let asked = |cycle| holds(text.as_bytes(), due.as_bytes(), cycle);
    assert_eq!([asked(0), asked(cycles - 1), asked(cycles)], [Ok(Some(0)), Ok(Some(0)), Ok(Some(1))]);
    assert_eq!([asked(16 * cycles - 1), asked(16 * cycles), asked(u64::MAX)], [Ok(Some(15)), Ok(None), Ok(None)]);
}

#[test]
fn only_the_front_of_the_buffer() {
    let due = indexed(SAMPLE.as_bytes());
    for room in 0..due.len() + 4 {
        let mut buffer = vec![b'-'; room];
        let answer = index(SAMPLE.as_bytes(), &mut buffer);
        if room < due.len() {
            assert_eq!((answer, buffer), (Err(SHORT), vec![b'-'; room]));
        } else {
            assert_eq!(answer, Ok(due.len() as u64));
            assert_eq!(buffer[..due.len()], due);
            assert!(buffer[due.len()..].iter().all(|&byte| byte == b'-'));
        }
    }
}

/// Everything one byte away from the index of a text, and more, belongs to it no longer.
#[test]
fn byte_for_byte() {
    let text = listing("q; e; p; q;");
    let right = indexed(text.as_bytes());
    let wrong = |index: &[u8]| {
        assert_eq!(belongs(text.as_bytes(), index), Err(NOT_OF_TEXT), "{:?}", String::from_utf8_lossy(index));
        assert_eq!(holds(text.as_bytes(), index, 0), Err(NOT_OF_TEXT));
        assert_eq!(holds(text.as_bytes(), index, u64::MAX), Err(NOT_OF_TEXT));
    };
    assert_eq!(belongs(text.as_bytes(), &right), Ok(()));
    for at in 0..right.len() {
        let (before, after) = right.split_at(at);
        wrong(before);
        wrong(&after[1..]);
        wrong(&[before, &after[1..]].concat());
        for byte in [b' ', b'\n', b'0', b'\r', 0, right[at] ^ 32, right[at].wrapping_add(1)] {
            if byte != right[at] {
                wrong(&[before, &[byte], &after[1..]].concat());
                wrong(&[before, &[byte], after].concat());
            }
        }
    }
    let plain = String::from_utf8(right.clone()).expect("plain");
    wrong(&[&right[..], b"\n"].concat());
    wrong(&[&right[..], &right[..]].concat());
    wrong(plain.replace('\n', "\r\n").as_bytes());
    wrong(plain.replace("q 0 2", "q 00 2").as_bytes());
    wrong(plain.replace(" 2 ", "  2 ").as_bytes());
    wrong(&indexed(SAMPLE.as_bytes()));
    wrong(text.as_bytes());
}

/// The bytes of a text may change without its index; its patterns' places may not.
#[test]
fn after_an_edit() {
    let before = indexed(SAMPLE.as_bytes());
    let edited = SAMPLE.replace("A = 1;", "A = 0;");
    assert_eq!(belongs(edited.as_bytes(), &before), Ok(()));
    let moved = SAMPLE.replace("Pattern p", " Pattern p");
    assert_eq!(belongs(moved.as_bytes(), &before), Err(NOT_OF_TEXT));
    let longer = SAMPLE.replace("Loop 2", "Loop 3");
    assert_eq!(belongs(longer.as_bytes(), &before), Err(NOT_OF_TEXT));
    let renamed = SAMPLE.replace("t0", "t1");
    assert_eq!(belongs(renamed.as_bytes(), &before), Err(NOT_OF_TEXT));
}

#[test]
fn the_text_comes_first() {
    let right = indexed(SAMPLE.as_bytes());
    for (text, number) in
        [("", 4), ("STIL 1.0;\u{1}", 2), (&SAMPLE.replace("W t0; ", ""), 17), (&SAMPLE.replace("{ p; }", "{ x; }"), 15)]
    {
        let refusal = check(text.as_bytes()).expect_err("refused");
        assert_eq!(refusal.number, number);
        for given in [&right[..], b"", b"x"] {
            assert_eq!(belongs(text.as_bytes(), given), Err(refusal));
            assert_eq!(holds(text.as_bytes(), given, 0), Err(refusal));
        }
        let mut buffer = [b'-'; 3];
        assert_eq!(index(text.as_bytes(), &mut buffer), Err(refusal));
        assert_eq!(buffer, [b'-'; 3]);
    }
}

#[test]
fn which_pattern_holds_a_cycle() {
    let text = listing("e; q; p; e; q; e;");
    let right = indexed(text.as_bytes());
    let due = [Some(1), Some(1), Some(2), Some(2), Some(2), Some(4), Some(4), None, None];
    for (cycle, &pattern) in due.iter().enumerate() {
        assert_eq!(holds(text.as_bytes(), &right, cycle as u64), Ok(pattern), "{cycle}");
    }
    assert_eq!(holds(text.as_bytes(), &right, u64::MAX), Ok(None));
    let empty = listing("");
    assert_eq!(holds(empty.as_bytes(), &indexed(empty.as_bytes()), 0), Ok(None));
}

/// The text with one entry of its PatList alone, in as many bytes.
fn alone(text: &[u8], listed: usize) -> Vec<u8> {
    let mut made = text.to_vec();
    let (mut place, mut last, mut entries) = (0, &b""[..], None);
    while let Ok(Some(found)) = token(text, place) {
        let (from, end) = (found.place as usize, (found.place + found.length) as usize);
        let bytes = &text[from..end];
        entries = match entries {
            None if last == b"PatList" => Some(0),
            Some(_) if bytes == b"}" => break,
            Some(semicolons) => {
                if semicolons != listed {
                    made[from..end].fill(b' ');
                }
                Some(semicolons + usize::from(bytes == b";"))
            }
            None => None,
        };
        (place, last) = (found.place + found.length, bytes);
    }
    made
}

fn rows(document: &Document, first: u64, count: u64) -> Vec<u8> {
    let mut rows = vec![b'-'; count as usize * document.row_width()];
    document.window(first, count, DOT, &mut rows).expect("room");
    rows
}

/// Its lines read back: counts that add up, the word Pattern and the name at each place, and the rows that the pattern has alone.
fn judge(seed: u64, text: &[u8], document: &Document) -> usize {
    let lines = String::from_utf8(indexed(text)).expect("plain");
    let mut lines = lines.lines();
    assert_eq!(lines.next(), Some(&*format!("PATTERNS {}", document.run.len())), "seed {seed}");
    let mut end = 0;
    for listed in 0..document.run.len() {
        let words: Vec<&str> = lines.next().expect("a line").split(' ').collect();
        let [first, count, place] = [1, 2, 3].map(|at: usize| words[at].parse::<u64>().expect("a number"));
        let keyword = token(text, place).expect("allowed").expect("there");
        let name = token(text, place + 7).expect("allowed").expect("there");
        assert_eq!((keyword.place, &text[place as usize..][..7]), (place, &b"Pattern"[..]), "seed {seed}");
        assert_eq!(&text[name.place as usize..][..name.length as usize], words[0].as_bytes(), "seed {seed}");
        assert_eq!(first, end, "seed {seed}");
        end += count;
        let single = alone(text, listed);
        let single = Document::read(&single).unwrap_or_else(|refusal| panic!("seed {seed} {listed}: {refusal:?}"));
        assert_eq!((single.run.len(), single.extent.cycles), (1, count), "seed {seed}");
        let few = count.min(300);
        assert_eq!(rows(&single, 0, few), rows(document, first, few), "seed {seed}");
        let right = indexed(text);
        for cycle in [first, first + count / 2, end.saturating_sub(1)] {
            let within = (first..end).contains(&cycle);
            assert_eq!(
                document.holds(&right, cycle).map(|found| found == Some(listed as u64)),
                Ok(within),
                "seed {seed}"
            );
        }
    }
    assert_eq!(end, document.extent.cycles, "seed {seed}");
    assert_eq!(lines.next(), Some(&*format!("TABLES {}", document.timing.names.count())), "seed {seed}");
    assert_eq!(lines.count(), document.timing.names.count(), "seed {seed}");
    document.run.len()
}

#[test]
fn of_generated_texts() {
    let mut listed = 0;
    for seed in 0..2_000 {
        let text = text(seed);
        if let Ok(document) = Document::read(&text) {
            listed += judge(seed, &text, &document);
        }
    }
    assert!(listed > 1_000, "only {listed} listed patterns");
}
