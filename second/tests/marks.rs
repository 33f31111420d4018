//! The mark for an unassigned pin (request 10): only the mark changes in any row, and which bytes are refused.

mod common;
use common::{build, SAMPLE};
use second::generate::text;
use second::{accept_mark, listing, window, Document, Refusal, DOT, MARK};

const REFUSED: Refusal = Refusal { number: 12, place: 0 };

fn is_refused(mark: u8) -> bool {
    matches!(mark, b'0'..=b'9' | b'A'..=b'Z' | b'a'..=b'z' | b'\n')
}

fn unassigned() -> String {
    build("pattern", "W t0; V { A = 1; } Call q; Loop 3 { V { B = 0; } } Macro v; V { D = x; }")
}

fn rows(text: &str, mark: u8) -> Vec<u8> {
    let mut buffer = vec![b'-'; 100];
    let window = window(text.as_bytes(), 0, u64::MAX, mark, &mut buffer).expect("accepted");
    buffer.truncate(window.rows as usize * 5);
    buffer
}

#[test]
fn where_none_is_chosen() {
    assert_eq!((MARK, DOT), (b'?', b'.'));
    // q begins unassigned, and what the caller had comes back.
    assert_eq!(rows(&unassigned(), MARK), b"1??0\n0??0\n10?0\n10?0\n10?0\n10?0\n10x0\n");
    assert_eq!(rows(&unassigned(), DOT), b"1..0\n0..0\n10.0\n10.0\n10.0\n10.0\n10x0\n");
}

#[test]
fn listings_keep_the_dot() {
    let listed = listing(unassigned().as_bytes()).expect("accepted");
    assert!(listed.ends_with(b"CYCLES 7\n1..0\n0..0\n10.0\n10.0\n10.0\n10.0\n10x0\n"));
}

#[test]
fn every_byte_as_mark() {
    let (text, dotted) = (unassigned(), rows(&unassigned(), DOT));
    for mark in 0..=u8::MAX {
        assert_eq!(accept_mark(mark), if is_refused(mark) { Err(REFUSED) } else { Ok(()) }, "{mark}");
        if is_refused(mark) {
            let mut buffer = [b'-'; 100];
            assert_eq!(window(text.as_bytes(), 0, 3, mark, &mut buffer), Err(REFUSED), "{mark}");
            assert_eq!(buffer, [b'-'; 100], "{mark}");
        } else {
            let marked: Vec<u8> = dotted.iter().map(|&byte| if byte == DOT { mark } else { byte }).collect();
            assert_eq!(rows(&text, mark), marked, "{mark}");
        }
    }
}

/// Whatever rows are due, and however much room there is; but a refused text comes first.
#[test]
fn after_the_text_and_before_the_room() {
    let ask = |text: &str, first, wanted, mark, room| window(text.as_bytes(), first, wanted, mark, &mut vec![0; room]);
    for mark in *b"0zQ\n" {
        for (first, wanted, room) in [(0, 1, 100), (0, 1, 0), (0, u64::MAX, 3), (0, 0, 0), (7, 1, 0), (u64::MAX, 1, 9)]
        {
            assert_eq!(ask(SAMPLE, first, wanted, mark, room), Err(REFUSED));
            let unplayable = SAMPLE.replace("W t0; ", "");
            assert_eq!(ask(&unplayable, first, wanted, mark, room).map_err(|refusal| refusal.number), Err(17));
            assert_eq!(ask("", first, wanted, mark, room), Err(Refusal { number: 4, place: 0 }));
        }
    }
    assert_eq!(ask(SAMPLE, 0, 1, b'#', 3), Err(Refusal { number: 19, place: 0 }));
}

#[test]
fn only_the_mark_changes() {
    let mut shown = 0;
    for seed in 0..3_000 {
        let text = text(seed);
        let document = match Document::read(&text) {
            Ok(document) if document.extent.cycles <= 2_000 => document,
            _ => continue,
        };
        let (cycles, width) = (document.extent.cycles, document.row_width());
        let part = |from: u64, to: u64, mark: u8| {
            let mut rows = vec![b'-'; (to - from) as usize * width];
            let visits = document.window(from, to - from, mark, &mut rows).expect("room").visits;
            (rows, visits)
        };
        let (dotted, visits) = part(0, cycles, DOT);
        shown += u32::from(dotted.contains(&DOT));
        for mark in [MARK, b'-', b'\r', 0, 0xff] {
            let marked: Vec<u8> = dotted.iter().map(|&byte| if byte == DOT { mark } else { byte }).collect();
            assert_eq!(part(0, cycles, mark), (marked.clone(), visits), "seed {seed}");
            let joined = [part(0, cycles / 3, mark).0, part(cycles / 3, cycles, mark).0].concat();
            assert_eq!(joined, marked, "seed {seed}");
        }
    }
    assert!(shown > 300, "only {shown} texts have an unassigned pin");
}
