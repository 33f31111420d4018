//! Saving hurt texts (request 13): what is overwritten, in which order, and what is beyond help.

mod common;
use common::{build, SAMPLE};
use second::bounds::MAX_SPANS;
use second::generate::{hurt, text};
use second::save::{blocks, saved};
use second::{check, save, token, Refusal};
use std::ops::Range;

const SHORT: Refusal = Refusal { number: 19, place: 0 };
const SOUND: &str = "Pattern p { W t0; V { } }";

/// A text with these PatList entries and Pattern blocks.
fn hurt_text(list: &str, patterns: &str) -> String {
    build("burst", &format!("PatternBurst b {{ PatList {{ {list} }} }} PatternExec {{ PatternBurst b; }} {patterns}"))
}

/// The spans between `«` and `»`, and the text without these marks.
fn marked(text: &str) -> (String, Vec<Range<usize>>) {
    let (mut plain, mut spans) = (String::new(), Vec::new());
    for part in text.split_inclusive(&['«', '»'][..]) {
        plain += part.trim_end_matches(&['«', '»'][..]);
        match part.chars().last() {
            Some('«') => spans.push(plain.len()..0),
            Some('»') => spans.last_mut().expect("opened").end = plain.len(),
            _ => {}
        }
    }
    (plain, spans)
}

/// The marked spans are overwritten, in the order of these numbers.
fn saves(text: &str, order: &[usize]) {
    let (plain, spans) = marked(text);
    let due: Vec<Range<usize>> = order.iter().map(|&number| spans[number].clone()).collect();
    let mut bytes = plain.clone().into_bytes();
    due.iter().for_each(|span| bytes[span.clone()].fill(b' '));
    assert_eq!(saved(plain.as_bytes()), Ok((bytes, due)), "{text}");
}

/// Refused at the mark, and nothing changes.
fn beyond_help(text: &str, number: u8) {
    let place = text.find('«').map_or(0, |place| place as u64);
    let text = text.replacen('«', "", 1);
    let mut bytes = text.clone().into_bytes();
    let mut spans = [7; 20];
    assert_eq!(save(&mut bytes, &mut spans), Err(Refusal { number, place }), "{text}");
    assert!(bytes == text.as_bytes() && spans == [7; 20], "{text}");
}

#[test]
fn a_sound_text_stays() {
    saves(SAMPLE, &[]);
    assert_eq!(save(&mut SAMPLE.to_string().into_bytes(), &mut []), Ok(0));
}

#[test]
fn each_refusal_in_a_pattern() {
    let deep = format!("{}{}", "Loop 1 { ".repeat(9), "} ".repeat(9));
    let refused_4_to_14 = [
        "V { A = 0 }",
        "%",
        "W In;",
        "W t2;",
        "Loop 0 { }",
        "V { A = 00; }",
        "V { A = 0; A = 0; }",
        "V { A = #; }",
        "Macro u;",
        &deep,
        "Shift { V { } }",
        "Loop 1 { { } V }",
        "// }\n /* } */ x\r\n",
        "Pattern x { }",
    ];
    for body in refused_4_to_14 {
        saves(&hurt_text("p;", &format!("«Pattern q {{ {body} }}»{SOUND}")), &[0]);
        saves(&hurt_text("p; «q ;» p;", &format!("{SOUND} «Pattern q {{ {body} }}» Pattern r {{ }}")), &[1, 0]);
    }
    for body in ["V { }", "W t1; V { D = 0; }", "Loop 2 { W t0; C { D = 0; } W t1; V { } }"] {
        saves(&hurt_text("p; «q ;» p;", &format!("{SOUND} «Pattern q {{ {body} }}» Pattern r {{ }}")), &[1, 0]);
        saves(&hurt_text("p;", &format!("Pattern q {{ {body} }} {SOUND}")), &[]);
    }
}

#[test]
fn headings() {
    for heading in [
        "Pattern",
        "Pattern x y",
        "Pattern ;",
        "Pattern Pattern x",
        "Pattern V",
        "Pattern 1",
        "Pattern p",
        "Pattern b",
        "Pattern }",
    ] {
        saves(&hurt_text("p;", &format!("{SOUND} «{heading} {{ W t0; }}» Pattern z {{ }}")), &[0]);
    }
    // Up to its first brace a block has room for anything, and what then matches that brace ends it.
    saves(&hurt_text("p;", &format!("{SOUND} «Pattern x; Pattern y {{ {{ }} }}» Pattern z {{ }}")), &[0]);
    // One Pattern block too many, and again.
    let sixteen: String = (0..15).map(|number| format!("Pattern x{number} {{ }} ")).collect();
    saves(&hurt_text("p;", &format!("{SOUND} {sixteen} «Pattern y {{ }}» «Pattern z {{ V }}» // end")), &[0, 1]);
}

#[test]
fn a_block_without_its_brace() {
    saves(&hurt_text("p;", &format!("{SOUND} «Pattern q {{ V {{ A = 0; }} // end \n»")), &[0]);
    saves(&hurt_text("p;", &format!("{SOUND} «Pattern q {{ V {{ A = 0; }} Pattern r {{ }}»")), &[0]);
    saves(&hurt_text("p;", &format!("{SOUND} «Pattern q»")), &[0]);
    saves(&hurt_text("p;", &format!("{SOUND} «Pattern»")), &[0]);
    // Refused before the text's end, and the block still runs to it.
    saves(&hurt_text("p; «r;»", &format!("{SOUND} «Pattern q {{ W t9; \n Pattern r {{ V {{ }} }} /* e */»")), &[1, 0]);
    // The end is not a closed block's.
    beyond_help(&hurt_text("", "«").replace("Pattern x", ""), 4);
}

#[test]
fn listed_names_that_nothing_has() {
    saves(&hurt_text("«q;» p; «b/* {\n */;» p;«q\n;»", SOUND), &[0, 1, 2]);
    saves(&hurt_text("«q;»", SOUND), &[0]);
    // 4 to 14 come first, then 15, then 17, which makes one more.
    let patterns = "Pattern p { W t0; V { } } «Pattern f { V { } }» «Pattern x { V }»";
    saves(&hurt_text("«x;» p; «f;» «q;»", patterns), &[4, 0, 2, 3, 1]);
}

#[test]
fn what_is_no_block() {
    let comments = "/* Pattern c { */ // Pattern d {\n";
    saves(&hurt_text("p;", &format!("{comments} {SOUND} «Pattern q {{ {comments} V }}» {comments}")), &[0]);
    beyond_help(&hurt_text("p;", &format!("{SOUND} «}} Pattern q {{ V }}")), 4);
    beyond_help(&hurt_text("p;", &format!("{SOUND} «pattern q {{ }} Pattern r {{ V }}")), 4);
    beyond_help(&hurt_text("p;", &format!("{SOUND} «{{ Pattern q {{ V }} }}")), 4);
    assert_eq!(
        blocks(b"Patterns { Pattern } } PatternBurst { } Pattern{}}Pattern a}{{}}Pattern"),
        [
            second::save::Block { bytes: 40..49, closed: true },
            second::save::Block { bytes: 50..64, closed: true },
            second::save::Block { bytes: 64..71, closed: false },
        ]
    );
}

#[test]
fn beyond_help_in_other_parts() {
    beyond_help("«", 4);
    beyond_help(&format!("{SAMPLE}«\u{1}"), 2);
    beyond_help(&format!("{SAMPLE}«/*"), 3);
    beyond_help(&(SAMPLE.to_string() + &" ".repeat(65_537 - SAMPLE.len())), 1);
    beyond_help(&SAMPLE.replace("In;", "«Into;"), 4);
    beyond_help(&SAMPLE.replace("m { Shift", "m { «V1 Shift"), 4);
    beyond_help(&SAMPLE.replace("Loop 2 ", "Loop 16777215 { Loop 16777215 { V { } } } Loop 2 "), 16);
    // A cycle of a macro that fails is no pattern's.
    beyond_help(&SAMPLE.replace("V { A = #; }", "V { A = #; } «V { B = 0; }"), 17);
    // The last refusal counts: without its only pattern the text has ended too early.
    beyond_help(&(SAMPLE.replace("Loop 2", "Loop 0") + "«"), 4);
    beyond_help(&hurt_text("p;", "Pattern p { V { } } Pattern q { V }«"), 4);
}

#[test]
fn room_for_the_spans() {
    let (text, spans) = marked(&hurt_text("«x;» p; «q;»", &format!("{SOUND} «Pattern q {{ V }}» «Pattern»")));
    let numbers = |at: usize| [spans[at].start as u64, spans[at].end as u64];
    let due = [2, 3, 0, 1].map(numbers).concat();
    for room in 0..12 {
        let (mut bytes, mut list) = (text.clone().into_bytes(), vec![7; room]);
        let answer = save(&mut bytes, &mut list);
        if room < due.len() {
            assert_eq!((answer, bytes, list), (Err(SHORT), text.clone().into_bytes(), vec![7; room]));
        } else {
            assert_eq!((answer, &list[..8]), (Ok(4), &due[..]));
            assert!(list[8..].iter().all(|&number| number == 7) && check(&bytes).is_ok());
        }
    }
    // Beyond help comes first.
    let answer = save(&mut hurt_text("x;", "Pattern p { V } }").into_bytes(), &mut []);
    assert_eq!(answer.map_err(|refusal| refusal.number), Err(4));
}

#[test]
fn as_many_spans_as_any_text_has() {
    let mut text = hurt_text("p;x;x;x;x;x;x;x;x;x;x;x;x;x;x;x;", SOUND);
    while text.len() + 9 <= 65_536 {
        text += "Pattern{}";
    }
    let (_, spans) = saved(text.as_bytes()).expect("saved");
    assert!(spans.len() > 7_000 && spans.len() <= MAX_SPANS, "{}", spans.len());
}

/// What any answer must be: each span is what the check refused in the text before, and the last text is accepted or beyond help.
fn holds_of(text: &[u8]) -> Option<usize> {
    let mut now = text.to_vec();
    let (left, spans) = match saved(text) {
        Ok(saved) => saved,
        Err(refusal) => {
            let mut bytes = text.to_vec();
            assert_eq!(save(&mut bytes, &mut [7; 99]), Err(refusal));
            assert!(bytes == text);
            return None;
        }
    };
    for span in &spans {
        let refusal = check(&now).expect_err("refused");
        let place = refusal.place as usize;
        let first = token(&now, span.start as u64).expect("sound bytes").expect("a token");
        assert_eq!(first.place, span.start as u64);
        let word = &now[span.start..][..first.length as usize];
        if refusal.number == 15 {
            let next = token(&now, first.place + first.length).expect("sound bytes").expect("a token");
            assert_eq!((place, next.place as usize + 1, now[span.end - 1]), (span.start, span.end, b';'));
        } else {
            assert!(refusal.number != 16 && refusal.number > 3 && word == b"Pattern");
            assert!(span.contains(&place) || (place == text.len() && span.end == place));
            assert!(span.end == text.len() || now[span.end - 1] == b'}');
        }
        now[span.clone()].fill(b' ');
    }
    assert_eq!(now, left);
    assert!(check(&left).is_ok());
    Some(spans.len())
}

#[test]
fn generated_texts() {
    let mut counts = [0; 150];
    let mut beyond = 0;
    for seed in 0..6_000 {
        match holds_of(&hurt(seed)) {
            Some(spans) => counts[spans] += 1,
            None => beyond += 1,
        }
    }
    println!("saved with so many spans {counts:?}, beyond help {beyond}");
    assert!(counts[..8].iter().all(|&count| count > 20) && counts[8..].iter().sum::<usize>() > 20);
    assert!(counts[30..].iter().sum::<usize>() > 10);
    assert!(beyond > 1_000 && beyond < 4_000);
    let helped = (0..3_000).filter(|&seed| holds_of(&text(seed)).map_or(false, |spans| spans > 0)).count();
    assert!(helped > 100, "{helped}");
}
