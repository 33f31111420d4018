//! The intake: every edge of the request in all cuts, then short, random and generated texts against the whole text squeezed at once.

mod common;
use common::SAMPLE;
use second::bounds::{MAX_RAW, MAX_TEXT};
use second::generate::{nested, random::Random, text};
use second::squeeze::{squeeze, squeezed};
use second::tokens::{check_bytes, token_from};
use second::{check, Intake, Progress, Refusal};

const UNTOUCHED: u8 = b'-';

fn refused(number: u8, place: usize) -> Progress {
    Progress::Refused(Refusal { number, place: place as u64 })
}

/// The chunks and the close on one store; gives the final answer and the store.
fn taken_in(chunks: &[&[u8]], store: usize) -> (Progress, Vec<u8>) {
    let mut intake = Intake::default();
    let mut store = vec![UNTOUCHED; store];
    let mut raw = Vec::new();
    for chunk in chunks {
        let before = store.clone();
        let answer = intake.take(chunk, &mut store);
        raw.extend_from_slice(chunk);
        match answer {
            Progress::Open => assert_eq!(store, stored_before_close(&raw, store.len()), "{chunks:?}"),
            Progress::Refused(_) => assert_eq!(store, before, "{chunks:?}"),
            Progress::Closed(_) => panic!("not closed: {chunks:?}"),
        }
    }
    let before = store.clone();
    let answer = intake.close(&mut store);
    assert!(matches!(answer, Progress::Closed(_)) || store == before, "{chunks:?}");
    repeats(&mut intake, answer, &store);
    (answer, store)
}

/// The marks and slashes that still wait are not there.
fn stored_before_close(raw: &[u8], room: usize) -> Vec<u8> {
    let mut store = vec![UNTOUCHED; room];
    let (stored, _) = squeezed(raw);
    let shown = stored.iter().filter(|stored| stored.with < raw.len());
    shown.enumerate().for_each(|(at, stored)| store[at] = stored.byte);
    store
}

/// Every later call gives the same answer and writes nothing, whatever it is handed.
fn repeats(intake: &mut Intake, answer: Progress, store: &[u8]) {
    for later in [&b""[..], b"a", b"\0", b"*/ b/ "] {
        for room in [store.len(), store.len() + 9, 0] {
            let lent: Vec<u8> = (0..room).map(|at| *store.get(at).unwrap_or(&UNTOUCHED)).collect();
            let mut left = lent.clone();
            assert_eq!(intake.take(later, &mut left), answer);
            assert_eq!(intake.close(&mut left), answer);
            assert_eq!(left, lent);
        }
    }
}

/// What the whole text gives at once.
fn at_once(raw: &[u8], store: usize) -> Result<Vec<u8>, Progress> {
    squeeze(raw, store).map_err(Progress::Refused)
}

/// The intake of these chunks must give this.
fn holds(chunks: &[&[u8]], store: usize, due: &Result<Vec<u8>, Progress>) {
    let (answer, left) = taken_in(chunks, store);
    match due {
        Err(refusal) => assert_eq!(answer, *refusal, "{chunks:?} in {store}"),
        Ok(stored) => {
            assert_eq!(answer, Progress::Closed(stored.len() as u64), "{chunks:?} in {store}");
            let (front, rest) = left.split_at(stored.len());
            assert_eq!(front, stored, "{chunks:?} in {store}");
            assert!(rest.iter().all(|&byte| byte == UNTOUCHED), "{chunks:?} in {store}");
        }
    }
}

/// Cut behind each byte whose bit is set.
fn cut(raw: &[u8], bits: usize) -> Vec<&[u8]> {
    let mut chunks = Vec::new();
    let mut from = 0;
    for at in (1..raw.len()).filter(|at| bits >> (at - 1) & 1 == 1) {
        chunks.push(&raw[from..at]);
        from = at;
    }
    chunks.push(&raw[from..]);
    chunks
}

/// In every cut, also with empty chunks between.
fn in_every_cut(raw: &[u8], store: usize, due: Result<Vec<u8>, Progress>) {
    assert_eq!(at_once(raw, store), due, "{:?} in {store}", raw.escape_ascii().to_string());
    for bits in 0..1 << raw.len().saturating_sub(1) {
        let chunks = cut(raw, bits);
        holds(&chunks, store, &due);
        let empty: &[u8] = &[];
        let spread: Vec<&[u8]> = chunks.iter().flat_map(|chunk| [empty, chunk, empty]).collect();
        holds(&spread, store, &due);
    }
}

/// A raw text, and what it is squeezed to.
const STORED: [(&str, &str); 49] = [
    ("", ""),
    ("a", "a"),
    ("abc", "abc"),
    (" ", " "),
    ("\t", " "),
    ("\r", " "),
    ("\n", "\n"),
    (" \t\r", " "),
    (" \n ", "\n"),
    ("a\r\nb", "a\nb"),
    ("  a  b  ", " a b "),
    ("/", "/"),
    ("a/", "a/"),
    ("a /", "a /"),
    ("a/b", "a/b"),
    ("a /b", "a /b"),
    ("a/ b", "a/ b"),
    ("a / b", "a / b"),
    ("/ /", "/ /"),
    ("/ *", "/ *"),
    ("*/", "*/"),
    ("*/*a*/", "* "),
    ("/\n/", "/\n/"),
    ("//", " "),
    ("///", " "),
    ("//\n", "\n"),
    ("a//x", "a "),
    ("a//x\nb", "a\nb"),
    ("a//\rb", "a "),
    ("a///*\nb", "a\nb"),
    ("//\n//\n/", "\n/"),
    ("/**/", " "),
    ("/***/x", " x"),
    ("/*/*/x", " x"),
    ("/*/ */x", " x"),
    ("/* * */x", " x"),
    ("/**//", " /"),
    ("/**/*", " *"),
    ("/*\n*/", "\n"),
    ("/*\n*/ a", "\na"),
    (" /*\n*/a", "\na"),
    ("a/**/b", "a b"),
    ("a /**/ b", "a b"),
    ("a/**//b", "a /b"),
    ("/**//**/", " "),
    ("/**///\n", "\n"),
    ("'//'\n;", "'\n;"),
    ("#/*#*/#", "# #"),
    ("a/*//*/b", "a b"),
];

#[test]
fn what_is_stored() {
    for (raw, stored) in STORED {
        in_every_cut(raw.as_bytes(), stored.len(), Ok(stored.into()));
        in_every_cut(raw.as_bytes(), stored.len() + 2, Ok(stored.into()));
    }
}

/// The number and the place that are due in a store of so many bytes.
const REFUSED: [(&[u8], usize, u8, usize); 44] = [
    // A byte that is not allowed, wherever it stands.
    (b"\0", 9, 2, 0),
    (b"a\x7f", 9, 2, 1),
    (b"a\x80", 9, 2, 1),
    (b"\x0b", 9, 2, 0),
    (b" \x1f", 9, 2, 1),
    (b"//\0\n", 9, 2, 2),
    (b"/*\0*/", 9, 2, 2),
    (b"/\0", 9, 2, 1),
    (b"a\0\0", 9, 2, 1),
    // 2 comes before 3, and before 20 at the same byte; an earlier 20 comes before 2.
    (b"/* \0", 9, 2, 3),
    (b"\0", 0, 2, 0),
    (b" \0", 0, 2, 1),
    (b"/\0", 0, 2, 1),
    (b"a \0", 1, 2, 2),
    (b"a\0", 0, 20, 0),
    (b"ab\0", 1, 20, 1),
    // A comment that is not closed, before 20 at the close.
    (b"/*", 9, 3, 0),
    (b"/*/", 9, 3, 0),
    (b"/* *", 9, 3, 0),
    (b"a /**//*/", 9, 3, 6),
    (b"//\n/*//", 9, 3, 3),
    (b"/*/*", 9, 3, 0),
    (b"/*", 0, 3, 0),
    (b"a /*", 1, 3, 2),
    (b"ab/*", 1, 20, 1),
    // Room for what a byte adds: itself, with it a mark, a slash, or both.
    (b"a", 0, 20, 0),
    (b"ab", 1, 20, 1),
    (b"a b", 1, 20, 2),
    (b"a b", 2, 20, 2),
    (b"a/b", 1, 20, 2),
    (b"a/b", 2, 20, 2),
    (b"a /b", 1, 20, 3),
    (b"a /b", 2, 20, 3),
    (b"a /b", 3, 20, 3),
    (b"a/ b", 1, 20, 2),
    (b"a/ b", 2, 20, 3),
    (b"a/ b", 3, 20, 3),
    (b"a / b", 2, 20, 3),
    (b"a/*x*/b", 2, 20, 6),
    // At the close the place is the raw length.
    (b" ", 0, 20, 1),
    (b"a//x", 1, 20, 4),
    (b"/", 0, 20, 1),
    (b"a /", 1, 20, 3),
    (b"a /", 2, 20, 3),
];

#[test]
fn what_is_refused() {
    for (raw, store, number, place) in REFUSED {
        in_every_cut(raw, store, Err(refused(number, place)));
    }
}

#[test]
fn calls_before_the_refused_one_stay_written() {
    let (answer, store) = taken_in(&[b"ab", b" c", b"d\0", b"e"], 6);
    assert_eq!((answer, &store[..]), (refused(2, 5), &b"ab c--"[..]));
    let (answer, store) = taken_in(&[b"ab", b" c/", b"de"], 5);
    assert_eq!((answer, &store[..]), (refused(20, 5), &b"ab c-"[..]));
    let (answer, store) = taken_in(&[b"a/", b"*b", b" "], 5);
    assert_eq!((answer, &store[..]), (refused(3, 1), &b"a----"[..]));
    let (answer, store) = taken_in(&[b"ab", b" /"], 3);
    assert_eq!((answer, &store[..]), (refused(20, 4), &b"ab-"[..]));
}

#[test]
fn without_chunks() {
    assert_eq!(taken_in(&[], 0), (Progress::Closed(0), vec![]));
    assert_eq!(taken_in(&[], 2), (Progress::Closed(0), vec![UNTOUCHED; 2]));
    assert_eq!(taken_in(&[b"", b""], 1), (Progress::Closed(0), vec![UNTOUCHED]));
}

/// In large chunks, so that what was taken in before is not squeezed anew for each byte.
fn large(raw: &[u8], store: usize, due: Progress) {
    let length = match due {
        Progress::Closed(length) => Ok(length),
        refusal => Err(refusal),
    };
    assert_eq!(at_once(raw, store).map(|stored| stored.len() as u64), length);
    for size in [usize::MAX, raw.len() - 1, 300_001] {
        assert_eq!(taken_in(&raw.chunks(size).collect::<Vec<_>>(), store).0, due);
    }
}

#[test]
fn raw_texts_on_the_limit() {
    let blanks = vec![b' '; MAX_RAW + 2];
    let comment = [b"/*", &blanks[..MAX_RAW - 4], b"*/"].concat();
    large(&blanks[..MAX_RAW], 1, Progress::Closed(1));
    large(&blanks[..MAX_RAW], 0, refused(20, MAX_RAW));
    large(&comment, 1, Progress::Closed(1));
    large(&blanks[..MAX_RAW + 1], 1, refused(1, MAX_RAW));
    large(&blanks, 1, refused(1, MAX_RAW));
    large(&[&comment[..], b"/"].concat(), 1, refused(1, MAX_RAW));
    large(&comment[..MAX_RAW - 1], 1, refused(3, 0));
    large(&[&comment[..MAX_RAW - 1], b"x"].concat(), 1, refused(3, 0));
    large(&[&comment[..MAX_RAW - 1], b"xx"].concat(), 1, refused(1, MAX_RAW));
    // The byte past the limit is 1 before it is 2 or 20; the one before it is 2.
    large(&[&blanks[..MAX_RAW], b"\0"].concat(), 1, refused(1, MAX_RAW));
    large(&[&blanks[..MAX_RAW], b"a"].concat(), 0, refused(1, MAX_RAW));
    large(&[&blanks[..MAX_RAW - 1], b"\0a"].concat(), 1, refused(2, MAX_RAW - 1));
    large(&[&blanks[..MAX_RAW - 1], b"ab"].concat(), 1, refused(20, MAX_RAW - 1));
}

#[test]
fn at_the_limit_an_empty_chunk_is_taken() {
    let (mut intake, mut store) = (Intake::default(), [UNTOUCHED; 2]);
    assert_eq!(intake.take(&vec![b'\n'; MAX_RAW], &mut store), Progress::Open);
    assert_eq!(intake.take(b"", &mut store), Progress::Open);
    assert_eq!(intake.clone().close(&mut store.clone()), Progress::Closed(1));
    assert_eq!(intake.take(b"a", &mut store), refused(1, MAX_RAW));
    assert_eq!(store, [UNTOUCHED; 2]);
}

#[test]
fn no_more_than_a_text_is_stored() {
    let kept = vec![b'a'; MAX_TEXT + 1];
    for store in [MAX_TEXT, MAX_TEXT + 1, 70_000, MAX_RAW] {
        large(&kept[..MAX_TEXT], store, Progress::Closed(MAX_TEXT as u64));
        large(&kept, store, refused(20, MAX_TEXT));
        large(&[&kept[..MAX_TEXT], b" "].concat(), store, refused(20, MAX_TEXT + 1));
        large(&[&kept[..MAX_TEXT - 1], b"//\n"].concat(), store, Progress::Closed(MAX_TEXT as u64));
        large(&[&kept[..MAX_TEXT - 1], b" b"].concat(), store, refused(20, MAX_TEXT));
    }
    large(&kept[..MAX_TEXT], MAX_TEXT - 1, refused(20, MAX_TEXT - 1));
    let commented = [&kept[..MAX_TEXT - 2], b"/*", &vec![b'*'; MAX_RAW - MAX_TEXT - 2][..], b"/a"].concat();
    assert_eq!(commented.len(), MAX_RAW);
    large(&commented, MAX_TEXT, Progress::Closed(MAX_TEXT as u64));
}

const ALPHABET: [u8; 8] = *b"/*a\n \t#\0";

#[test]
fn every_short_text() {
    let mut texts = vec![Vec::new()];
    for length in 0..=5 {
        for raw in &texts {
            for store in 0..=length + 1 {
                let due = at_once(raw, store);
                holds(&[raw], store, &due);
                holds(&raw.chunks(1).collect::<Vec<_>>(), store, &due);
                holds(&cut(raw, 0b01010), store, &due);
            }
        }
        texts = texts.iter().flat_map(|text| ALPHABET.map(|byte| [&text[..], &[byte]].concat())).collect();
    }
}

/// Of the alphabet, mostly what makes comments; a byte that is not allowed only where asked for.
fn draw_raw(most: usize, wrong: bool, random: &mut Random) -> Vec<u8> {
    let length = random.below(most + 1);
    let slashes = random.between(20, 80);
    let mut draw = || match random.below(100) {
        0 if wrong => b'\0',
        chance if chance < slashes => ALPHABET[random.below(2)],
        _ => ALPHABET[2 + random.below(5)],
    };
    (0..length).map(|_| draw()).collect()
}

fn draw_cuts<'r>(mut raw: &'r [u8], random: &mut Random) -> Vec<&'r [u8]> {
    let mut chunks = Vec::new();
    let most = [1, 3, 20, 1_000][random.below(4)];
    while !raw.is_empty() {
        let (chunk, rest) = raw.split_at(random.below(most + 1).min(raw.len()));
        chunks.push(chunk);
        raw = rest;
    }
    chunks
}

#[test]
fn random_texts_in_random_cuts() {
    let mut random = Random::new(3);
    let mut seen = [0; 21];
    for _ in 0..20_000 {
        let wrong = random.percent(50);
        let raw = draw_raw([8, 40, 300][random.below(3)], wrong, &mut random);
        let squeezed = squeezed(&raw).0.len();
        let store = [squeezed, squeezed, squeezed + 5, random.below(squeezed + 1)][random.below(4)];
        let due = at_once(&raw, store);
        for _ in 0..4 {
            holds(&draw_cuts(&raw, &mut random), store, &due);
        }
        seen[match due {
            Err(Progress::Refused(refusal)) => refusal.number as usize,
            _ => 0,
        }] += 1;
    }
    println!("by number (0: closed): {seen:?}");
    assert!([0, 2, 3, 20].iter().all(|&number| seen[number] > 1_000), "{seen:?}");
}

/// The tokens' bytes, by the token rules of document 01.
fn tokens(text: &[u8]) -> Vec<&[u8]> {
    let mut tokens = Vec::new();
    let mut token = token_from(text, 0);
    while token.length > 0 {
        tokens.push(token.bytes(text));
        token = token_from(text, (token.place + token.length) as usize);
    }
    tokens
}

fn stored(raw: &[u8]) -> Result<Vec<u8>, Progress> {
    match taken_in(&[raw], MAX_TEXT) {
        (Progress::Closed(length), mut store) => {
            store.truncate(length as usize);
            Ok(store)
        }
        (refusal, _) => Err(refusal),
    }
}

#[test]
fn a_store_has_the_tokens_of_its_raw_text() {
    let mut random = Random::new(5);
    let mut closed = 0;
    for _ in 0..3_000 {
        let raw = draw_raw(60, false, &mut random);
        if let Ok(store) = stored(&raw) {
            assert_eq!(check_bytes(&store), Ok(()), "{raw:?}");
            assert_eq!(tokens(&store), tokens(&raw), "{raw:?}");
            assert_eq!(squeezed(&store).0.len(), store.len(), "{raw:?}");
            closed += 1;
        }
    }
    assert!(closed > 1_000);
    let long = format!("{}{SAMPLE}{}", "// reel\n".repeat(9_000), "/* end */".repeat(100_000));
    assert_eq!(tokens(&stored(long.as_bytes()).expect("closed")), tokens(SAMPLE.as_bytes()));
}

/// A refusal's place as the number of its token, so that it is the same in raw text and store; 16 has none.
fn by_token(text: &[u8]) -> Result<second::Summary, (u8, usize)> {
    check(text).map_err(|Refusal { number, place }| {
        let before = if number == 16 { &[] } else { &text[..place as usize] };
        (number, tokens(before).len())
    })
}

#[test]
fn generated_texts_are_judged_alike() {
    let mut refusals = 0;
    for raw in (0..1_500).flat_map(|seed| [text(seed), nested(seed)]) {
        let judged = by_token(&raw);
        match (judged, stored(&raw)) {
            (Err((1, _)), _) => {}
            (Err((number @ 2..=3, _)), store) => {
                let place = check(&raw).expect_err("refused").place as usize;
                assert_eq!(store, Err(refused(number, place)));
            }
            (judged, store) => {
                assert_eq!(by_token(&store.expect("closed")), judged);
                refusals += u32::from(judged.is_err());
            }
        }
    }
    assert!(refusals > 500);
}

/// The request speaks of one store only. In a shorter one, what adds nothing still lacks no room.
#[test]
fn a_shorter_store() {
    let mut intake = Intake::default();
    assert_eq!(intake.take(b"ab", &mut [0; 2]), Progress::Open);
    assert_eq!(intake.clone().close(&mut []), Progress::Closed(2));
    assert_eq!(intake.take(b"//\n /", &mut []), Progress::Open);
    assert_eq!(intake.clone().close(&mut [0; 3]), refused(20, 7));
    assert_eq!(intake.clone().close(&mut [0; 4]), Progress::Closed(4));
    assert_eq!(intake.take(b" ", &mut [0; 3]), refused(20, 7));
}

/// Any stores: no call fails, and a refused one writes nothing.
#[test]
fn other_stores() {
    let mut random = Random::new(9);
    for _ in 0..5_000 {
        let raw = draw_raw(60, false, &mut random);
        let mut intake = Intake::default();
        for chunk in draw_cuts(&raw, &mut random) {
            let mut store = vec![UNTOUCHED; random.below(40)];
            let answer = intake.take(chunk, &mut store);
            assert!(answer == Progress::Open || store.iter().all(|&byte| byte == UNTOUCHED));
        }
        intake.close(&mut vec![UNTOUCHED; random.below(40)]);
    }
}
