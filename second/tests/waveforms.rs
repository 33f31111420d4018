//! Waveforms by the list: every edge of the request, then random lists against groups that were asked for one by one.

mod common;
use common::SAMPLE;
use second::generate::{random::Random, text};
use second::refusal::Answer;
use second::timing::Asked;
use second::{check, waveforms, Document, Refusal, Waveforms};

/// What was lent, filled with what is in no answer; the lengths are the rooms.
#[derive(Clone, Debug, PartialEq, Eq)]
struct Lent {
    times: Vec<i64>,
    letters: Vec<u8>,
    counts: Vec<u64>,
}

impl Lent {
    fn new(times: usize, letters: usize, counts: usize) -> Lent {
        Lent { times: vec![7; times], letters: vec![b'-'; letters], counts: vec![99; counts] }
    }

    /// With these items at the fronts.
    fn holding(mut self, times: &[i64], letters: &str, counts: &[u64]) -> Lent {
        self.times[..times.len()].copy_from_slice(times);
        self.letters[..letters.len()].copy_from_slice(letters.as_bytes());
        self.counts[..counts.len()].copy_from_slice(counts);
        self
    }
}

fn ask(text: &[u8], list: &[u64], lent: &Lent) -> (Answer<Waveforms>, Lent) {
    let mut lent = lent.clone();
    let answer = waveforms(text, list, &mut lent.times, &mut lent.letters, &mut lent.counts);
    (answer, lent)
}

/// Of document 01's text.
fn due(list: &[u64], lent: &Lent, answer: Answer<Waveforms>, left: &Lent) {
    assert_eq!(ask(SAMPLE.as_bytes(), list, lent), (answer, left.clone()), "{list:?}");
}

fn all(events: u64) -> Answer<Waveforms> {
    Ok(Waveforms::All { events })
}

fn stopped(served: u64, number: u8) -> Answer<Waveforms> {
    Ok(Waveforms::Stopped { served, refusal: Refusal { number, place: 0 } })
}

fn refused(number: u8) -> Answer<Waveforms> {
    Err(Refusal { number, place: 0 })
}

/// D at 0; Z at 0 and X at 50,000; U at 0.
const A0: [u64; 3] = [0, 0, b'0' as u64];
const BX: [u64; 3] = [0, 1, b'X' as u64];
const A1: [u64; 3] = [0, 0, b'1' as u64];

#[test]
fn groups_stand_one_after_another() {
    let lent = Lent::new(6, 5, 4);
    let left = lent.clone().holding(&[0, 0, 50_000, 0], "DZXU", &[1, 2, 1]);
    due(&[A0, BX, A1].concat(), &lent, all(4), &left);
    let exact = Lent::new(4, 4, 3);
    due(&[A0, BX, A1].concat(), &exact, all(4), &exact.clone().holding(&[0, 0, 50_000, 0], "DZXU", &[1, 2, 1]));
    due(&[BX, BX].concat(), &lent, all(4), &lent.clone().holding(&[0, 50_000, 0, 50_000], "ZXZX", &[2, 2]));
}

#[test]
fn an_empty_list_asks_for_nothing() {
    for lent in [Lent::new(0, 0, 0), Lent::new(2, 3, 4)] {
        due(&[], &lent, all(0), &lent);
        assert_eq!(ask(b"x", &[], &lent), (refused(4), lent));
    }
}

#[test]
fn the_texts_refusals_come_first() {
    let lent = Lent::new(9, 9, 0);
    let long = [A0; 65].concat();
    assert_eq!(ask(b"x", &long, &lent), (refused(4), lent.clone()));
    assert_eq!(ask(&[b' '; 65_537], &long, &lent), (refused(1), lent.clone()));
    let untimed = SAMPLE.replace("W t0;", "");
    let place = untimed.find("V { A = 1; }").expect("its first V") as u64;
    assert_eq!(ask(untimed.as_bytes(), &long, &lent), (Err(Refusal { number: 17, place }), lent));
}

#[test]
fn lists_on_the_bound() {
    let full = [A0; 64].concat();
    let lent = Lent::new(64, 64, 64);
    due(&full, &lent, all(64), &lent.clone().holding(&[0; 64], &"D".repeat(64), &[1; 64]));
    let more = Lent::new(99, 99, 99);
    due(&[A0; 65].concat(), &more, refused(8), &more);
    due(&[full.clone(), vec![0]].concat(), &more, refused(8), &more);
    due(&[full.clone(), vec![0, 0]].concat(), &more, refused(8), &more);
    due(&vec![u64::MAX; 3 * 65], &more, refused(8), &more);
    // 8 comes before 19.
    let none = Lent::new(0, 0, 0);
    due(&[A0; 65].concat(), &none, refused(8), &none);
}

#[test]
fn counts_must_have_room_for_all() {
    let full = [A0; 64].concat();
    for counts in [0, 1, 62, 63] {
        let short = Lent::new(99, 99, counts);
        due(&full, &short, refused(19), &short);
    }
    // Even where the first waveform would be refused, and 18 comes before 19.
    let short = Lent::new(9, 9, 1);
    due(&[[9, 9, 9], A0].concat(), &short, refused(19), &short);
    due(&[&A0[..], &[0]].concat(), &short, refused(19), &short);
    due(&[0], &Lent::new(9, 9, 0), refused(19), &Lent::new(9, 9, 0));
    due(&A0, &short, all(1), &short.clone().holding(&[0], "D", &[1]));
}

#[test]
fn the_first_that_is_refused_ends_the_list() {
    let wide = 1 << 32;
    let zero = u64::from(b'0');
    let no_such = [
        [1, 0, zero],
        [256, 0, zero],
        [wide, 0, zero],
        [0, 2, zero],
        [0, 256, zero],
        [0, wide, zero],
        [0, 0, b'X'.into()],
        [0, 0, b'#'.into()],
        [0, 0, 0],
        [0, 0, zero + 128],
        [0, 0, 255],
        [0, 0, 256],
        [0, 0, zero + 256],
        [0, 0, zero + wide],
        [u64::MAX; 3],
    ];
    let lent = Lent::new(8, 8, 5);
    for wrong in no_such {
        due(&[wrong, A0, BX].concat(), &lent, stopped(0, 18), &lent);
        let left = lent.clone().holding(&[0, 0, 50_000], "DZX", &[1, 2]);
        due(&[A0, BX, wrong, A1, A1].concat(), &lent, stopped(2, 18), &left);
        due(&[A0, BX, wrong].concat(), &lent, stopped(2, 18), &left);
        due(&[A0, BX, wrong, wrong].concat(), &lent, stopped(2, 18), &left);
    }
}

/// Groups of 1, 2 and 1 events: the lesser room says how many are served, and of no group a part.
#[test]
fn room_that_ends_in_or_before_a_group() {
    let list = [A0, BX, A1].concat();
    let (times, letters, counts) = ([0, 0, 50_000, 0], "DZXU", [1, 2, 1]);
    for room in (0..36).map(|pair| [pair / 6, pair % 6]) {
        let (served, events) = [(0, 0), (1, 1), (1, 1), (2, 3), (3, 4), (3, 4)][room[0].min(room[1])];
        let lent = Lent::new(room[0], room[1], 3);
        let left = lent.clone().holding(&times[..events], &letters[..events], &counts[..served]);
        let answer = if served == 3 { all(4) } else { stopped(served as u64, 19) };
        due(&list, &lent, answer, &left);
    }
}

#[test]
fn without_room_18_still_comes_first() {
    let lent = Lent::new(1, 1, 9);
    let left = lent.clone().holding(&[0], "D", &[1]);
    due(&[A0, A1].concat(), &lent, stopped(1, 19), &left);
    due(&[A0, [0, 0, 1]].concat(), &lent, stopped(1, 18), &left);
    // The last would fit, and is not reached.
    let two = Lent::new(2, 2, 3);
    due(&[A0, BX, A1].concat(), &two, stopped(1, 19), &two.clone().holding(&[0], "D", &[1]));
}

#[test]
fn numbers_left_over_name_no_character() {
    let lent = Lent::new(9, 9, 64);
    for left_over in [&[0][..], &[0, 0], &[u64::MAX], &[0, u64::MAX]] {
        due(left_over, &lent, stopped(0, 18), &lent);
        let left = lent.clone().holding(&[0, 50_000, 0], "ZXU", &[2, 1]);
        due(&[&BX[..], &A1, left_over].concat(), &lent, stopped(2, 18), &left);
        // In its turn: what is refused before it ends the list.
        due(&[&[5, 5, 5][..], left_over].concat(), &lent, stopped(0, 18), &lent);
        let short = Lent::new(0, 9, 2);
        due(&[&A0[..], left_over].concat(), &short, stopped(0, 19), &short);
        // The 64th waveform of the list.
        let full = Lent::new(63, 63, 64);
        let left = full.clone().holding(&[0; 63], &"D".repeat(63), &[1; 63]);
        due(&[&[A0; 63].concat()[..], left_over].concat(), &full, stopped(63, 18), &left);
    }
}

/// Every waveform of the text.
fn having(document: &Document) -> Vec<[u64; 3]> {
    let sum = document.summary();
    let mut found = Vec::new();
    for table in 0..sum.tables {
        for signal in 0..sum.signals {
            let has = |&character: &u8| {
                let asked = Asked { table, signal, character };
                document.timing.waveform(document.text, &document.pins, asked).is_some()
            };
            found.extend((0..=255).filter(has).map(|character| [table, signal, character.into()]));
        }
    }
    found
}

/// Waveforms that are there, now and then one that is not, and numbers left over.
fn draw_list(having: &[[u64; 3]], random: &mut Random) -> Vec<u64> {
    let count = [random.between(0, 5), random.between(0, 20), random.between(50, 63), 64, 65][random.below(5)];
    let wrong = random.percent(40);
    let mut list = Vec::new();
    for _ in 0..count {
        let mut asked = having[random.below(having.len())];
        if wrong && random.percent(10) {
            asked[random.below(3)] += [1, 256, 1 << 32][random.below(3)];
        }
        list.extend(asked);
    }
    if random.percent(20) {
        list.extend(vec![0; random.between(1, 2)]);
    }
    list
}

/// The events of one waveform of the list, whatever room is left.
fn group(document: &Document, numbers: &[u64]) -> Answer<Vec<(i64, u8)>> {
    let (mut times, mut letters) = ([0; 16], [0; 16]);
    let none = Refusal { number: 18, place: 0 };
    let character = numbers.get(2).and_then(|&character| u8::try_from(character).ok()).ok_or(none)?;
    let asked = Asked { table: numbers[0], signal: numbers[1], character };
    let count = document.waveform(asked, &mut times, &mut letters)?;
    Ok(times.into_iter().zip(letters).take(count as usize).collect())
}

/// The request's words over the groups of a whole list: the longest front that is there and has room is served.
fn plain(groups: &[Answer<Vec<(i64, u8)>>], lent: &Lent) -> (Answer<Waveforms>, Lent) {
    let mut left = lent.clone();
    if groups.len() > 64 || groups.len() > left.counts.len() {
        return (refused(if groups.len() > 64 { 8 } else { 19 }), left);
    }
    let room = left.times.len().min(left.letters.len());
    let there: Vec<&[(i64, u8)]> = groups.iter().map_while(|group| group.as_deref().ok()).collect();
    let events = |served: usize| there[..served].concat();
    let served = (0..=there.len()).rev().find(|&served| events(served).len() <= room).expect("none");
    for (at, (time, letter)) in events(served).into_iter().enumerate() {
        (left.times[at], left.letters[at]) = (time, letter);
    }
    (0..served).for_each(|at| left.counts[at] = there[at].len() as u64);
    let number = if served == there.len() { 18 } else { 19 };
    let answer = if served == groups.len() { all(events(served).len() as u64) } else { stopped(served as u64, number) };
    (answer, left)
}

#[test]
fn random_lists_are_the_plain_ones() {
    let mut random = Random::new(1);
    let mut seen = [0; 20];
    for seed in 0..1_500 {
        let text = text(seed);
        let document = match Document::read(&text) {
            Ok(document) => document,
            Err(_) => continue,
        };
        let having = having(&document);
        for _ in 0..if having.is_empty() { 0 } else { 20 } {
            let list = draw_list(&having, &mut random);
            let groups: Vec<_> = list.chunks(3).map(|numbers| group(&document, numbers)).collect();
            let due: usize = groups.iter().flatten().map(Vec::len).sum();
            let mut room = |due: usize| [due, due, due + 3, random.below(due + 1)][random.below(4)];
            let lent = Lent::new(room(due), room(due), room(groups.len()));
            let answer = ask(&text, &list, &lent);
            assert_eq!(answer, plain(&groups, &lent), "seed {seed}: {list:?}");
            seen[match answer.0 {
                Ok(Waveforms::All { .. }) => 0,
                Ok(Waveforms::Stopped { refusal, .. }) | Err(refusal) => refusal.number as usize,
            }] += 1;
        }
    }
    println!("by number (0: all served): {seen:?}");
    assert!([0, 8, 18, 19].iter().all(|&number| seen[number] > 500), "{seen:?}");
}

#[test]
fn refused_texts_write_nothing() {
    let mut refusals = 0;
    for text in (0..300).map(text) {
        if let Err(refusal) = check(&text) {
            let lent = Lent::new(20, 20, 2);
            assert_eq!(ask(&text, &[A0, BX].concat(), &lent), (Err(refusal), lent));
            refusals += 1;
        }
    }
    assert!(refusals > 50);
}
