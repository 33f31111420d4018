//! Wider parts (request 12): up to 256 signals and 128 groups, and texts of fewer signals as they were.

use second::bounds::{MAX_GROUPS, MAX_SIGNALS, MAX_TEXT};
use second::generate::{nested, text};
use second::pinset::PinSet;
use second::tokens::{check_bytes, tokens};
use second::{check, name, waveform, Declared, Document, Refusal, DOT};

const NO_SUCH: Refusal = Refusal { number: 18, place: 0 };

fn join(count: usize, between: &str, item: impl Fn(usize) -> String) -> String {
    (0..count).map(item).collect::<Vec<String>>().join(between)
}

/// A text of so many signals, in one group `all`, whose one table has 0, 1 and x for each.
fn wide(signals: usize, groups: &str, blocks: &str, pattern: &str) -> String {
    let declared = join(signals, " ", |pin| format!("s{pin} In;"));
    let all = join(signals, "+", |pin| format!("s{pin}"));
    format!(
        "STIL 1.0; Signals {{ {declared} }} SignalGroups {{ all = '{all}'; {groups} }}
Timing {{ WaveformTable t {{ Period '1ns'; Waveforms {{ all {{ 01x {{ '0ns' D/U/Z; }} }} }} }} }} {blocks}
PatternBurst b {{ PatList {{ p; }} }} PatternExec {{ PatternBurst b; }} Pattern p {{ {pattern} }}"
    )
}

fn rows(text: &str) -> String {
    let document = Document::read(text.as_bytes()).unwrap_or_else(|refusal| panic!("{refusal:?}: {text}"));
    let mut buffer = vec![0; document.extent.cycles as usize * document.row_width()];
    document.window(0, document.extent.cycles, DOT, &mut buffer).expect("room");
    String::from_utf8(buffer).expect("plain")
}

#[test]
fn each_signal_by_itself() {
    for signals in [1, 63, 64, 65, 127, 128, 129, 192, 193, 208, 255, 256] {
        for pin in [0, 62, 63, 64, 65, 127, 128, 191, 192, 254, 255].into_iter().filter(|&pin| pin < signals) {
            let (before, behind) = (".".repeat(pin), ".".repeat(signals - pin - 1));
            let text = wide(signals, "", "", &format!("W t; V {{ s{pin} = x; }} V {{ all = \\r{signals} 1; }}"));
            assert_eq!(rows(&text), format!("{before}x{behind}0\n{}0\n", "1".repeat(signals)));
            let bytes = text.as_bytes();
            let found = name(bytes, Declared::Signal, pin as u64).expect("declared");
            assert_eq!(&text[found.place as usize..][..found.length as usize], format!("s{pin}"));
            let (mut times, mut letters) = ([7; 1], [7; 1]);
            assert_eq!(waveform(bytes, 0, pin as u64, b'1', &mut times, &mut letters), Ok(1));
            assert_eq!((times, letters), ([0], [b'U']));
        }
        let text = wide(signals, "", "", "");
        assert_eq!(check(text.as_bytes()).map(|sum| sum.signals), Ok(signals as u64));
        for past in [signals as u64, 256, 257, 256 + signals as u64, u64::MAX] {
            assert_eq!(name(text.as_bytes(), Declared::Signal, past), Err(NO_SUCH));
            assert_eq!(waveform(text.as_bytes(), 0, past, b'1', &mut [0; 16], &mut [0; 16]), Err(NO_SUCH));
        }
    }
}

#[test]
fn values_come_back_for_each_signal() {
    let all = "\\r256 0";
    let blocks = "Procedures { q { V { s255 = 1; } } } MacroDefs { m { V { s254 = #; s0 = #; } Shift { V { s255 = #; s64 = #; } } } }";
    let pattern =
        format!("W t; C {{ all = {all}; }} Call q; Macro m {{ s254 = x; s0 = 1; s64 = x1; s255 = 1x; }} V {{ }}");
    let row = |given: &[(usize, &str)]| {
        let mut row = "0".repeat(256);
        given.iter().for_each(|&(pin, character)| row.replace_range(pin..pin + 1, character));
        row + "0\n"
    };
    let procedure = ".".repeat(255) + "10\n";
    let first = row(&[(254, "x"), (0, "1")]);
    let shifted = [("1", "x"), ("x", "1")].map(|(last, other)| row(&[(254, "x"), (0, "1"), (255, last), (64, other)]));
    assert_eq!(
        rows(&wide(256, "", blocks, &pattern)),
        [procedure, first, shifted[0].clone(), shifted[1].clone(), shifted[1].clone()].concat()
    );
    // The last signal's argument is missed like any other's.
    let missing = wide(256, "", blocks, "W t; Macro m { s254 = x; s0 = 1; s64 = x1; }");
    assert_eq!(check(missing.as_bytes()).map_err(|refusal| refusal.number), Err(13));
    // And its character without a waveform.
    let lacking = wide(256, "", "", "W t; V { s255 = y; }");
    assert_eq!(
        check(lacking.as_bytes()),
        Err(Refusal { number: 17, place: lacking.find("V {").expect("there") as u64 })
    );
}

#[test]
fn groups_of_many() {
    let more = |count: usize| join(count, " ", |number| format!("g{number} = 'all-s{number}+s{number}';"));
    let last = format!("W t; V {{ g126 = \\r{} 0 1; }}", MAX_SIGNALS - 1);
    let due = format!("{}1{}0\n", "0".repeat(126), "0".repeat(MAX_SIGNALS - 127));
    assert_eq!(rows(&wide(MAX_SIGNALS, &more(MAX_GROUPS - 1), "", &last)), due);
    let over = wide(MAX_SIGNALS, &more(MAX_GROUPS), "", "");
    assert_eq!(check(over.as_bytes()), Err(Refusal { number: 8, place: over.find("g127").expect("there") as u64 }));
    // A repeat and an absence of the last signal.
    for (groups, at) in
        [("h = 'all+s255';", "s255'"), ("h = 'all-s255-s255';", "s255'"), ("h = '(all-s255)+(s0+s255)';", ")'")]
    {
        let text = wide(MAX_SIGNALS, groups, "", "");
        assert_eq!(check(text.as_bytes()), Err(Refusal { number: 10, place: text.rfind(at).expect("there") as u64 }));
    }
    let twice = wide(MAX_SIGNALS, "", "", "W t; V { s255 = 0; all = 0; }");
    assert_eq!(
        check(twice.as_bytes()),
        Err(Refusal { number: 12, place: twice.find("all = 0").expect("there") as u64 })
    );
}

/// The text with signals that nothing uses behind its own, up to the bound.
fn widened(text: &[u8]) -> Option<Vec<u8>> {
    check_bytes(text).ok()?;
    let close = tokens(text, 0).find(|token| token.first == b'}')?;
    let signals = check(text).ok()?.signals as usize;
    let more: String = (signals..MAX_SIGNALS).map(|pin| format!(" zz_{pin} In;")).collect();
    let (before, behind) = text.split_at(close.place as usize);
    Some([before, more.as_bytes(), behind].concat()).filter(|text| text.len() <= MAX_TEXT)
}

/// Whatever the number of signals, the same is said of those that are used.
#[test]
fn more_signals_change_no_row() {
    let mut seen = 0;
    for text in (0..3_000).flat_map(|seed| [text(seed), nested(seed)]) {
        let (narrow, made) = match (Document::read(&text), widened(&text)) {
            (Ok(narrow), Some(made)) if narrow.extent.cycles <= 3_000 => (narrow, made),
            _ => continue,
        };
        let wide = Document::read(&made).unwrap_or_else(|refusal| panic!("{refusal:?}"));
        seen += 1;
        let ours = narrow.summary();
        assert_eq!(wide.summary(), second::Summary { signals: MAX_SIGNALS as u64, ..ours });
        let mut rows = [&narrow, &wide].map(|document| vec![0; ours.cycles as usize * document.row_width()]);
        let visits = narrow.window(0, ours.cycles, DOT, &mut rows[0]);
        assert_eq!(wide.window(0, ours.cycles, DOT, &mut rows[1]), visits);
        let signals = ours.signals as usize;
        for (narrow, wide) in rows[0].chunks(signals + 2).zip(rows[1].chunks(MAX_SIGNALS + 2)) {
            assert!(wide[..signals] == narrow[..signals] && wide[MAX_SIGNALS..] == narrow[signals..]);
            assert!(wide[signals..MAX_SIGNALS].iter().all(|&byte| byte == DOT));
        }
    }
    assert!(seen > 1_000, "{seen}");
}

#[test]
fn sets_of_all_signals() {
    let mut set = PinSet::EMPTY;
    let some: Vec<u8> = vec![0, 1, 63, 64, 127, 128, 200, 254, 255];
    some.iter().rev().for_each(|&pin| set.insert(pin));
    assert_eq!(set.pins().collect::<Vec<u8>>(), some);
    assert!((0..=255).all(|pin| set.contains(pin) == some.contains(&pin)));
    assert_eq!(set.outside().pins().count(), MAX_SIGNALS - some.len());
    assert_eq!(PinSet::EMPTY.pins().count(), 0);
    assert_eq!(PinSet::EMPTY.outside().pins().collect::<Vec<u8>>(), (0..=255).collect::<Vec<u8>>());
}
