//! Document 01's samples at the edges, and what they leave open.

mod common;
use common::{build, judge, rows, unmark, No, Ok5, SAMPLE};
use second::{check, listing, window, Refusal, Summary, Window, MARK};

const LISTING: &str = "SIGNALS 2\nA\nB\nTABLES 1\nt0\nCYCLES 7\n1X0\n0H0\n1H0\n0H0\n1L0\n0H0\n1H0\n";

fn sample_with(old: &str, new: &str) -> String {
    assert!(SAMPLE.contains(old));
    SAMPLE.replacen(old, new, 1)
}

fn refused(text: &str, number: u8) {
    let (text, place) = unmark(text);
    assert_eq!(check(text.as_bytes()), Err(Refusal { number, place: place.expect("a mark") }), "{text}");
}

fn read(text: &str, first: u64, wanted: u64) -> (Window, String) {
    let mut buffer = [b'-'; 64];
    let window = window(text.as_bytes(), first, wanted, MARK, &mut buffer).expect("accepted");
    (window, String::from_utf8(buffer.to_vec()).expect("plain").trim_end_matches('-').to_string())
}

#[test]
fn a_the_run() {
    let due = Summary { signals: 2, tables: 1, patterns: 1, cycles: 7, size: 10 };
    assert_eq!(check(SAMPLE.as_bytes()), Ok(due));
    assert_eq!(listing(SAMPLE.as_bytes()).expect("accepted"), LISTING.as_bytes());
}

#[test]
fn b_visits() {
    let visits = |first| read(SAMPLE, first, 0).0.visits;
    assert_eq!([visits(0), visits(3), visits(6), visits(7)], [16, 17, 22, 10]);
    assert_eq!(visits(u64::MAX), 10);
}

#[test]
fn c_a_window() {
    assert_eq!(read(SAMPLE, 2, 2), (Window { rows: 2, visits: 16 }, "1H0\n0H0\n".into()));
}

#[test]
fn d_past_the_end() {
    for first in [7, 8, u64::MAX] {
        assert_eq!(read(SAMPLE, first, u64::MAX), (Window { rows: 0, visits: 10 }, String::new()));
    }
}

#[test]
fn e_unfit_argument() {
    refused(&sample_with("B = LH; }", "B = L; «}"), 13);
}

#[test]
fn f_no_turn() {
    let text = sample_with("A = 101; B = LH;", "A = 1; B = ;");
    assert_eq!(rows(&text), "1X0 0H0 1H0 0H0 1H0");
}

#[test]
fn g_repeat_mark() {
    let text = sample_with("A = 101; B = LH;", "A = \\r4 01; B = LHLHLHL;");
    assert_eq!(rows(&text), "1X0 0H0 1H0 0H0 0L0 1H0 0L0 1H0 0L0 1H0 0L0 1L0");
}

#[test]
fn h_groups() {
    refused(&sample_with("'A+B'", "'A-A«'"), 10);
    refused(&sample_with("'A+B'", "'A-«B'"), 10);
}

#[test]
fn i_loop_of_none() {
    refused(&sample_with("Loop 2", "Loop «0"), 9);
}

#[test]
fn j_depth() {
    let nested = |depth: usize, mark: &str| {
        let (last, outer) = ("Loop 1 { V { } }", "Loop 1 { ".repeat(depth - 1));
        format!("W t0; {outer}{mark}{last}{}", " }".repeat(depth - 1))
    };
    assert_eq!(judge("pattern", &nested(8, ""), Ok5([3, 2, 1, 1, 11])), None);
    assert_eq!(judge("pattern", &nested(9, "«"), No(14)), None);
}

#[test]
fn k_reset_by_the_callers_table() {
    let blocks = "Procedures { reset { Loop 4096 { V { A = 0; } } } }";
    let text = build("blocks", blocks).replace("W t0; V { }", "W t0; Call reset;");
    assert_eq!(check(text.as_bytes()), Ok(Summary { signals: 3, tables: 2, patterns: 1, cycles: 4096, size: 5 }));
}

#[test]
fn a_procedure_hands_back_values_and_table() {
    let text = build("pattern", "W t0; V { A = 1; } Call q; V { } Call w; V { B = x; }");
    // q starts unassigned under the caller's table; w's own table and value are gone after it.
    assert_eq!(rows(&text), "1..0 0..0 1..0 1x.0");
}

#[test]
fn a_procedure_in_a_macro_in_a_procedure() {
    let blocks =
        "Procedures { i { W t1; C { A = 0; } V { } } } MacroDefs { m { V { B = 1; } Call i; V { A = 1; } W t1; } }";
    let text = build("blocks", blocks).replace("W t0; V { }", "W t0; Macro m; C { dab = 0 00; } W t0; V { }");
    assert_eq!(rows(&text), ".1.0 0..1 11.0 0000");
}

#[test]
fn a_loops_second_turn_differs() {
    let text = build("pattern", "W t0; Loop 4 { V { A = 0; } Loop 2 { V { B = 1; } C { A = x; } } C { D = 1; } }");
    assert_eq!(rows(&text), "0..0 01.0 x1.0 0110 0110 x110 0110 0110 x110 0110 0110 x110");
}

#[test]
fn all_listed_patterns_each_from_its_own_start() {
    let burst = "PatternBurst b { PatList { q; p; q; r; } } PatternExec { PatternBurst b; }
        Pattern p { W t1; V { B = 0; } } Pattern q { W t0; V { A = 1; } V { D = x; } } Pattern r { W t0; V { dab = x01; } }";
    assert_eq!(rows(&build("burst", burst)), "1..0 1.x0 .0.1 1..0 1.x0 01x0");
}

#[test]
fn a_table_chosen_in_a_macro_stays() {
    let blocks = "MacroDefs { m { V { A = 0; } W t1; } }";
    let text = build("blocks", blocks).replace("W t0; V { }", "W t0; Macro m; V { } Macro m; V { B = 0; }");
    assert_eq!(rows(&text), "0..0 0..1 0..1 00.1");
}

#[test]
fn groups_keep_the_order_of_their_expression() {
    let order = |expression: &str, data: &str| {
        let text = build("pattern", &format!("W t0; V {{ g = {data}; }}"));
        rows(&text.replace("one = 'D';", &format!("one = 'D'; g = '{expression}';")))
    };
    assert_eq!(order("D+B+A", "01x"), "x100");
    assert_eq!(order("D+ab-B", "01"), "1.00");
    assert_eq!(order("ab+D-A+A", "01x"), "x010");
    assert_eq!(order("D+(A+B-A)+A", "01x"), "x100");
    assert_eq!(order("(D+ab)-(B+D)", "1"), "1..0");
    assert_eq!(order("one+(ab-(B-(A-A)))", "01"), "1.00");
}

#[test]
fn hashes_take_characters_across_the_shift() {
    let blocks = "MacroDefs { m { V { ab = #1; } Shift { V { D = 0; A = #; } } V { dab = 1#x; } } }";
    let text = build("blocks", blocks).replace("W t0; V { }", "W t0; Macro m { A = 01 x1 0; } V { }");
    assert_eq!(rows(&text), "01.0 1100 x100 1100 0x10 0x10");
}

#[test]
fn an_empty_list_has_no_rows_and_no_visits() {
    let text = SAMPLE.replace("PatList { p; }", "PatList { }");
    assert_eq!(read(&text, 0, 9), (Window { rows: 0, visits: 0 }, String::new()));
    assert_eq!(listing(text.as_bytes()).expect("accepted"), b"SIGNALS 2\nA\nB\nTABLES 1\nt0\nCYCLES 0\n");
}

#[test]
fn visits_past_statements_without_cycles_and_into_later_patterns() {
    let burst = "PatternBurst b { PatList { e; p; e; p; } } PatternExec { PatternBurst b; }
        Pattern e { } Pattern p { W t0; Macro e; Call q; Loop 3 { C { } V { } } Macro s { A = 010; B = 11; } }";
    let text = build("burst", burst);
    let visits = |first| window(text.as_bytes(), first, 0, MARK, &mut []).expect("accepted").visits;
    // e is 1; p is 1 + W 1, Macro e 1, Call q 2, Loop 3, Macro s 4: 12. Its cycles are 1 + 3 + 3.
    assert_eq!(visits(0), 1 + 12 + 1 + 1 + 2 + 1);
    assert_eq!(visits(1), 1 + 12 + 1 + 1 + 2 + 3 + 2);
    assert_eq!(visits(3), 1 + 12 + 1 + 1 + 2 + 3 + 2);
    assert_eq!(visits(4), 1 + 12 + 1 + 1 + 2 + 3 + 4 + 2 + 1);
    assert_eq!(visits(5), 1 + 12 + 1 + 1 + 2 + 3 + 4 + 2 + 1);
    assert_eq!(visits(6), 1 + 12 + 1 + 1 + 2 + 3 + 4 + 2 + 1);
    assert_eq!(visits(7), 1 + 12 + 1 + 12 + 1 + 1 + 2 + 1);
    assert_eq!(visits(14), 1 + 12 + 1 + 12);
}
