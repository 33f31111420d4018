//! Events across the cycle's edge (request 8): each edge of the rule, and the clever way against the plain one.

mod common;
use common::unmark;
use second::across::check_edges;
use second::data::Cursor;
use second::generate::{crossing, flat, hurt, nested, text};
use second::run::check_cycles;
use second::statements::{Act, Range, Statement, Use};
use second::timing::Asked;
use second::{check, fold, save, waveform, Document, Refusal};
use std::collections::HashMap;

/// Signals A and B, 10 ns in t and 4 ns in u.
/// 0: drive at 0, compare at 5. l: drive at 0 and 10, the period. e: drive at -1. w: drive at 0 and 9999 ps. z: compare at 15 alone. n: compare at -3.
const HEAD: &str = "STIL 1.0; Signals { A In; B Out; } SignalGroups { ab = 'A+B'; }
Timing { WaveformTable t { Period '10ns'; Waveforms { ab {
  0 { '0ns' D; '5ns' L; } l { '0ns' U; '10ns' D; } e { '-1ns' U; '1ns' Z; } w { '0ns' U; '9999ps' D; } z { '15ns' H; } n { '-3ns' L; } } } }
 WaveformTable u { Period '4ns'; Waveforms { ab {
  0 { '0ns' D; '3ns' L; } l { '4ns' Z; } w { '0ns' D; } z { '3ns' X; '6999ps' H; '7ns' T; } n { '3ns' L; } e { '1ns' l; } } } } }
MacroDefs { s { Shift { V { A = #; } } V { B = #; } } two { V { } V { } } set { C { A = l; } } held { V { } } late { V { A = l; } } }
Procedures { q { V { A = 0; } } held { V { } } none { C { A = l; } } }
";

fn of(list: &str, patterns: &str) -> String {
    format!("{HEAD}PatternBurst b {{ PatList {{ {list} }} }} PatternExec {{ PatternBurst b; }} {patterns}")
}

/// The check of one pattern, 25 due at the mark or none; and the plain way says the same.
fn judge(list: &str, patterns: &str) {
    let (text, place) = unmark(&of(list, patterns));
    let due = place.map_or(Ok(()), |place| Err(Refusal { number: 25, place }));
    assert_eq!(check(text.as_bytes()).map(|_| ()), due, "{patterns}");
    let document = Document::read_unplayed(text.as_bytes()).expect("read");
    assert_eq!(plainly(&document), due, "{patterns}");
}

#[test]
fn one_pair() {
    let pair = |body: &str| judge("p;", &format!("Pattern p {{ W t; {body} }}"));
    // The last event must come before, not at the same time.
    pair("V { A = l; } «V { A = 0; }");
    pair("V { A = w; } V { A = 0; }");
    pair("V { A = w; } «V { A = e; }");
    pair("V { A = 0; } V { A = e; }");
    pair("V { A = l; } «V { A = l; }");
    pair("V { A = l; } «V { }");
    pair("V { A = e; } V { A = e; } V { A = 0; }");
    // Only neighbours, and only within a category: z has no drive event, and l no compare event.
    pair("V { A = l; } V { A = z; } V { }");
    pair("V { A = z; } V { A = l; } V { A = n; }");
    pair("V { A = z; } «V { A = n; }");
    pair("V { A = z; } «V { A = 0; }");
    pair("V { A = z; } V { A = z; }");
    // 0's compare event at 5 and n's at 10 - 3.
    pair("V { A = 0; } V { A = n; } V { A = n; }");
    // Signal by signal, also one that is held; without a value there is no waveform.
    pair("V { A = l; B = 0; } V { A = z; B = 0; }");
    pair("V { A = l; } V { A = z; B = l; } «V { A = z; B = e; }");
    pair("V { B = l; } «V { A = 0; }");
    pair("V { } V { A = l; }");
    // The first pair, not the first signal.
    pair("V { B = l; } «V { A = l; B = 0; } V { A = 0; }");
    // A single cycle has no neighbour.
    pair("V { A = l; }");
    pair("Loop 1 { V { A = l; } }");
}

#[test]
fn the_earlier_cycles_period_counts() {
    let pair = |body: &str| judge("p;", &format!("Pattern p {{ W t; {body} }}"));
    // u's l at 4 with 4 of period against t's 0, e and w; u's z ends at 7: at 3 behind the edge.
    pair("W u; V { A = l; } W t; «V { A = 0; }");
    pair("W u; V { A = z; } W t; V { A = 0; }");
    pair("W u; V { A = z; } «V { A = n; }");
    pair("W u; V { A = z; } W t; «V { A = n; }");
    pair("V { A = z; } W u; «V { A = 0; }");
    // Held values have another waveform in another table, or none of the category.
    pair("V { A = l; } W u; V { }");
    pair("W u; V { A = l; } W t; «V { }");
    pair("V { A = w; } W u; V { } W t; V { }");
}

#[test]
fn loops() {
    let body = |body: &str| judge("p;", &format!("Pattern p {{ W t; {body} }}"));
    body("Loop 2 { «V { A = l; } }");
    body("Loop 16777215 { V { A = w; } }");
    body("Loop 2 { «V { A = 0; } V { A = w; } V { A = l; } V { A = z; } V { A = l; } }");
    // The third turn: the first cycle of the second is the first with l, and A was z before.
    body("C { A = z; } Loop 2 { V { } C { A = l; } }");
    body("C { A = z; } Loop 3 { «V { } C { A = l; } }");
    body("C { A = z; } Loop 16777215 { «V { } C { A = l; } }");
    body("C { A = z; } Loop 2 { V { } C { A = l; } } «V { }");
    // The same by the table: e has no drive event in u, and l is late in t.
    body("W u; C { A = e; } Loop 2 { V { } W t; C { A = l; } }");
    body("W u; C { A = e; } Loop 3 { «V { } W t; C { A = l; } }");
    // One in the other, and without cycles.
    body("C { A = z; } Loop 1 { Loop 3 { «V { } C { A = l; } } }");
    body("C { A = z; } Loop 3 { Loop 1 { «V { } C { A = l; } } }");
    body("C { A = z; } Loop 2 { Loop 2 { «V { } } C { A = l; } }");
    body("C { A = z; } Loop 2 { Loop 2 { V { A = z; } } C { A = l; } }");
    body("C { A = z; } Loop 3 { Loop 3 { C { A = l; } } } V { }");
    body("C { A = z; } Loop 3 { Loop 3 { } } V { A = l; } Loop 3 { Macro set; } «V { }");
    // Where a turn's end meets its own begin, and where the Loop's end meets what follows.
    body("Loop 9 { V { A = z; } V { A = l; } } «V { A = e; }");
    body("Loop 9 { V { A = z; } V { A = l; } } V { A = z; }");
}

#[test]
fn macros_and_procedures() {
    let body = |body: &str| judge("p;", &format!("Pattern p {{ W t; {body} }}"));
    // A procedure begins without values, and the caller's are back behind it: no neighbours of one another.
    body("C { A = l; } V { } Call held; V { }");
    body("C { A = l; } V { } Call none; «V { }");
    body("C { A = l; } Call held; V { } Call held; V { }");
    body("C { B = l; } V { } Call q; V { B = 0; }");
    body("V { A = z; } Loop 3 { Macro s { A = lz; B = 0; } }");
    let place = |text: &str, at: &str| text.find(at).expect("there") as u64;
    let fails = |pattern: &str, at: &str| {
        let text = of("p;", &format!("Pattern p {{ W t; {pattern} }}"));
        let due = Err(Refusal { number: 25, place: place(&text, at) });
        assert_eq!(check(text.as_bytes()), due, "{pattern}");
        assert_eq!(
            plainly(&Document::read_unplayed(text.as_bytes()).expect("read")).map(|()| check(b"").expect("")),
            due
        );
    };
    // At the V where it is written.
    fails("V { A = l; } Call q;", "V { A = 0; } }");
    fails("C { A = l; } Macro two;", "V { } } set");
    fails("Macro s { A = 0000l0; B = 0; }", "V { A = #; }");
    fails("Macro s { A = \\r4096 l; B = 0; }", "V { A = #; }");
    fails("Macro s { A = \\r9 zl; B = 0; }", "V { B = #; }");
    fails("Macro s { A = w; B = l; } Loop 2 { Macro s { A = 0; B = 0; } }", "V { A = #; }");
    fails("C { A = z; } Loop 3 { Macro two; Macro set; }", "V { } } set");
    fails("C { A = z; } Loop 3 { Macro held; Macro set; }", "V { } } late");
}

#[test]
fn patterns_are_apart() {
    let late = "Pattern p { W t; V { A = l; } } Pattern q { W t; V { A = 0; } V { A = l; } }";
    judge("p; q; p; p;", late);
    // Unlisted patterns have no neighbours, and 25 is the first in run order.
    let unlisted = "Pattern p { W t; V { A = 0; } } Pattern q { W t; V { A = l; } V { } }";
    judge("p;", unlisted);
    judge("", unlisted);
    judge(
        "p; q; r;",
        "Pattern r { W t; V { A = l; } V { } } Pattern p { W t; V { } } Pattern q { W t; V { A = l; } «V { } }",
    );
}

#[test]
fn order_of_refusals() {
    // 17 anywhere in the run comes first, also behind; and 18 and 19 behind.
    let text = of("p; q;", "Pattern p { W t; V { A = l; } V { } } Pattern q { «V { } }");
    let (text, place) = unmark(&text);
    assert_eq!(check(text.as_bytes()), Err(Refusal { number: 17, place: place.expect("marked") }));
    let (text, place) = unmark(&of("p;", "Pattern p { W t; V { A = l; } «V { } } Pattern q { V { } }"));
    let due = Refusal { number: 25, place: place.expect("marked") };
    assert_eq!(waveform(text.as_bytes(), 99, 99, b'_', &mut [], &mut []), Err(due));
    assert_eq!(fold(text.as_bytes(), &mut []), Err(due));
}

#[test]
fn saved() {
    let (text, spans) = ("Pattern p { W t; V { A = l; } V { } } Pattern q { W t; V { } }", &mut [0; 2]);
    let mut text = of("p; q;", text).into_bytes();
    let start = text.windows(9).position(|bytes| bytes == b"Pattern p").expect("there") as u64;
    let list = text.windows(4).position(|bytes| bytes == b" p; ").expect("there") as u64 + 1;
    assert_eq!(save(&mut text, &mut []), Err(Refusal { number: 19, place: 0 }));
    let mut four = [0; 4];
    assert_eq!(save(&mut text, &mut four), Ok(2));
    assert_eq!(four, [start, start + 37, list, list + 2]);
    assert_eq!(spans, &[0; 2]);
    // A macro's V is no pattern's.
    let (text, place) = unmark(&of("p;", "Pattern p { W t; V { A = l; } Macro two; }"));
    let place = place.unwrap_or_else(|| text.find("V { } V { } } set").expect("there") as u64);
    assert_eq!(save(&mut text.into_bytes(), &mut four), Err(Refusal { number: 25, place }));
}

/// What is accepted stays so.
#[test]
fn folded() {
    let (mut buffer, mut accepted) = (vec![0; 65_536], 0);
    for seed in 0..3_000 {
        let text = crossing(seed);
        if let Ok(length) = fold(&text, &mut buffer) {
            assert!(check(&buffer[..length as usize]).is_ok(), "{seed}");
            accepted += 1;
        }
    }
    assert!(accepted > 500, "{accepted}");
}

/// The plain way: every turn of every Loop played, all cycles listed, all neighbours of a listed pattern compared, event by event.
fn plainly(document: &Document) -> Result<(), Refusal> {
    for &pattern in &document.run {
        let values = vec![None; document.pins.signals];
        let mut plain = Plain { document, values, table: None, cycles: Vec::new() };
        plain.all(document.patterns[pattern].statements, &mut Arguments::default());
        for pair in plain.cycles.windows(2) {
            if !in_order(document, &pair[0], &pair[1]) {
                return Err(Refusal { number: 25, place: pair[1].place });
            }
        }
    }
    Ok(())
}

struct Cycle {
    values: Vec<Option<u8>>,
    table: u8,
    place: u64,
}

fn in_order(document: &Document, before: &Cycle, then: &Cycle) -> bool {
    let events = |cycle: &Cycle, signal: usize, category: &[u8]| -> Vec<i64> {
        let asked = |character| Asked { table: cycle.table.into(), signal: signal as u64, character };
        let events = cycle.values[signal]
            .and_then(|character| document.timing.waveform(document.text, &document.pins, asked(character)));
        let of_category = |&(_, letter): &(i64, u8)| category.contains(&letter);
        events.unwrap_or_default().into_iter().filter(of_category).map(|(time, _)| time).collect()
    };
    let period = document.timing.periods[before.table as usize] as i64;
    (0..document.pins.signals).all(|signal| {
        [&b"DUZP"[..], b"LHXTlhx"].iter().all(|category| {
            let (before, then) = (events(before, signal, category), events(then, signal, category));
            before.iter().all(|&time| then.iter().all(|&next| time < period + next))
        })
    })
}

/// One use's arguments: for each signal where its data goes on, and the Shift's turns.
#[derive(Default)]
struct Arguments {
    cursors: HashMap<u8, Cursor>,
    shifts: u32,
}

struct Plain<'d> {
    document: &'d Document<'d>,
    values: Vec<Option<u8>>,
    table: Option<u8>,
    cycles: Vec<Cycle>,
}

impl<'d> Plain<'d> {
    fn statement(&self, at: u32) -> &'d Statement {
        &self.document.program.statements[at as usize]
    }

    fn all(&mut self, range: Range, arguments: &mut Arguments) {
        let mut at = range.first;
        while at < range.end {
            self.one(at, arguments);
            at = self.statement(at).next;
        }
    }

    fn one(&mut self, at: u32, arguments: &mut Arguments) {
        let statement = self.statement(at);
        let inner = Range { first: at + 1, end: statement.next };
        match statement.act {
            Act::Vector { place, assigns } => {
                self.assign(assigns, arguments);
                let (values, table) = (self.values.clone(), self.table.unwrap_or(0));
                self.cycles.push(Cycle { values, table, place: place.into() });
            }
            Act::Condition { assigns } => self.assign(assigns, arguments),
            Act::Table(table) => self.table = Some(table),
            // As many turns as show all: the far Loops of the tests above are cut.
            Act::Loop { turns, .. } => (0..turns.min(1_000)).for_each(|_| self.all(inner, arguments)),
            Act::Shift => (0..arguments.shifts).for_each(|_| self.all(inner, arguments)),
            Act::Macro(used) => self.body(&used),
            Act::Call(used) => {
                let (values, table) = (self.values.clone(), self.table);
                self.values.iter_mut().for_each(|value| *value = None);
                self.body(&used);
                (self.values, self.table) = (values, table);
            }
            Act::Mark(_) => {}
        }
    }

    fn body(&mut self, used: &Use) {
        let given = used.arguments.of(&self.document.program.arguments);
        let cursors = given.iter().map(|argument| (argument.pin, argument.start())).collect();
        let statements = self.document.bodies.bodies[used.body as usize].statements;
        self.all(statements, &mut Arguments { cursors, shifts: used.shifts });
    }

    fn assign(&mut self, assigns: Range, arguments: &mut Arguments) {
        let program = &self.document.program;
        for assign in assigns.of(&program.assigns) {
            for (pin, character) in self.document.assigned(assign) {
                self.values[pin as usize] = Some(match character {
                    b'#' => arguments.cursors.get_mut(&pin).expect("given").take(self.document.text, &program.pieces),
                    plain => plain,
                });
            }
        }
    }
}

#[test]
fn the_clever_way_is_the_plain_one() {
    let (mut accepted, mut failing) = (0, 0);
    let seeded = (0..12_000).map(|seed| (seed, crossing(seed)));
    let others =
        (0..1_500).flat_map(|seed| [(seed, text(seed)), (seed, nested(seed)), (seed, flat(seed)), (seed, hurt(seed))]);
    for (seed, text) in seeded.chain(others) {
        let document = match Document::read_unplayed(&text) {
            Ok(document) if document.extent.cycles < 3_000 && check_cycles(&document).is_ok() => document,
            _ => continue,
        };
        let due = plainly(&document);
        assert_eq!(check_edges(&document), due, "{seed}: {}", String::from_utf8_lossy(&text));
        accepted += u32::from(due.is_ok());
        failing += u32::from(due.is_err());
    }
    println!("{accepted} in order, {failing} not");
    assert!(accepted > 3_000 && failing > 2_000);
}
