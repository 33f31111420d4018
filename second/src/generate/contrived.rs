//! Texts refused 17 behind a long search, each made to defeat a way in which the proved reader spares itself the playing of bodies.

/// Behind eight Loops in each other around as many V's as there is room for; behind uses of a macro that uses others, in five Loops. Those others have a Shift
/// that plays no turn; or arguments with a character that only one of their two tables has: repeated, spelled out, with another V between the uses, with each
/// character a word, or in a procedure; behind V's too, beside a Shift that plays no turn; and many uses with such an argument, each at a place of its own. Or
/// behind one macro with such an argument, in which stand seven Loops in each other around V's. Or behind eight Loops in each other, each left with another table
/// than it began with, or with one that no other leaves; or behind more small Loops than there are rows to remember them, in seven such Loops.
pub const CONTRIVED_KINDS: [&str; 13] = [
    "loops", "empty", "repeated", "spelled", "between", "words", "calls", "still", "many", "nested", "tables", "eight",
    "crowd",
];

/// The kinds that have up to 256 signals; the others have up to 64.
const WIDE_KINDS: [&str; 4] = ["nested", "tables", "eight", "crowd"];

/// The first lacks a waveform that the others have.
const TABLES: [&str; 8] = ["s", "t", "u", "v", "w", "x", "y", "z"];

pub fn contrived(kind: &str, signals: usize) -> Option<Vec<u8>> {
    let spelled = format!("{}2", "1".repeat(1000));
    let words = format!("{}2", "1 ".repeat(800));
    let (bodies, statements) = match kind {
        "loops" => (String::new(), nested(8, &"V { A = 1; }\n".repeat(4800))),
        "empty" => (macros("m { Shift { V { A = #; } } V { A = 1; } }", "", 30), nested(5, &"Macro k;\n".repeat(260))),
        "repeated" => (macros(SHOWN, "\\r4095 1 2", 30), nested(5, &"Macro k;\n".repeat(300))),
        "spelled" => (macros(SHOWN, &spelled, 30), nested(5, &"Macro k;\n".repeat(300))),
        "between" => (macros(SHOWN, &spelled, 30), nested(5, &between("Macro k;", 300))),
        "words" => (macros(SHOWN, &words, 15), nested(5, &between("Macro k;", 300))),
        "calls" => (bodies("Procedures", "Call", SHOWN, &spelled, 30), nested(5, &between("Call k;", 300))),
        "still" => (macros(&still(), &format!("{}2; B = ", "1".repeat(12)), 10), nested(5, &between("Macro k;", 300))),
        "many" => (
            format!("MacroDefs {{ {SHOWN} }}\n"),
            nested(5, &between(&format!("Macro m {{ A = {}2; }}", "1 ".repeat(20)), 700)),
        ),
        "tables" => (String::new(), choosing(7, &"V{}".repeat(20_000))),
        "eight" => (String::new(), leaving(&"V{}".repeat(20_000))),
        "crowd" => (String::new(), choosing(6, &"Loop 2 { V { } W s; V { } }\nW t; ".repeat(1500))),
        "nested" => (entered(&nested(7, &"V { A = 1; }\n".repeat(4200))), "Macro m { A = 12; }".into()),
        _ => return None,
    };
    let most = if WIDE_KINDS.contains(&kind) { 256 } else { 64 };
    let tables = if kind == "eight" { TABLES.len() } else { 2 };
    (2..=most).contains(&signals).then(|| text(signals, &TABLES[..tables], &bodies, &statements))
}

/// Of its argument the first character is shown under one table and the others under another, which alone has `2`.
const SHOWN: &str = "m { W s; V { A = #; } W t; Shift { V { A = #; } } C { A = 1; } }";

/// The same without a turn of its Shift, which is another signal's.
fn still() -> String {
    format!("m {{ W s; V {{ A = #; }} W t; {}Shift {{ V {{ B = #; }} }} C {{ A = 1; }} }}", "V { A = #; } ".repeat(12))
}

/// A macro whose argument has a character that only the second of its tables has: no sum grants it, so that what it holds is played.
fn entered(inner: &str) -> String {
    format!("MacroDefs {{ m {{ W s; V {{ A = #; }} W t; V {{ A = #; }}\n{inner} }} }}\n")
}

fn macros(body: &str, argument: &str, count: usize) -> String {
    bodies("MacroDefs", "Macro", body, argument, count)
}

fn bodies(block: &str, word: &str, body: &str, argument: &str, count: usize) -> String {
    let one = format!("{word} m {{ A = {argument}; }} ");
    format!("{block} {{ {body}\nk {{ {} }} }}\n", one.repeat(count))
}

/// Each use behind a V that shows another character than the one before it.
fn between(one: &str, count: usize) -> String {
    (0..count).map(|i| format!("V {{ B = {}; }} {one}\n", i % 10)).collect()
}

fn nested(depth: usize, inner: &str) -> String {
    format!("{}\n{inner}{}", "Loop 2 { ".repeat(depth), "} ".repeat(depth))
}

/// Each turn shows a cycle under the table that it finds and chooses one, which the innermost Loop leaves as another.
fn choosing(depth: usize, inner: &str) -> String {
    format!("{}Loop 2 {{ V {{ }} W s;\n{inner}{}", "Loop 2 { V { } W t; ".repeat(depth), "} ".repeat(depth + 1))
}

/// Each of eight Loops is left with a table of its own, so that it begins its second turn with another one than any first turn.
fn leaving(inner: &str) -> String {
    let ends: String = TABLES.iter().map(|table| format!("W {table}; }} ")).collect();
    format!("{}\n{inner}{ends}", "Loop 2 { V { } ".repeat(TABLES.len()))
}

/// All signals but the first, which not every table has `2` for, have all digits.
fn text(signals: usize, tables: &[&str], bodies: &str, statements: &str) -> Vec<u8> {
    let others: Vec<String> = (1..signals).map(|i| if i == 1 { "B".into() } else { format!("B{i}") }).collect();
    let table = |name: &&str| {
        let chars = if *name == TABLES[0] { "1" } else { "12" };
        format!(
            "WaveformTable {name} {{ Period '1ns'; Waveforms {{ A {{ {chars} {{ '0ns' D; }} }} others {{ 0123456789 {{ '0ns' D; }} }} }} }}\n"
        )
    };
    format!(
        "STIL 1.0;\nSignals {{ A In; {} In; }}\nSignalGroups {{ others = '{}'; }}\nTiming {{\n{}}}\n{bodies}PatternBurst b {{ PatList {{ p; }} }}\n\
         PatternExec {{ PatternBurst b; }}\nPattern p {{ W t; C {{ others = \\r{} 1; }}\n{statements}\nV {{ A = 3; }} }}\n",
        others.join(" In; "),
        others.join("+"),
        tables.iter().map(table).collect::<String>(),
        signals - 1
    )
    .into_bytes()
}
