//! Short texts with long runs, all accepted: for measuring windows.

use super::large::pattern;

pub const RUN_KINDS: [&str; 4] = ["turns", "shifted", "nests", "far"];

/// Their statements name the first signal alone, so that the text around them is all that grows with the signals.
pub fn run(kind: &str, signals: usize) -> Option<Vec<u8>> {
    let load = "MacroDefs { load { Shift { V { pin_number_0 = #; } } } }\n";
    let (zero, one) = ("V { pin_number_0 = 0; } ", "V { pin_number_0 = 1; } ");
    let text = match kind {
        "turns" => pattern(signals, "", &format!("Loop 1000000 {{ {zero}{one}{zero}}}\n")),
        "shifted" => pattern(signals, load, &"Macro load { pin_number_0 = \\r2000 01; }\n".repeat(2)),
        "nests" => pattern(signals, "", &nested("Loop 4 { ", 7, &format!("{zero}{one}"))),
        "far" => pattern(signals, "", &nested("Loop 65536 { ", 1, &nested("Loop 16777215 { ", 1, zero))),
        _ => return None,
    };
    Some(text.into_bytes())
}

fn nested(opening: &str, depth: usize, inner: &str) -> String {
    format!("{}{inner}{}", opening.repeat(depth), "}\n".repeat(depth))
}
