//! The listing: sections in fixed order, each after its count.

use crate::bounds::MAX_LISTING;
use crate::document::Document;
use crate::lines::Position;
use crate::refusal::{Answer, Refusal};
use crate::rows::DOT;
use crate::services::Declared;

pub fn listing(text: &[u8]) -> Answer<Vec<u8>> {
    let document = Document::read(text)?;
    let mut out = Vec::new();
    section(&mut out, "SIGNALS", document.pins.signals as u64);
    names(&mut out, &document, Declared::Signal);
    section(&mut out, "TABLES", document.timing.names.count() as u64);
    names(&mut out, &document, Declared::Table);
    section(&mut out, "CYCLES", document.extent.cycles);
    if document.extent.cycles > MAX_LISTING {
        out.extend_from_slice(b"NOT LISTED\n");
        return Ok(out);
    }
    let start = out.len();
    out.resize(start + document.extent.cycles as usize * document.row_width(), 0);
    document.window(0, document.extent.cycles, DOT, &mut out[start..])?;
    Ok(out)
}

/// The one line that a refused text is answered with.
pub fn refusal_line(text: &[u8], refusal: Refusal) -> String {
    let Refusal { number, place } = refusal;
    let Position { line, column } = refusal.position(text);
    format!("REFUSED {number} AT {place} LINE {line} COLUMN {column}\n")
}

pub(crate) fn section(out: &mut Vec<u8>, title: &str, count: u64) {
    out.extend_from_slice(format!("{title} {count}\n").as_bytes());
}

pub(crate) fn names(out: &mut Vec<u8>, document: &Document, declared: Declared) {
    let mut number = 0;
    while let Some(name) = document.name(declared, number) {
        out.extend_from_slice(name.bytes(document.text));
        out.push(b'\n');
        number += 1;
    }
}
