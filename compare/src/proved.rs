//! The proved reader, behind its C interface.

use crate::lent::Slices;
use crate::raw::{lutemeteor_check, lutemeteor_name, lutemeteor_token, lutemeteor_waveform, lutemeteor_window};
use crate::reader::Reader;
use second::timing::Asked;

#[cfg(feature = "fold")]
extern "C" {
    fn lutemeteor_fold(
        text: *const u8,
        length: usize,
        folded: *mut u8,
        folded_room: usize,
        numbers: *mut u64,
        room: usize,
    ) -> u64;
}

#[cfg(feature = "index")]
extern "C" {
    fn lutemeteor_index(
        text: *const u8,
        length: usize,
        index: *mut u8,
        index_room: usize,
        numbers: *mut u64,
        room: usize,
    ) -> u64;
    fn lutemeteor_belongs(text: *const u8, length: usize, index: *const u8, index_length: usize) -> u64;
    fn lutemeteor_holds(
        text: *const u8,
        length: usize,
        index: *const u8,
        index_length: usize,
        cycle: u64,
        numbers: *mut u64,
        room: usize,
    ) -> u64;
}

#[cfg(feature = "lines")]
extern "C" {
    fn lutemeteor_line(text: *const u8, length: usize, place: u64, numbers: *mut u64, room: usize) -> u64;
}

#[cfg(feature = "reports")]
extern "C" {
    fn lutemeteor_report(
        text: *const u8,
        length: usize,
        report: *const u8,
        report_length: usize,
        cycles: *mut u64,
        cycles_room: usize,
        signals: *mut u64,
        signals_room: usize,
        letters: *mut u8,
        letters_room: usize,
        numbers: *mut u64,
        room: usize,
    ) -> u64;
}

#[cfg(feature = "save")]
extern "C" {
    fn lutemeteor_save(
        text: *mut u8,
        length: usize,
        spans: *mut u64,
        spans_room: usize,
        numbers: *mut u64,
        room: usize,
    ) -> u64;
}

#[cfg(feature = "waveforms")]
extern "C" {
    fn lutemeteor_waveforms(
        text: *const u8,
        length: usize,
        asked: *const u64,
        asked_length: usize,
        times: *mut i64,
        times_room: usize,
        letters: *mut u8,
        letters_room: usize,
        counts: *mut u64,
        counts_room: usize,
        numbers: *mut u64,
        numbers_room: usize,
    ) -> u64;
}

/// Whether the linked library has waveforms by the list, as Cargo.toml says; else they are not compared.
pub const WAVEFORMS: bool = cfg!(feature = "waveforms");

/// Whether it tells the line and column of a place.
pub const LINES: bool = cfg!(feature = "lines");

/// Whether it has the index.
pub const INDEX: bool = cfg!(feature = "index");

/// Whether it saves hurt texts.
pub const SAVE: bool = cfg!(feature = "save");

/// Whether it folds texts.
pub const FOLD: bool = cfg!(feature = "fold");

/// Whether it reads hex data.
pub const HEX: bool = cfg!(feature = "hex");

/// Whether it answers fail reports.
pub const REPORTS: bool = cfg!(feature = "reports");

pub const FEATURES: [(&str, bool); 7] = [
    ("waveforms", WAVEFORMS),
    ("lines", LINES),
    ("index", INDEX),
    ("save", SAVE),
    ("fold", FOLD),
    ("hex", HEX),
    ("reports", REPORTS),
];

/// The proved reader with one text, which it reads at each call.
pub struct Proved<'t>(pub &'t [u8]);

// SAFETY, for every call: all slices live through it and are lent to it alone, and the function is proved for any bytes,
// numbers and lengths.
impl Reader for Proved<'_> {
    fn check(&self, numbers: &mut [u64]) -> u64 {
        unsafe { lutemeteor_check(self.0.as_ptr(), self.0.len(), numbers.as_mut_ptr(), numbers.len()) }
    }

    fn name(&self, table: u8, number: u64, numbers: &mut [u64]) -> u64 {
        let text = self.0;
        unsafe { lutemeteor_name(text.as_ptr(), text.len(), table, number, numbers.as_mut_ptr(), numbers.len()) }
    }

    fn waveform(&self, asked: Asked, times: &mut [u64], letters: &mut [u8], count: &mut [u64]) -> u64 {
        unsafe {
            lutemeteor_waveform(
                self.0.as_ptr(),
                self.0.len(),
                asked.table,
                asked.signal,
                asked.character,
                times.as_mut_ptr().cast(),
                times.len(),
                letters.as_mut_ptr(),
                letters.len(),
                count.as_mut_ptr(),
                count.len(),
            )
        }
    }

    #[cfg(feature = "waveforms")]
    fn waveforms(&self, list: &[u64], lent: Slices) -> u64 {
        unsafe {
            lutemeteor_waveforms(
                self.0.as_ptr(),
                self.0.len(),
                list.as_ptr(),
                list.len(),
                lent.times.as_mut_ptr().cast(),
                lent.times.len(),
                lent.bytes.as_mut_ptr(),
                lent.bytes.len(),
                lent.counts.as_mut_ptr(),
                lent.counts.len(),
                lent.numbers.as_mut_ptr(),
                lent.numbers.len(),
            )
        }
    }

    #[cfg(not(feature = "waveforms"))]
    fn waveforms(&self, _: &[u64], _: Slices) -> u64 {
        panic!("Cargo.toml says that the linked library has no waveforms by the list")
    }

    fn window(&self, first: u64, wanted: u64, mark: u8, rows: &mut [u8], numbers: &mut [u64]) -> u64 {
        unsafe {
            lutemeteor_window(
                self.0.as_ptr(),
                self.0.len(),
                first,
                wanted,
                mark,
                rows.as_mut_ptr(),
                rows.len(),
                numbers.as_mut_ptr(),
                numbers.len(),
            )
        }
    }

    fn token(&self, at: u64, numbers: &mut [u64]) -> u64 {
        unsafe { lutemeteor_token(self.0.as_ptr(), self.0.len(), at, numbers.as_mut_ptr(), numbers.len()) }
    }

    #[cfg(feature = "lines")]
    fn line(&self, place: u64, numbers: &mut [u64]) -> u64 {
        unsafe { lutemeteor_line(self.0.as_ptr(), self.0.len(), place, numbers.as_mut_ptr(), numbers.len()) }
    }

    #[cfg(not(feature = "lines"))]
    fn line(&self, _: u64, _: &mut [u64]) -> u64 {
        panic!("Cargo.toml says that the linked library tells no lines")
    }

    #[cfg(feature = "index")]
    fn index(&self, index: &mut [u8], numbers: &mut [u64]) -> u64 {
        let (text, length) = (self.0.as_ptr(), self.0.len());
        let (index, index_room) = (index.as_mut_ptr(), index.len());
        unsafe { lutemeteor_index(text, length, index, index_room, numbers.as_mut_ptr(), numbers.len()) }
    }

    #[cfg(feature = "index")]
    fn belongs(&self, index: &[u8]) -> u64 {
        unsafe { lutemeteor_belongs(self.0.as_ptr(), self.0.len(), index.as_ptr(), index.len()) }
    }

    #[cfg(feature = "index")]
    fn holds(&self, index: &[u8], cycle: u64, numbers: &mut [u64]) -> u64 {
        let (text, length) = (self.0.as_ptr(), self.0.len());
        let (numbers, room) = (numbers.as_mut_ptr(), numbers.len());
        unsafe { lutemeteor_holds(text, length, index.as_ptr(), index.len(), cycle, numbers, room) }
    }

    #[cfg(feature = "save")]
    fn save(&self, text: &mut [u8], spans: &mut [u64], numbers: &mut [u64]) -> u64 {
        let (bytes, length) = (text.as_mut_ptr(), text.len());
        let (list, list_room) = (spans.as_mut_ptr(), spans.len());
        unsafe { lutemeteor_save(bytes, length, list, list_room, numbers.as_mut_ptr(), numbers.len()) }
    }

    #[cfg(not(feature = "save"))]
    fn save(&self, _: &mut [u8], _: &mut [u64], _: &mut [u64]) -> u64 {
        panic!("Cargo.toml says that the linked library saves no hurt texts")
    }

    #[cfg(feature = "fold")]
    fn fold(&self, folded: &mut [u8], numbers: &mut [u64]) -> u64 {
        let (text, length) = (self.0.as_ptr(), self.0.len());
        let (folded, folded_room) = (folded.as_mut_ptr(), folded.len());
        unsafe { lutemeteor_fold(text, length, folded, folded_room, numbers.as_mut_ptr(), numbers.len()) }
    }

    #[cfg(not(feature = "fold"))]
    fn fold(&self, _: &mut [u8], _: &mut [u64]) -> u64 {
        panic!("Cargo.toml says that the linked library folds no texts")
    }

    #[cfg(feature = "reports")]
    fn report(&self, report: &[u8], lent: Slices) -> u64 {
        unsafe {
            lutemeteor_report(
                self.0.as_ptr(),
                self.0.len(),
                report.as_ptr(),
                report.len(),
                lent.times.as_mut_ptr(),
                lent.times.len(),
                lent.counts.as_mut_ptr(),
                lent.counts.len(),
                lent.bytes.as_mut_ptr(),
                lent.bytes.len(),
                lent.numbers.as_mut_ptr(),
                lent.numbers.len(),
            )
        }
    }

    #[cfg(not(feature = "reports"))]
    fn report(&self, _: &[u8], _: Slices) -> u64 {
        panic!("Cargo.toml says that the linked library answers no reports")
    }

    #[cfg(not(feature = "index"))]
    fn index(&self, _: &mut [u8], _: &mut [u64]) -> u64 {
        panic!("{NO_INDEX}")
    }

    #[cfg(not(feature = "index"))]
    fn belongs(&self, _: &[u8]) -> u64 {
        panic!("{NO_INDEX}")
    }

    #[cfg(not(feature = "index"))]
    fn holds(&self, _: &[u8], _: u64, _: &mut [u64]) -> u64 {
        panic!("{NO_INDEX}")
    }
}

#[cfg(not(feature = "index"))]
const NO_INDEX: &str = "Cargo.toml says that the linked library has no index";
