//! That a difference is found: readers that answer as the second one does, but for one slip.

mod edges;
mod fold;
mod hex;
mod index;
mod intake;
mod lines;
mod lists;
mod marks;
mod report;
mod save;
mod signed;

use crate::comparison::{Comparison, Often};
use crate::lent::Slices;
use crate::reader::{told, write_next, Reader, Second};
use crate::special::SAMPLE;
use crate::texts::short;
use second::generate::random::Random;
use second::generate::{crossing, early, flat, hexed, hurt, marked, nested, text};
use second::refusal::Answer;
use second::requests::HEX;
use second::timing::Asked;
use second::tokens::check_bytes;
use second::{token, Located, Refusal};

/// The slips, and a list of them all.
macro_rules! slips {
    ($($slip:ident,)*) => {
        #[derive(Clone, Copy, Debug, PartialEq, Eq)]
        enum Slip {
            None,
            $($slip,)*
        }

        const ALL: &[Slip] = &[$(Slip::$slip,)*];
    };
}

slips! {
    CheckCycles,
    CheckSignalsCut,
    CheckPlace,
    CheckWritesThoughRefused,
    CheckWritesBehind,
    NameCut,
    NameCutToByte,
    NameLength,
    NameAnswersWithoutRoom,
    WaveformTableCut,
    WaveformSignalCut,
    WaveformSignalCutToByte,
    WaveformCharacterCut,
    WaveformRest,
    WaveformShortTimes,
    WaveformLastLetter,
    ListTableCut,
    ListCharacterCut,
    ListOneMore,
    ListOneLess,
    ListLeftOverUncounted,
    ListLeftOverDropped,
    ListLeftOverFilled,
    ListLeftOverFirst,
    ListBeforeText,
    ListCountsFirst,
    ListCountsLater,
    ListNumbersFirst,
    ListNumbersUnasked,
    ListRoomForAll,
    ListWritesNothing,
    ListWritesThoughRefused,
    ListServed,
    ListEventsAtRefusal,
    ListServedAtAnswer,
    ListNumbersKept,
    ListNumbersRest,
    ListPartOfGroup,
    ListCountOfRefused,
    ListCountsRest,
    ListCountsShifted,
    ListCountsAdded,
    ListAtFront,
    ListLaterTimes,
    ListNoRefusal,
    ListPlace,
    ListGoesOn,
    WindowVisits,
    WindowVisitsOfLaterTurns,
    WindowOneRowOnly,
    WindowFirstCut,
    WindowWantedCut,
    WindowRest,
    WindowShortByWanted,
    WindowWritesThoughRefused,
    WindowMarkDot,
    WindowMarkOther,
    WindowMarkCut,
    WindowMarkLetter,
    WindowMarkDigit,
    WindowMarkEnd,
    WindowMarkReturn,
    WindowMarkHigh,
    WindowMarkUnshown,
    WindowMarkBeforeText,
    WindowMarkBehindRoom,
    WindowMarkBehindRows,
    WindowMarkBehindNumbers,
    TokenCut,
    TokenCutShort,
    TokenWholeWord,
    TokenLineKnown,
    TokenReturnEndsLine,
    TokenStarCloses,
    TokenPlaceInRest,
    TokenLength,
    TokenLastByte,
    TokenEndRefused,
    TokenTooLongPastEnd,
    TokenWholeText,
    TokenOpenFirst,
    TokenRoomFirst,
    TokenTwoNumbers,
    TokenNoneWithoutRoom,
    TokenNoneKeeps,
    TokenRest,
    TokenWritesThoughRefused,
    TokenWritesThoughShort,
    LineFromNone,
    LineColumnFromNone,
    LineReturn,
    LineEnd,
    LineEndOfText,
    LinePastEnd,
    LineOutsideComments,
    LineCut,
    LineColumnCut,
    LineSwapped,
    LineRest,
    LineRoom,
    LineWritesThoughShort,
    LineBytes,
    IndexLength,
    IndexNoTables,
    IndexListedOnce,
    IndexWithoutEmpty,
    IndexPlaceOfName,
    IndexLastLine,
    IndexRest,
    IndexRoomOneMore,
    IndexWritesThoughShort,
    IndexNumberThoughShort,
    BelongsAny,
    BelongsLonger,
    BelongsShorter,
    BelongsLength,
    BelongsBeforeText,
    HoldsOfAny,
    HoldsFirstListed,
    HoldsLastCycle,
    HoldsPastEnd,
    HoldsCut,
    HoldsFromOne,
    HoldsNumberAlone,
    HoldsRoomFirst,
    HoldsNoneWithoutRoom,
    HoldsRest,
    SaveOnce,
    SaveBlockToBrace,
    SaveFromName,
    SaveUndefinedKept,
    SaveEntryToSemicolon,
    SaveCycleKept,
    SaveOpenKept,
    SaveEndKept,
    SaveNextBlock,
    SaveLastFor16,
    SaveInnerPattern,
    SaveBracesInComments,
    SaveSorted,
    SaveFirstRefusal,
    SaveKeepsLines,
    SaveWritesThoughBeyond,
    SaveWritesThoughShort,
    SaveListsThoughShort,
    SaveListsWhatFits,
    SaveRoomFirst,
    SaveRoomOneMore,
    SaveLength,
    SaveCount,
    SaveRest,
    SaveNumbersRest,
    SaveWithoutNumber,
    FoldTwoAsTwo,
    FoldLoopOfOne,
    FoldLoopOneLess,
    FoldOneSplitLess,
    FoldEmptyDropped,
    FoldEmptyListed,
    FoldEmptyUnwritten,
    FoldTablesOnce,
    FoldTablesTwice,
    FoldHeldPins,
    FoldMarks,
    FoldTimes,
    FoldPeriods,
    FoldLastCharacter,
    FoldDirections,
    FoldOldNames,
    FoldListBackwards,
    FoldLastLineEnd,
    FoldRoomFirst,
    FoldNumbersFirst,
    FoldCyclesLess,
    FoldCyclesMore,
    FoldPatternsLess,
    FoldPatternsMore,
    FoldTextLess,
    FoldTextMore,
    FoldRoomOneMore,
    FoldLength,
    FoldRest,
    FoldNumbersRest,
    FoldWritesThoughShort,
    FoldNumberThoughShort,
    ReportOfText,
    ReportOutsideOfText,
    ReportBeforeText,
    ReportRoomFirst,
    ReportUnknownAsName,
    ReportOutsideAtReference,
    ReportListedTwice,
    ReportOneTooLong,
    ReportCycleOfPattern,
    ReportSignalFromOne,
    ReportLetterLost,
    ReportNoLetterShown,
    ReportWithoutOffsetLost,
    ReportBackwards,
    ReportCount,
    ReportRest,
    ReportNumbersRest,
    ReportRoomOneMore,
    ReportWritesThoughShort,
    ReportNumberThoughShort,
    ReportWithoutNumber,
    ReportMarkAtBegin,
    ReportMarkOneLess,
    ReportMarkInLastTurn,
    EdgesUnchecked,
    EdgesTwoTurns,
    EdgesAtEarlier,
    EdgesSameTime,
    EdgesLaterPeriod,
    EdgesNoPeriod,
    EdgesOneCategory,
    EdgesFirstSignal,
    EdgesAcrossPatterns,
    EdgesPastOthers,
    SignedTimesUnsigned,
    SignedUnread,
    SignedTwice,
    SignedPlus,
    SignedPeriod,
    SignedPastBound,
    SignedZeroApart,
    SignedRisingAmounts,
    HexBackwards,
    HexLastZero,
    HexCapitalsOnly,
    HexPlainUnread,
    HexScanMore,
    HexCharsEight,
    HexCharsTwice,
}

/// Those of events across the edge: they answer by another reading of the rule.
const WITH_EDGES: [Slip; 10] = [
    Slip::EdgesUnchecked,
    Slip::EdgesTwoTurns,
    Slip::EdgesAtEarlier,
    Slip::EdgesSameTime,
    Slip::EdgesLaterPeriod,
    Slip::EdgesNoPeriod,
    Slip::EdgesOneCategory,
    Slip::EdgesFirstSignal,
    Slip::EdgesAcrossPatterns,
    Slip::EdgesPastOthers,
];
/// Those of times before the cycle's start: they take the text for another.
const WITH_SIGNED: [Slip; 8] = [
    Slip::SignedTimesUnsigned,
    Slip::SignedUnread,
    Slip::SignedTwice,
    Slip::SignedPlus,
    Slip::SignedPeriod,
    Slip::SignedPastBound,
    Slip::SignedZeroApart,
    Slip::SignedRisingAmounts,
];
/// Hex data is read where the second reader's feature says so: without it nothing shows these.
const WITH_HEX: [Slip; 7] = [
    Slip::HexBackwards,
    Slip::HexLastZero,
    Slip::HexCapitalsOnly,
    Slip::HexPlainUnread,
    Slip::HexScanMore,
    Slip::HexCharsEight,
    Slip::HexCharsTwice,
];

struct Slipping<'t> {
    second: Second<'t>,
    slip: Slip,
}

impl Slipping<'_> {
    /// What follows is done for this slip only, where it shows.
    fn slips(&self, slip: Slip, shows: bool) -> bool {
        self.slip == slip && shows
    }
}

impl Reader for Slipping<'_> {
    fn check(&self, numbers: &mut [u64]) -> u64 {
        let answer = match self.signed_text() {
            Some(text) => Second::new(&text).check(numbers),
            None => self.edges_checked(numbers).unwrap_or_else(|| self.hex_checked(numbers)),
        };
        if self.slips(Slip::CheckCycles, answer == 0) {
            numbers[3] += 1;
        }
        if self.slips(Slip::CheckSignalsCut, answer == 0) {
            numbers[0] &= 0xff;
        }
        if self.slips(Slip::CheckWritesThoughRefused, answer % 32 == 17 && !numbers.is_empty()) {
            numbers[0] = 0;
        }
        if self.slips(Slip::CheckWritesBehind, answer == 0 && numbers.len() > 5) {
            numbers[5] = 0;
        }
        answer + if self.slips(Slip::CheckPlace, answer % 32 == 13) { 32 } else { 0 }
    }

    fn name(&self, table: u8, number: u64, numbers: &mut [u64]) -> u64 {
        let number = match self.slip {
            Slip::NameCut => number & 0xffff_ffff,
            Slip::NameCutToByte => number & 0xff,
            _ => number,
        };
        let answer = self.second.name(table, number, numbers);
        if self.slips(Slip::NameLength, answer == 0 && numbers[1] > 31) {
            numbers[1] = 31;
        }
        if self.slips(Slip::NameAnswersWithoutRoom, answer == 19) {
            return 0;
        }
        answer
    }

    fn waveform(&self, mut asked: Asked, times: &mut [u64], letters: &mut [u8], count: &mut [u64]) -> u64 {
        match self.slip {
            Slip::WaveformTableCut => asked.table &= 0xff,
            Slip::WaveformSignalCut => asked.signal &= 0xffff,
            Slip::WaveformSignalCutToByte => asked.signal &= 0xff,
            Slip::WaveformCharacterCut => asked.character &= 127,
            _ => {}
        }
        let mut more = [0; 20];
        let short = self.slips(Slip::WaveformShortTimes, times.len() < letters.len());
        let answer = self.second.waveform(asked, if short { &mut more } else { times }, letters, count);
        let events = count.first().map_or(0, |&events| events as usize);
        if self.slips(Slip::WaveformRest, answer == 0 && letters.len() > events) {
            letters[events] = 0;
        }
        if self.slips(Slip::SignedTimesUnsigned, answer == 0) {
            times[..events].iter_mut().for_each(|time| *time = (*time as i64).unsigned_abs());
        }
        if self.slips(Slip::WaveformLastLetter, answer == 0 && events > 2) {
            letters[events - 1] = letters[0];
        }
        answer
    }

    fn waveforms(&self, list: &[u64], lent: Slices) -> u64 {
        self.list(list, lent)
    }

    fn window(&self, mut first: u64, mut wanted: u64, mark: u8, rows: &mut [u8], numbers: &mut [u64]) -> u64 {
        match self.slip {
            Slip::WindowFirstCut => first &= 0xffff_ffff,
            Slip::WindowWantedCut => wanted &= 0xffff_ffff,
            _ => {}
        }
        let width = self.second.document().map_or(0, |document| document.row_width());
        if self.slips(Slip::WindowShortByWanted, wanted > 1 << 40) && width > 0 {
            return 19;
        }
        let answer = match self.hex_text() {
            Some(text) => Second::new(&text).window(first, wanted, mark, rows, numbers),
            None => self.marked(first, wanted, mark, rows, numbers),
        };
        if self.slips(Slip::WindowWritesThoughRefused, answer == 19 && rows.len() > 1) {
            rows[1] = b'.';
        }
        if answer != 0 {
            return answer;
        }
        let due = numbers[0] as usize * width;
        if self.slips(Slip::WindowVisits, first > 0) {
            numbers[1] += 1;
        }
        if self.slips(Slip::WindowVisitsOfLaterTurns, numbers[1] > 60) {
            numbers[1] -= 1;
        }
        if self.slips(Slip::WindowOneRowOnly, due > 2 * width) {
            rows.copy_within(due - 2 * width..due - width, due - width);
        }
        if self.slips(Slip::WindowRest, rows.len() > due) {
            rows[due] = b'.';
        }
        answer
    }

    fn token(&self, at: u64, numbers: &mut [u64]) -> u64 {
        let next = self.next(at);
        let room = numbers.len();
        match (self.slip, next) {
            (Slip::TokenRoomFirst, _) if room < 3 => return 19,
            (Slip::TokenTwoNumbers, Ok(Some(next))) if room == 2 => {
                numbers.copy_from_slice(&[1, next.place]);
                return 0;
            }
            (Slip::TokenNoneWithoutRoom, Ok(None)) if room < 3 => return 0,
            (Slip::TokenNoneKeeps, Ok(None)) if room > 2 => {
                numbers[0] = 0;
                return 0;
            }
            (Slip::TokenRest, Ok(_)) if room > 3 => numbers[3] = 0,
            (Slip::TokenWritesThoughRefused, Err(_)) if room > 2 => numbers[0] = 0,
            (Slip::TokenWritesThoughShort, Ok(Some(_))) if (1..3).contains(&room) => numbers[0] = 1,
            _ => {}
        }
        told(next.and_then(|next| write_next(numbers, next.map(|next| (next.place, next.length)))))
    }

    fn line(&self, place: u64, numbers: &mut [u64]) -> u64 {
        self.slipped_line(place, numbers)
    }

    fn index(&self, index: &mut [u8], numbers: &mut [u64]) -> u64 {
        self.slipped_index(index, numbers)
    }

    fn belongs(&self, index: &[u8]) -> u64 {
        self.slipped_belongs(index)
    }

    fn holds(&self, index: &[u8], cycle: u64, numbers: &mut [u64]) -> u64 {
        self.slipped_holds(index, cycle, numbers)
    }

    fn save(&self, text: &mut [u8], spans: &mut [u64], numbers: &mut [u64]) -> u64 {
        self.slipped_save(text, spans, numbers)
    }

    fn fold(&self, folded: &mut [u8], numbers: &mut [u64]) -> u64 {
        self.slipped_fold(folded, numbers)
    }

    fn report(&self, report: &[u8], lent: Slices) -> u64 {
        self.slipped_report(report, lent)
    }
}

impl Slipping<'_> {
    /// Where a slip begins to read.
    fn begun(&self, at: u64) -> u64 {
        let text = self.second.text;
        let (before, rest) = text.split_at(at.min(text.len() as u64) as usize);
        let upto = |ends: &[u8]| rest.iter().position(|byte| ends.contains(byte)).unwrap_or(rest.len()) as u64;
        match self.slip {
            Slip::TokenCut => at & 0xffff_ffff,
            Slip::TokenCutShort => at & 0xffff,
            Slip::TokenWholeWord if rest.first().map_or(false, u8::is_ascii_alphanumeric) => {
                at - before.iter().rev().take_while(|byte| byte.is_ascii_alphanumeric()).count() as u64
            }
            Slip::TokenLineKnown if is_in_line_comment(before) => at + upto(b"\n"),
            Slip::TokenReturnEndsLine if rest.starts_with(b"//") => at + upto(b"\r\n"),
            Slip::TokenStarCloses if rest.starts_with(b"/*/") => at + 3,
            _ => at,
        }
    }

    fn next(&self, at: u64) -> Answer<Option<Located>> {
        let text = self.second.text;
        let length = text.len() as u64;
        let next = token(text, self.begun(at));
        match (self.slip, next) {
            (Slip::TokenPlaceInRest, Ok(Some(next))) => Ok(Some(Located { place: next.place - at, ..next })),
            (Slip::TokenLength, Ok(Some(next))) => Ok(Some(Located { length: next.length.min(32), ..next })),
            (Slip::TokenLastByte, Ok(Some(next))) if next.place + 1 == length => Ok(None),
            (Slip::TokenEndRefused, Ok(None)) if at == length => Err(Refusal { number: 4, place: at }),
            (Slip::TokenTooLongPastEnd, Err(_)) if at >= length => Ok(None),
            (Slip::TokenWholeText, Ok(_)) => check_bytes(text).and(next),
            (Slip::TokenOpenFirst, Err(Refusal { number: 2, .. })) if opens_comment(text, at) => {
                Err(Refusal { number: 3, place: at })
            }
            _ => next,
        }
    }
}

fn is_in_line_comment(before: &[u8]) -> bool {
    let line = before.rsplit(|&byte| byte == b'\n').next();
    line.map_or(false, |line| line.windows(2).any(|two| two == b"//"))
}

/// One that is never closed.
fn opens_comment(text: &[u8], at: u64) -> bool {
    let rest = &text[at as usize..];
    rest.starts_with(b"/*") && !rest[2..].windows(2).any(|two| two == b"*/")
}

const OFTEN: Often = Often {
    names: 5,
    waveforms: 5,
    lists: 5,
    windows: 5,
    every: 20,
    tokens: 100,
    places: 20,
    lines: 20,
    indexes: 5,
    saves: 3,
    folds: 3,
    reports: 5,
    bytes: 100,
};

fn found(slip: Slip) -> bool {
    let mut comparison = Comparison::new();
    let mut random = Random::new(7);
    let kinds = [text, nested, hurt, flat, marked, crossing, hexed, early];
    let seeded = (0..600).flat_map(|seed| kinds.map(|kind| kind(seed)));
    seeded.chain([SAMPLE.into()]).chain(short()).any(|text| {
        let slipping = Slipping { second: Second::new(&text), slip };
        comparison.readers(&format!("{slip:?}"), &slipping, &Second::new(&text), OFTEN, &mut random);
        comparison.differs()
    })
}

#[test]
fn each_slip_is_found() {
    assert!(!found(Slip::None));
    let shows = |slip: &&Slip| HEX || !WITH_HEX.contains(slip);
    let missed: Vec<&Slip> = ALL.iter().filter(shows).filter(|&&slip| !found(slip)).collect();
    assert!(missed.is_empty(), "{missed:?}");
}
