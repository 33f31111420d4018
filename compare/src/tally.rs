//! What was seen of one service: calls, differences, and how often each number was the answer.

use crate::call::{outcome, Call};
use crate::lent::Lent;
use crate::reader::{Reader, OF_REPORT};
use second::refusal::EVENTS_OUT_OF_ORDER;

const NUMBERS: usize = EVENTS_OUT_OF_ORDER as usize + 1;

pub struct Tally {
    service: &'static str,
    calls: u64,
    different: u64,
    /// By the second reader's number; 0 for an answer.
    by_number: [u64; NUMBERS],
}

impl Tally {
    pub fn new(service: &'static str) -> Tally {
        Tally { service, calls: 0, different: 0, by_number: [0; NUMBERS] }
    }

    /// Makes one call of both readers; all that is left by it must be the same.
    pub fn compare(&mut self, named: &str, call: &dyn Call, proved: &dyn Reader, second: &dyn Reader) {
        let (ours, theirs) = (outcome(call, proved), outcome(call, second));
        self.count(theirs.0);
        if let Some(what) = difference(call, &ours, &theirs) {
            self.report(&format!("{named}: {call:?}: {what}"));
        }
    }

    /// Bytes that are known, with their length as the one number.
    pub fn known(&mut self, named: &str, call: &dyn Call, reader: &dyn Reader, due: &str) {
        let (answer, mut lent) = outcome(call, reader);
        let left = lent.slices();
        if answer != 0 || left.bytes != due.as_bytes() || left.numbers != [due.len() as u64] {
            self.report(&format!("{named}: {call:?}: {}, not {due:?}", say(answer)));
        }
    }

    pub fn count(&mut self, answer: u64) {
        self.calls += 1;
        self.by_number[(answer % 32) as usize] += 1;
    }

    pub fn report(&mut self, line: &str) {
        self.different += 1;
        println!("{line}");
    }

    pub fn differs(&self) -> bool {
        self.different > 0
    }

    pub fn line(&self) -> String {
        let Tally { service, calls, different, by_number } = self;
        format!("{service}: {calls} calls, {different} different; by number (0: an answer) {by_number:?}")
    }
}

fn difference(call: &dyn Call, ours: &(u64, Lent), theirs: &(u64, Lent)) -> Option<String> {
    if ours.0 != theirs.0 {
        return Some(format!("proved {}, second {}", say(ours.0), say(theirs.0)));
    }
    if let Some(what) = ours.1.difference(&theirs.1) {
        return Some(format!("both {}; proved against second, {what}", say(ours.0)));
    }
    let kept = !call.keeps(ours.0) || ours.1 == call.lend();
    (!kept).then(|| format!("both {}, and both wrote", say(ours.0)))
}

pub fn say(answer: u64) -> String {
    match answer {
        0 => "an answer".into(),
        refused if refused >= OF_REPORT => say(refused - OF_REPORT) + " of the report",
        refused => format!("{} at {}", refused % 32, refused / 32),
    }
}
