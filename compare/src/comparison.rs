//! Both readers with one text after another, and what was seen of each service.

use crate::check::Check;
use crate::fold::Fold;
use crate::index::{Belongs, Holds, Index};
use crate::intake::{Plan, ProvedIntake};
use crate::line::Line;
use crate::name::Name;
use crate::proved::{self, Proved};
use crate::reader::{Reader, Second};
use crate::report::Report;
use crate::save::Save;
use crate::tally::Tally;
use crate::token::{Places, Token};
use crate::waveform::Waveform;
use crate::waveforms::Waveforms;
use crate::{call::outcome, tally::say, window::Window};
use second::generate::random::Random;
use second::DOT;

/// Calls of one text, besides one of Check; a refused text has one of each, but of Token as many as any other.
#[derive(Clone, Copy)]
pub struct Often {
    pub names: usize,
    pub waveforms: usize,
    pub lists: usize,
    pub windows: usize,
    /// Up to this many cycles, windows are asked for at each of them.
    pub every: u64,
    /// At most so many tokens are asked for one by one, and so many at places that are drawn.
    pub tokens: usize,
    pub places: usize,
    /// Lines of so many places that are drawn.
    pub lines: usize,
    /// Indexes so often, each with a right or a wrong one asked of.
    pub indexes: usize,
    /// Saved and folded so often.
    pub saves: usize,
    pub folds: usize,
    /// Reports on it.
    pub reports: usize,
    /// Up to this many bytes, tokens and lines are asked for at each of them.
    pub bytes: usize,
}

impl Often {
    /// Without the calls that the linked library has no function for.
    fn linked(self) -> Often {
        let lists = if proved::WAVEFORMS { self.lists } else { 0 };
        let lines = if proved::LINES { self.lines } else { 0 };
        let indexes = if proved::INDEX { self.indexes } else { 0 };
        let saves = if proved::SAVE { self.saves } else { 0 };
        let folds = if proved::FOLD { self.folds } else { 0 };
        let reports = if proved::REPORTS { self.reports } else { 0 };
        Often { lists, lines, indexes, saves, folds, reports, ..self }
    }
}

pub struct Comparison {
    pub check: Tally,
    name: Tally,
    waveform: Tally,
    waveforms: Tally,
    window: Tally,
    pub token: Tally,
    pub line: Tally,
    index: Tally,
    belongs: Tally,
    holds: Tally,
    save: Tally,
    fold: Tally,
    report: Tally,
    pub intake: Tally,
}

impl Comparison {
    pub fn new() -> Comparison {
        Comparison {
            check: Tally::new("Check"),
            name: Tally::new("Name"),
            waveform: Tally::new("Waveform"),
            waveforms: Tally::new("Waveforms"),
            window: Tally::new("Window"),
            token: Tally::new("Token"),
            line: Tally::new("Line"),
            index: Tally::new("Index"),
            belongs: Tally::new("Belongs"),
            holds: Tally::new("Holds"),
            save: Tally::new("Save"),
            fold: Tally::new("Fold"),
            report: Tally::new("Report"),
            intake: Tally::new("Intake"),
        }
    }

    pub fn text(&mut self, named: &str, text: &[u8], often: Often, random: &mut Random) {
        self.readers(named, &Proved(text), &Second::new(text), often.linked(), random);
    }

    pub fn readers(&mut self, named: &str, proved: &dyn Reader, second: &Second, often: Often, random: &mut Random) {
        self.check.compare(named, &Check { room: Check::DUE }, proved, second);
        let document = second.document().ok();
        let times = |wanted: usize| if document.is_some() { wanted } else { wanted.min(1) };
        if random.percent(20) {
            self.check.compare(named, &Check::draw(random), proved, second);
        }
        for _ in 0..times(often.names) {
            self.name.compare(named, &Name::draw(document, random), proved, second);
        }
        for _ in 0..times(often.waveforms) {
            self.waveform.compare(named, &Waveform::draw(document, random), proved, second);
        }
        for _ in 0..times(often.lists) {
            self.waveforms.compare(named, &Waveforms::draw(document, random), proved, second);
        }
        for _ in 0..times(often.windows) {
            self.window.compare(named, &Window::draw(document, random), proved, second);
        }
        if let Some(document) = document.filter(|document| document.extent.cycles <= often.every) {
            let calls = Window::every(document);
            calls.iter().for_each(|call| self.window.compare(named, call, proved, second));
        }
        self.indexes(named, proved, second, times(often.indexes), random);
        for _ in 0..times(often.folds) {
            self.fold.compare(named, &Fold::draw(document, random), proved, second);
        }
        for _ in 0..times(often.reports) {
            self.report.compare(named, &Report::draw(document, random), proved, second);
        }
        for _ in 0..often.saves {
            self.save.compare(named, &Save::draw(second.text, random), proved, second);
        }
        self.places(named, proved, second, often, random);
        self.lines_of(named, proved, second, often, random);
    }

    /// The index, and what is asked of one, so often.
    fn indexes(&mut self, named: &str, proved: &dyn Reader, second: &Second, often: usize, random: &mut Random) {
        let document = second.document().ok();
        for _ in 0..often {
            self.index.compare(named, &Index::draw(document, random), proved, second);
            self.belongs.compare(named, &Belongs::draw(document, random), proved, second);
            self.holds.compare(named, &Holds::draw(document, random), proved, second);
        }
        if let Some(document) = document.filter(|_| often > 0) {
            Holds::edges(document).iter().for_each(|call| self.holds.compare(named, call, proved, second));
        }
    }

    /// The next token at places all over one text.
    fn places(&mut self, named: &str, proved: &dyn Reader, second: &Second, often: Often, random: &mut Random) {
        let places = Places::new(second.text);
        let mut calls = places.one_by_one(often.tokens, random);
        calls.extend((0..often.places).map(|_| places.draw(random)));
        if second.text.len() <= often.bytes {
            calls.extend(Token::every(second.text));
        }
        calls.iter().for_each(|call| self.token.compare(named, call, proved, second));
    }

    /// Line and column of places all over one text.
    fn lines_of(&mut self, named: &str, proved: &dyn Reader, second: &Second, often: Often, random: &mut Random) {
        let mut calls: Vec<Line> = (0..often.lines).map(|_| Line::draw(second, random)).collect();
        if often.lines > 0 && second.text.len() <= often.bytes {
            calls.extend(Line::every(second.text));
        }
        calls.iter().for_each(|call| self.line.compare(named, call, proved, second));
    }

    /// All waveforms of one text, and all that it lacks.
    pub fn waveforms(&mut self, named: &str, text: &[u8]) {
        let (proved, second) = (Proved(text), Second::new(text));
        let calls = second.document().map_or(Vec::new(), Waveform::every);
        calls.iter().for_each(|call| self.waveform.compare(named, call, &proved, &second));
        if proved::WAVEFORMS {
            let lists = second.document().map_or(Vec::new(), Waveforms::every);
            lists.iter().for_each(|call| self.waveforms.compare(named, call, &proved, &second));
        }
    }

    /// The next token, and the line, at every place of one text.
    pub fn tokens(&mut self, named: &str, text: &[u8]) {
        let (proved, second) = (Proved(text), Second::new(text));
        Token::every(text).iter().for_each(|call| self.token.compare(named, call, &proved, &second));
        if proved::LINES {
            Line::every(text).iter().for_each(|call| self.line.compare(named, call, &proved, &second));
        }
    }

    /// Windows of which rows and visits are known: first, wanted, rows, visits.
    pub fn windows(&mut self, named: &str, text: &[u8], due: &[(u64, u64, &str, u64)]) {
        for &(first, wanted, rows, visits) in due {
            let call = Window { first, wanted, mark: DOT, rows: rows.len(), room: Window::DUE };
            let (answer, mut lent) = outcome(&call, &Proved(text));
            let left = lent.slices();
            let numbers = [rows.lines().count() as u64, visits];
            if answer != 0 || left.bytes != rows.as_bytes() || left.numbers != numbers {
                self.window.report(&format!("{named}: {call:?}: proved {}, not {numbers:?} {rows:?}", say(answer)));
            }
        }
    }

    /// An index that is known, where the linked library has one.
    pub fn indexed(&mut self, named: &str, text: &[u8], due: &str) {
        if !proved::INDEX {
            return;
        }
        self.index.known(named, &Index { bytes: due.len(), room: Index::DUE }, &Proved(text), due);
    }

    /// A folded text that is known, where the linked library folds.
    pub fn folded(&mut self, named: &str, text: &[u8], due: &str) {
        let call = Fold { bytes: due.len(), room: Fold::DUE };
        self.fold.known(named, &call, &Second::new(text), due);
        if proved::FOLD {
            self.fold.known(named, &call, &Proved(text), due);
        }
    }

    /// One raw text in chunks.
    pub fn raw(&mut self, named: &str, plan: &Plan) {
        plan.follow(named, &mut ProvedIntake, &mut self.intake);
    }

    fn tallies(&self) -> Vec<&Tally> {
        vec![
            &self.check,
            &self.name,
            &self.waveform,
            &self.waveforms,
            &self.window,
            &self.token,
            &self.line,
            &self.index,
            &self.belongs,
            &self.holds,
            &self.save,
            &self.fold,
            &self.report,
            &self.intake,
        ]
    }

    pub fn differs(&self) -> bool {
        self.tallies().iter().any(|tally| tally.differs())
    }

    /// A line for each service, and one for what is not linked.
    pub fn lines(&self) -> String {
        let lines: String = self.tallies().iter().map(|tally| tally.line() + "\n").collect();
        let unlinked = proved::FEATURES.iter().filter(|(_, linked)| !linked);
        let say = |feature| format!("Not compared, since Cargo.toml does not name it: {feature}\n");
        lines + &unlinked.map(|(feature, _)| say(feature)).collect::<String>()
    }
}
