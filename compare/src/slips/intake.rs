//! Slips in the intake.

use crate::intake::{fixed, seeded, Intakes, SecondIntake, STATE};
use crate::tally::Tally;

#[derive(Clone, Copy, Debug, PartialEq, Eq)]
enum Slip {
    None,
    StateThoughShort,
    AnswersThoughShort,
    NumberAndPlace,
    RestOfState,
    RestOfStore,
    WritesThoughRefused,
    PlaceBehind,
    PlaceCut,
    PlaceDropped,
    RefusedOnce,
    ClosedOnce,
    CloseOpens,
    RunForgotten,
    SlashForgotten,
    OpeningForgotten,
    LfAsBlank,
    ReturnAsLf,
    TabRefused,
    AllBytesAllowed,
    StoreOneLess,
    StoreOneMore,
    EmptyChunkRefused,
}

const ALL: &[Slip] = &[
    Slip::StateThoughShort,
    Slip::AnswersThoughShort,
    Slip::NumberAndPlace,
    Slip::RestOfState,
    Slip::RestOfStore,
    Slip::WritesThoughRefused,
    Slip::PlaceBehind,
    Slip::PlaceCut,
    Slip::PlaceDropped,
    Slip::RefusedOnce,
    Slip::ClosedOnce,
    Slip::CloseOpens,
    Slip::RunForgotten,
    Slip::SlashForgotten,
    Slip::OpeningForgotten,
    Slip::LfAsBlank,
    Slip::ReturnAsLf,
    Slip::TabRefused,
    Slip::AllBytesAllowed,
    Slip::StoreOneLess,
    Slip::StoreOneMore,
    Slip::EmptyChunkRefused,
];

struct Slipping {
    second: SecondIntake,
    slip: Slip,
}

impl Slipping {
    /// The chunk as a slip reads it.
    fn read(&self, chunk: &[u8]) -> Vec<u8> {
        let read = |byte: u8| match (self.slip, byte) {
            (Slip::LfAsBlank, b'\n') => b' ',
            (Slip::ReturnAsLf, b'\r') => b'\n',
            (Slip::TabRefused, b'\t') => 0,
            (Slip::AllBytesAllowed, 127..) => b'a',
            _ => byte,
        };
        chunk.iter().map(|&byte| read(byte)).collect()
    }

    fn answer(&mut self, state: &mut [u64], chunk: Option<&[u8]>, store: &mut [u8]) -> u64 {
        let mut more = store.to_vec();
        more.push(0);
        let room = store.len();
        match self.slip {
            Slip::StoreOneLess => self.second.call(state, chunk, &mut store[..room.min(65_535)]),
            Slip::StoreOneMore => {
                let answer = self.second.call(state, chunk, &mut more);
                store.copy_from_slice(&more[..room]);
                answer
            }
            _ => self.second.call(state, chunk, store),
        }
    }

    /// What a slip makes of the state that a right intake leaves, of its kind and of its store.
    fn left(&self, state: &mut [u64], was: u64, closes: bool, store: &mut [u8]) {
        let stored = state[2] as usize;
        match (self.slip, state[0]) {
            (Slip::NumberAndPlace, 1) => state.swap(1, 2),
            (Slip::PlaceCut, 1) => state[2] &= 0xffff,
            (Slip::WritesThoughRefused, 1) if was == 0 && !store.is_empty() => store[0] = 0,
            (Slip::RefusedOnce, 1) if was == 1 => state[0] = 0,
            (Slip::ClosedOnce, 2) if was == 2 => state[1] += 1,
            (Slip::CloseOpens, 2) if closes => state[0] = 0,
            (Slip::RunForgotten, 0) => state[3] = 0,
            (Slip::SlashForgotten, 0) if state[4] == 1 => state[4] = 0,
            (Slip::OpeningForgotten, 0) => state[5] = 0,
            (Slip::RestOfStore, 0) if store.len() > stored => store[stored] = 0,
            (Slip::RestOfState, _) if state.len() > STATE => state[STATE] = 0,
            _ => {}
        }
    }
}

impl Intakes for Slipping {
    fn call(&mut self, state: &mut [u64], chunk: Option<&[u8]>, store: &mut [u8]) -> u64 {
        if state.len() < STATE {
            if self.slip == Slip::StateThoughShort && !state.is_empty() {
                state[0] = 1;
            }
            return if self.slip == Slip::AnswersThoughShort { 0 } else { 19 };
        }
        if self.slip == Slip::EmptyChunkRefused && chunk.map_or(false, <[u8]>::is_empty) {
            return 4;
        }
        let was = state[0];
        let read = chunk.map(|chunk| self.read(chunk));
        let answer = self.answer(state, read.as_deref(), store);
        self.left(state, was, chunk.is_none(), store);
        match self.slip {
            Slip::PlaceBehind if answer > 0 => answer + 32,
            Slip::PlaceDropped if state[0] == 1 && state[2] > 65_536 => state[1],
            _ => answer,
        }
    }
}

fn found(slip: Slip) -> bool {
    let mut tally = Tally::new("Intake");
    let plans = (0..400).flat_map(seeded).chain(fixed());
    plans.into_iter().any(|plan| {
        let mut slipping = Slipping { second: SecondIntake::default(), slip };
        plan.follow(&format!("{slip:?}"), &mut slipping, &mut tally);
        tally.differs()
    })
}

#[test]
fn each_slip_of_the_intake_is_found() {
    assert!(!found(Slip::None));
    ALL.iter().for_each(|&slip| assert!(found(slip), "{slip:?}"));
}
