//! Calls of Token.

use crate::call::{number_around, room_around, Call};
use crate::lent::{Rooms, Slices};
use crate::reader::Reader;
use second::generate::random::Random;
use second::tokens::next_token;
use std::iter::{once, successors};
use std::ops::Range;

#[derive(Debug)]
pub struct Token {
    pub at: u64,
    pub room: usize,
}

impl Token {
    pub const DUE: usize = 3;

    /// At each byte, at the end and past it.
    pub fn every(text: &[u8]) -> Vec<Token> {
        (0..=text.len() as u64 + 1).chain([u64::MAX]).map(Token::with_room).collect()
    }

    pub fn with_room(at: u64) -> Token {
        Token { at, room: Token::DUE }
    }
}

/// Where the tokens of a text are, as far as none is refused.
pub struct Places {
    length: u64,
    tokens: Vec<Range<u64>>,
    /// From a token's end to the next one's place, where a comment stands between them.
    comments: Vec<Range<u64>>,
}

impl Places {
    pub fn new(text: &[u8]) -> Places {
        let length = text.len() as u64;
        let span = |token: second::tokens::Token| token.place.into()..(token.place + token.length).into();
        let next = |from| next_token(text, from).ok().flatten().map(span);
        let tokens: Vec<Range<u64>> = successors(next(0), |last| next(last.end)).collect();
        let ends = once(0).chain(tokens.iter().map(|token| token.end));
        let nexts = tokens.iter().map(|token| token.start).chain(once(length));
        let commented = |gap: &Range<u64>| text[gap.start as usize..gap.end as usize].contains(&b'/');
        let comments = ends.zip(nexts).map(|(end, next)| end..next).filter(commented).collect();
        Places { length, tokens, comments }
    }

    /// From 0 on, each from the end of the one before; of more than `most` as many of them, the first and the last too.
    pub fn one_by_one(&self, most: usize, random: &mut Random) -> Vec<Token> {
        let asked: Vec<u64> = once(0).chain(self.tokens.iter().map(|token| token.end)).collect();
        if asked.len() <= most {
            return asked.into_iter().map(Token::with_room).collect();
        }
        let some = (0..most).map(|_| asked[random.below(asked.len())]);
        some.chain([0, self.last()]).map(Token::with_room).collect()
    }

    /// In or between the tokens, or past them, and with any room.
    pub fn draw(&self, random: &mut Random) -> Token {
        let at = match random.below(5) {
            0 => self.last(),
            1 => within(&self.token(random), random),
            2 => self.token(random).end,
            3 => self.in_comment(random),
            _ => number_around(self.length, random),
        };
        Token { at, room: room_around(Token::DUE, random) }
    }

    /// The last end: no token follows there, or something is refused.
    fn last(&self) -> u64 {
        self.tokens.last().map_or(0, |token| token.end)
    }

    /// Any token; the whole text where it has none.
    fn token(&self, random: &mut Random) -> Range<u64> {
        match self.tokens.len() {
            0 => 0..self.length,
            tokens => self.tokens[random.below(tokens)].clone(),
        }
    }

    /// A byte of a comment or beside it; any byte where there is none.
    fn in_comment(&self, random: &mut Random) -> u64 {
        let whole = 0..self.length;
        let gap = match self.comments.len() {
            0 => &whole,
            comments => &self.comments[random.below(comments)],
        };
        gap.start + random.draw() % (gap.end - gap.start + 1)
    }
}

fn within(token: &Range<u64>, random: &mut Random) -> u64 {
    token.start + random.draw() % (token.end - token.start).max(1)
}

impl Call for Token {
    fn rooms(&self) -> Rooms {
        Rooms { numbers: self.room, ..Rooms::default() }
    }

    fn make(&self, reader: &dyn Reader, lent: Slices) -> u64 {
        reader.token(self.at, lent.numbers)
    }
}
