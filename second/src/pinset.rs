//! A set of signals by their numbers, wide enough for the bound on signals.

use crate::bounds::MAX_SIGNALS;

const WORDS: usize = (MAX_SIGNALS + 63) / 64;

#[derive(Clone, Copy, Debug, PartialEq, Eq, Hash)]
pub struct PinSet([u64; WORDS]);

impl PinSet {
    pub const EMPTY: PinSet = PinSet([0; WORDS]);

    pub fn insert(&mut self, pin: u8) {
        self.0[pin as usize / 64] |= 1 << (pin % 64);
    }

    pub fn contains(&self, pin: u8) -> bool {
        self.0[pin as usize / 64] >> (pin % 64) & 1 == 1
    }

    /// Its signals, the lowest first.
    pub fn pins(&self) -> impl Iterator<Item = u8> + '_ {
        let of_word = |(at, &word): (usize, &u64)| {
            let without_lowest = |rest: &u64| Some(rest & (rest - 1)).filter(|&rest| rest != 0);
            let rests = std::iter::successors(Some(word).filter(|&word| word != 0), without_lowest);
            rests.map(move |rest| (64 * at) as u8 + rest.trailing_zeros() as u8)
        };
        self.0.iter().enumerate().flat_map(of_word)
    }

    pub fn is_empty(&self) -> bool {
        self.0.iter().all(|&word| word == 0)
    }

    pub fn meets(&self, other: &PinSet) -> bool {
        self.0.iter().zip(&other.0).any(|(&mine, &theirs)| mine & theirs != 0)
    }

    pub fn holds(&self, other: &PinSet) -> bool {
        self.0.iter().zip(&other.0).all(|(&mine, &theirs)| theirs & !mine == 0)
    }

    pub fn add(&mut self, other: &PinSet) {
        self.0.iter_mut().zip(&other.0).for_each(|(mine, &theirs)| *mine |= theirs);
    }

    pub fn drop(&mut self, other: &PinSet) {
        self.0.iter_mut().zip(&other.0).for_each(|(mine, &theirs)| *mine &= !theirs);
    }

    pub fn outside(&self) -> PinSet {
        let mut others = *self;
        others.0.iter_mut().for_each(|word| *word = !*word);
        others
    }

    pub fn without(&self, other: &PinSet) -> PinSet {
        let mut left = *self;
        left.drop(other);
        left
    }
}
