//! The order and the grouping in which candidates are compared, which makes no difference to who is best and to who comes after.

use crate::bridge::{Chosen, PORTS_MOST};
use crate::lives::random::Random;
use std::fmt::Debug;

/// How many places there are: the own clock's and each port's.
const PLACES: usize = PORTS_MOST + 1;

/// The places of the own clock and of all ports, each with a candidate or without: always as many, so that a sort of them is never one that calls itself.
pub type Places = [Option<Chosen>; PLACES];

/// A way to find the best of some candidates, and to list them before they are sorted.
pub trait Order: Copy + Debug {
    /// Gives the best, or none where there are none.
    fn best(&self, candidates: impl Iterator<Item = Chosen>) -> Option<Chosen>;
    /// Puts the places into the order in which they are listed.
    fn mix(&self, places: &mut Places);
    /// Goes on to the way of the next choice.
    fn turn(&mut self);
}

/// One after another, as they come.
#[derive(Clone, Copy, Debug, PartialEq, Eq)]
pub struct InTurn;

impl Order for InTurn {
    /// Gives the least.
    fn best(&self, candidates: impl Iterator<Item = Chosen>) -> Option<Chosen> {
        candidates.min()
    }

    /// Leaves the places as they are.
    fn mix(&self, _: &mut Places) {}

    /// Stays as it is.
    fn turn(&mut self) {}
}

/// At each choice and for each place that is asked for another order and another grouping, from a seed, in which a place without a candidate is compared too.
#[derive(Clone, Copy, Debug, PartialEq, Eq)]
pub struct Shuffled {
    random: Random,
}

impl Shuffled {
    /// Starts from a seed.
    pub fn new(seed: u64) -> Shuffled {
        Shuffled {
            random: Random::new(seed),
        }
    }
}

impl Order for Shuffled {
    /// Compares any two places, and then the better of them with the others.
    fn best(&self, candidates: impl Iterator<Item = Chosen>) -> Option<Chosen> {
        let mut places: Vec<Option<Chosen>> = candidates.map(Some).collect();
        places.resize(PLACES, None);
        paired(places, self.random, better).flatten()
    }

    /// Draws a place for each, from the last one on.
    fn mix(&self, places: &mut Places) {
        let mut random = self.random;
        for last in (1..PLACES).rev() {
            places.swap(last, random.index(last + 1));
        }
    }

    /// Draws a seed for the next choice, so that no two go by the same numbers.
    fn turn(&mut self) {
        self.random = Random::new(self.random.bits());
    }
}

/// Takes any two out and puts back what is made of them, until one is left.
pub(crate) fn paired<T>(
    mut left: Vec<T>,
    mut random: Random,
    made_of: impl Fn(T, T) -> T,
) -> Option<T> {
    while left.len() > 1 {
        let one = left.swap_remove(random.index(left.len()));
        let other = left.swap_remove(random.index(left.len()));
        left.push(made_of(one, other));
    }
    left.pop()
}

/// Gives the better of two candidates, the first if neither is.
pub(crate) fn better(one: Option<Chosen>, other: Option<Chosen>) -> Option<Chosen> {
    match (one, other) {
        (Some(one), Some(other)) => Some(if other < one { other } else { one }),
        (found, None) | (None, found) => found,
    }
}
