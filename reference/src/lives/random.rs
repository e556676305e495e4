//! Seeded numbers that look like chance.

const STEP: u64 = 0x9E37_79B9_7F4A_7C15;
const FIRST_FACTOR: u64 = 0xBF58_476D_1CE4_E5B9;
const SECOND_FACTOR: u64 = 0x94D0_49BB_1331_11EB;

/// A source of numbers that depend on the seed only.
#[derive(Clone, Copy, Debug, PartialEq, Eq)]
pub struct Random {
    state: u64,
}

impl Random {
    /// Starts from a seed, stirred so that near seeds do not give near numbers.
    pub fn new(seed: u64) -> Random {
        Random {
            state: stirred(stirred(seed ^ STEP).wrapping_add(SECOND_FACTOR)),
        }
    }

    /// Gives the next 64 bits.
    pub fn bits(&mut self) -> u64 {
        self.state = self.state.wrapping_add(STEP);
        stirred(self.state)
    }

    /// Gives a number below an end that is not zero.
    pub fn below(&mut self, end: u64) -> u64 {
        ((u128::from(self.bits()) * u128::from(end)) >> 64) as u64
    }

    /// Gives a place in a list of some length.
    pub fn index(&mut self, length: usize) -> usize {
        self.below(length as u64) as usize
    }

    /// Gives a number from least to most, both included.
    pub fn within(&mut self, least: u64, most: u64) -> u64 {
        least + self.below(most - least + 1)
    }

    /// Gives a number from minus most to most.
    pub fn about(&mut self, most: u64) -> i128 {
        i128::from(self.within(0, 2 * most)) - i128::from(most)
    }

    /// Says yes so many times in a thousand.
    pub fn often(&mut self, in_thousand: u64) -> bool {
        self.below(1000) < in_thousand
    }

    /// Picks one of some values.
    pub fn pick<T: Copy>(&mut self, values: &[T]) -> T {
        values[self.index(values.len())]
    }

    /// Gives a number whose count of bits is itself by chance, at most so many.
    pub fn sized(&mut self, bits: u64) -> u64 {
        let kept = self.within(0, bits);
        if kept == 0 {
            0
        } else {
            self.bits() >> (64 - kept)
        }
    }
}

/// Mixes the bits of a number.
fn stirred(number: u64) -> u64 {
    let one = (number ^ (number >> 30)).wrapping_mul(FIRST_FACTOR);
    let two = (one ^ (one >> 27)).wrapping_mul(SECOND_FACTOR);
    two ^ (two >> 31)
}
