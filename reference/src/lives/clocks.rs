//! Clocks that start somewhere, drift and can bend, and the ticks in which a life goes on.

use super::random::Random;
use crate::times::{next_count, parts, GRAND_END, LOCAL_END};

/// What a drift of one whole is counted as.
const DRIFT_ONE: i128 = 1 << 40;
/// A drift of 100 parts per million.
const DRIFT_USUAL: u64 = 110_000_000;
/// A drift of 300 parts per million.
const DRIFT_WILD: u64 = 330_000_000;

/// Ten milliseconds.
const TICK_USUAL: u64 = 10_995_116_278;
/// The share of a tick in which things that happen together may lie apart.
pub const TICK_PART: u64 = 8;

/// A clock that starts somewhere and drifts.
pub struct Clock {
    start: i128,
    drift: i128,
}

impl Clock {
    /// Makes a local clock, which often wraps soon.
    pub fn of_local(random: &mut Random, tick: u64, wild: bool) -> Clock {
        Clock {
            start: local_start(random, tick),
            drift: drift(random, wild),
        }
    }

    /// Makes a grand clock, which often is shortly after zero or before its end.
    pub fn of_grand(random: &mut Random, tick: u64, wild: bool) -> Clock {
        Clock {
            start: grand_start(random, tick),
            drift: drift(random, wild),
        }
    }

    /// Moves a grand clock, often to just before its end.
    pub fn move_grand(&mut self, random: &mut Random, tick: u64, time: i128) {
        self.start = grand_start(random, tick) - time;
    }

    /// Bends the clock: from a true time on it has another drift.
    pub fn bend(&mut self, random: &mut Random, wild: bool, time: i128) {
        let reading = self.at(time);
        self.drift = drift(random, wild);
        self.start += reading - self.at(time);
    }

    /// Gives the clock's reading at a true time.
    fn at(&self, time: i128) -> i128 {
        self.start + time + (time * self.drift).div_euclid(DRIFT_ONE)
    }

    /// Gives the reading as a local time.
    pub fn local(&self, time: i128) -> u64 {
        self.at(time).rem_euclid(i128::from(LOCAL_END)) as u64
    }

    /// Gives the reading as a grand time.
    pub fn grand(&self, time: i128) -> u128 {
        self.at(time).rem_euclid(GRAND_END as i128) as u128
    }
}

/// Gives a drift by chance.
fn drift(random: &mut Random, wild: bool) -> i128 {
    random.about(if wild { DRIFT_WILD } else { DRIFT_USUAL })
}

/// Gives where a local clock starts, often shortly before it wraps.
fn local_start(random: &mut Random, tick: u64) -> i128 {
    let before_end = random.below(100 * tick.min(1 << 38)) % LOCAL_END;
    if random.often(400) {
        i128::from(LOCAL_END - 1 - before_end)
    } else {
        i128::from(random.below(LOCAL_END))
    }
}

/// Gives where a grand clock starts, often shortly after zero or before its end.
fn grand_start(random: &mut Random, tick: u64) -> i128 {
    let some = i128::from(random.within(0, 60)) * i128::from(tick) + i128::from(random.below(tick));
    match random.below(10) {
        0 => i128::from(random.below(1000)),
        1 => some,
        2 | 3 => GRAND_END as i128 - 1 - some,
        _ => (i128::from(random.bits()) << 15) + some,
    }
}

/// Gives how long the ticks of a life are, mostly the usual ones.
pub fn tick(random: &mut Random) -> u64 {
    match random.below(12) {
        0 => (1 << 30) + random.below(1 << 28),
        1 => 1 << 33,
        2 => 1 << 36,
        3 if random.often(300) => 1 << 38,
        4 if random.often(300) => (1 << 39) - (1 << 34),
        _ => TICK_USUAL,
    }
}

/// Gives how far a tick is from the one before, mostly a tick and now and then a little off it.
pub fn next_tick(random: &mut Random, tick: u64) -> i128 {
    let wobble = random.about(tick / 16);
    i128::from(tick) + if random.often(300) { wobble } else { 0 }
}

/// Gives a time within a tick, so many of its parts after its start.
pub fn within_tick(random: &mut Random, tick: u64, parts: u64) -> i128 {
    let part = tick / TICK_PART;
    i128::from(parts * part) + i128::from(random.below(part) / 4)
}

/// Gives how long a cable delays a frame, mostly little and never more than a part of a tick.
pub fn cable(random: &mut Random, tick: u64) -> u64 {
    let most = tick / TICK_PART;
    match random.below(20) {
        0 => random.within((1 << 30) - 4, (1 << 30) + 4).min(most),
        1 => random.below(most),
        _ => random.sized(26).min(most),
    }
}

/// A grand clock that a station reads as its own, each reading being of the time of the one before.
pub struct OwnReader {
    pub clock: Clock,
    before: i128,
    count: u8,
}

/// A reading of the own clock.
pub struct Reading {
    pub count: u8,
    pub seconds: u64,
    pub fraction: u64,
}

impl OwnReader {
    /// Starts to read a clock.
    pub fn of(clock: Clock) -> OwnReader {
        OwnReader {
            clock,
            before: 0,
            count: 0,
        }
    }

    /// Reads the clock now.
    pub fn read(&mut self, now: i128) -> Reading {
        let (seconds, fraction) = parts(self.clock.grand(self.before));
        self.before = now;
        self.count = next_count(self.count);
        Reading {
            count: self.count,
            seconds,
            fraction,
        }
    }
}
