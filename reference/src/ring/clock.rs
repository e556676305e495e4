//! True time, and the local clocks that stations read.

use crate::lives::random::Random;
use crate::times::LOCAL_END;

/// A second in U.
pub const SECOND: u64 = 1 << 40;
/// Ten milliseconds, after which a station does each of its duties again.
pub const TICK: u64 = 10_995_116_278;

/// The tenths of microseconds in a second.
const TENTHS_OF_MICROSECONDS: u128 = 10_000_000;
/// What a rate error of one whole is counted as.
const RATE_ONE: i128 = 1 << 40;
/// A rate error of 10 parts in a million.
const RATE_ERROR_MOST: u64 = 10_995_116;

/// A local clock: what it reads at true time 0, and its rate error.
#[derive(Clone, Copy, Debug)]
pub struct Clock {
    start: u64,
    rate_error: i128,
}

impl Clock {
    /// Makes a clock by chance.
    pub fn by_chance(random: &mut Random) -> Clock {
        Clock {
            start: random.below(LOCAL_END),
            rate_error: random.about(RATE_ERROR_MOST),
        }
    }

    /// Gives the local time at a true time.
    pub fn local(&self, time: u64) -> u64 {
        let time = i128::from(time);
        let reading = i128::from(self.start) + time + (time * self.rate_error).div_euclid(RATE_ONE);
        reading.rem_euclid(i128::from(LOCAL_END)) as u64
    }
}

/// Prints a time in seconds, to the nearest hundredth.
pub fn in_seconds(time: u64) -> String {
    let hundredths = (time * 100 + SECOND / 2) / SECOND;
    format!("{}.{:02}", hundredths / 100, hundredths % 100)
}

/// Prints a time in microseconds, to the nearest tenth.
pub fn in_microseconds(time: u64) -> String {
    let tenths =
        (u128::from(time) * TENTHS_OF_MICROSECONDS + u128::from(SECOND / 2)) / u128::from(SECOND);
    format!("{}.{}", tenths / 10, tenths % 10)
}

#[cfg(test)]
mod tests {
    use super::{in_microseconds, in_seconds, Clock, RATE_ERROR_MOST, SECOND};
    use crate::lives::random::Random;
    use crate::times::{spread, LOCAL_END};

    /// A clock goes round its circle, and is off by no more than its rate error.
    #[test]
    fn clocks_wrap_and_drift() {
        let fast = Clock {
            start: LOCAL_END - SECOND,
            rate_error: i128::from(RATE_ERROR_MOST),
        };
        assert_eq!(fast.local(0), LOCAL_END - SECOND);
        assert_eq!(fast.local(SECOND), RATE_ERROR_MOST);
        let slow = Clock {
            start: 0,
            rate_error: -1,
        };
        assert_eq!(slow.local(SECOND), SECOND - 1);
        assert_eq!(slow.local(1), 0);
    }

    /// No clock by chance is off by more than 10 parts in a million.
    #[test]
    fn rate_errors_are_small() {
        let mut random = Random::new(1);
        for _ in 0..100 {
            let clock = Clock::by_chance(&mut random);
            let gone = spread(clock.local(SECOND), clock.local(0));
            assert!(gone.abs_diff(SECOND) <= RATE_ERROR_MOST);
        }
    }

    /// Seconds are rounded to the nearest hundredth.
    #[test]
    fn seconds_have_hundredths() {
        assert_eq!(in_seconds(0), "0.00");
        assert_eq!(in_seconds(3 * SECOND + SECOND / 20), "3.05");
        assert_eq!(in_seconds(SECOND - 1), "1.00");
    }

    /// Microseconds are rounded to the nearest tenth.
    #[test]
    fn microseconds_have_tenths() {
        assert_eq!(in_microseconds(0), "0.0");
        assert_eq!(in_microseconds(SECOND / 1_000), "1000.0");
        assert_eq!(in_microseconds(SECOND / 400_000), "2.5");
    }
}
