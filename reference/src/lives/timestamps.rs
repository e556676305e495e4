//! Grand times, timestamps and PTP seconds at the limits of what can be exported, imported and told on a scale.

use super::limits::followed;
use super::pen::Pen;
use super::random::Random;
use crate::ptp::{self, Scale, NANOSECONDS_END, SECONDS_END};
use crate::times::{parts, PART_END};

/// The most questions of one turn.
const QUESTIONS_MOST: u64 = 8;
/// The least fraction that is a whole number of nanoseconds, and how many these are.
const WHOLE_FRACTION: u64 = 1 << 31;
const WHOLE_NANOSECONDS: u64 = 1_953_125;
/// How many times that fraction is in a second.
const WHOLE_PARTS: u64 = PART_END / WHOLE_FRACTION;
/// How far from a limit a number is that is near it.
const NEAR: u64 = 2;
/// The leap seconds at the ends of their range, around none, and as they were from 2017 on, with one more or less.
const LEAP_SECONDS: [i16; 12] = [
    i16::MIN,
    i16::MIN + 1,
    -37,
    -1,
    0,
    1,
    36,
    37,
    37,
    38,
    i16::MAX - 1,
    i16::MAX,
];

/// Asks for some timestamps and scales.
pub fn ask(pen: &mut Pen) {
    for _ in 0..pen.random.within(1, QUESTIONS_MOST) {
        match pen.random.below(8) {
            0 => export(pen),
            1 => import(pen),
            2 => there_and_back(pen),
            3 => tell(pen, Scale::Gps),
            4 | 5 => {
                let leap = leap_seconds(&mut pen.random);
                tell(pen, Scale::Utc(leap));
            }
            _ => {
                let leap = leap_seconds(&mut pen.random);
                tell(pen, Scale::Ntp(leap));
            }
        }
    }
}

/// Asks for PTP seconds on a scale.
fn tell(pen: &mut Pen, scale: Scale) {
    let seconds = scale_seconds(&mut pen.random, scale);
    pen.on_scale(seconds, scale);
}

/// Exports a grand time.
fn export(pen: &mut Pen) {
    let seconds = grand_seconds(&mut pen.random);
    let fraction = fraction(&mut pen.random);
    pen.export(seconds, fraction);
}

/// Imports a timestamp.
fn import(pen: &mut Pen) {
    let seconds = grand_seconds(&mut pen.random);
    let nanoseconds = nanoseconds(&mut pen.random);
    pen.import(seconds, nanoseconds);
}

/// Exports a grand time, often that of the chosen clock's newest sample, imports what came out, and exports that.
fn there_and_back(pen: &mut Pen) {
    let newest = followed(pen.bridge()).newest();
    let (seconds, fraction) = match newest {
        Some(sample) if pen.random.often(500) => parts(sample.grand),
        _ => {
            let seconds = pen.random.below(PART_END);
            (seconds, fraction(&mut pen.random))
        }
    };
    pen.export(seconds, fraction);
    let Ok(timestamp) = ptp::export(seconds, fraction) else {
        return;
    };
    let nanoseconds = u64::from(timestamp.nanoseconds);
    pen.import(seconds, nanoseconds);
    pen.export(seconds, boundary(nanoseconds));
}

/// Gives a number near a limit, but none below zero.
fn near(random: &mut Random, limit: i128) -> u64 {
    (limit + random.about(NEAR)).max(0) as u64
}

/// Gives seconds of a grand time, often at an end or out of range.
fn grand_seconds(random: &mut Random) -> u64 {
    match random.below(14) {
        0 => near(random, 0),
        1 | 2 => near(random, i128::from(PART_END)),
        3 => near(random, i128::from(SECONDS_END)),
        4 => random.pick(&[u64::MAX, u64::MAX - 1]),
        5 => random.sized(64),
        6 => random.sized(40),
        _ => random.below(PART_END),
    }
}

/// Gives a fraction, often at an end, at a nanosecond's first or last, or out of range.
fn fraction(random: &mut Random) -> u64 {
    match random.below(14) {
        0 => near(random, 0),
        1 => near(random, i128::from(PART_END)),
        2 | 3 => {
            let whole = random.within(0, WHOLE_PARTS) * WHOLE_FRACTION;
            near(random, i128::from(whole))
        }
        4..=7 => {
            let first = boundary(nanoseconds_in_range(random));
            first.saturating_sub(random.below(2))
        }
        8 => random.sized(64),
        9 => random.sized(40),
        _ => random.below(PART_END),
    }
}

/// Gives nanoseconds, often at an end or out of range.
fn nanoseconds(random: &mut Random) -> u64 {
    match random.below(10) {
        0 => near(random, i128::from(NANOSECONDS_END)),
        1 => random.sized(64),
        2 => random.within(NANOSECONDS_END, 1 << 32),
        _ => nanoseconds_in_range(random),
    }
}

/// Gives nanoseconds in range, often at an end or beside a whole number of fractions.
fn nanoseconds_in_range(random: &mut Random) -> u64 {
    let some = match random.below(8) {
        0 => near(random, 0),
        1 => NANOSECONDS_END - 1 - random.below(3),
        2 | 3 => {
            let whole = random.below(WHOLE_PARTS) * WHOLE_NANOSECONDS;
            near(random, i128::from(whole))
        }
        4 => random.sized(30),
        _ => random.below(NANOSECONDS_END),
    };
    some.min(NANOSECONDS_END - 1)
}

/// Gives the first fraction of a nanosecond, by the shorter ratio of the two units.
fn boundary(nanoseconds: u64) -> u64 {
    (nanoseconds * WHOLE_FRACTION).div_ceil(WHOLE_NANOSECONDS)
}

/// Gives leap seconds, often at an end of their range.
fn leap_seconds(random: &mut Random) -> i16 {
    if random.often(600) {
        random.pick(&LEAP_SECONDS)
    } else {
        random.bits() as i16
    }
}

/// Gives PTP seconds, often where a scale begins or ends, or where PTP seconds do.
fn scale_seconds(random: &mut Random, scale: Scale) -> u64 {
    let ahead = scale.ahead();
    match random.below(14) {
        0..=2 => near(random, -ahead),
        3..=5 => near(random, i128::from(SECONDS_END) - ahead),
        6 => near(random, 0),
        7 => near(random, i128::from(PART_END)),
        8 => near(random, i128::from(SECONDS_END)),
        9 => random.pick(&[u64::MAX, u64::MAX - 1]),
        10 => random.sized(64),
        11 => random.sized(48),
        _ => random.below(SECONDS_END),
    }
}
