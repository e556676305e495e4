//! Latches at the limits of what can be stamped.

use super::limits::{any_local, first_where};
use super::random::Random;
use crate::hex;
use crate::rules::{self, STAMPED_MOST};
use crate::samples::Samples;
use crate::times::{distance, moved, GRAND_END, LOCAL_END};

/// Half the circle of local times, where both ways round are as long.
const HALF_ROUND: i128 = (LOCAL_END / 2) as i128;
/// The bits of a distance that can be stamped.
const STAMPED_BITS: u64 = 39;

/// Gives the latch of a line that has one stamped.
pub fn called(line: &[u8]) -> Option<u64> {
    hex::number(line.strip_prefix(b"E ")?)
}

/// Gives a latch near or far from the newest of some samples, often at a limit, and now and then out of range.
pub fn aimed(random: &mut Random, samples: &Samples) -> u64 {
    match samples.newest() {
        Some(newest) if !random.often(50) => {
            let distance = aimed_distance(random, samples);
            moved(newest.local, distance)
        }
        _ => any_local(random),
    }
}

/// Gives a distance from the newest of some samples.
fn aimed_distance(random: &mut Random, samples: &Samples) -> i128 {
    let ends = [first_from_zero(samples), first_beyond_end(samples)];
    let ends: Vec<i128> = ends.into_iter().flatten().collect();
    if !ends.is_empty() && random.often(500) {
        return random.pick(&ends) + random.pick(&[-2, -1, -1, 0, 0, 1]);
    }
    let side = random.pick(&[-1, 1]);
    match random.below(14) {
        0 => 0,
        1 => side,
        2 => random.about(20),
        3 | 4 => side * STAMPED_MOST,
        5 => side * (STAMPED_MOST + 1),
        6 => side * STAMPED_MOST + random.about(2),
        7 => side * HALF_ROUND + random.about(1),
        8 => i128::from(random.below(LOCAL_END)),
        9 => side * i128::from(random.below(STAMPED_MOST as u64)),
        10 => oldest_distance(samples),
        11 => middle_distance(samples),
        _ => side * i128::from(random.sized(STAMPED_BITS)),
    }
}

/// Gives the distance of the oldest of some samples, or none where there is one alone.
fn oldest_distance(samples: &Samples) -> i128 {
    samples
        .ends()
        .map_or(0, |(oldest, newest)| distance(oldest.local, newest.local))
}

/// Gives the distance of the sample before the newest, or none where there is one alone.
fn middle_distance(samples: &Samples) -> i128 {
    let two = samples.oldest_to_stay().zip(samples.newest());
    two.map_or(0, |(before, newest)| distance(before.local, newest.local))
}

/// Finds the least distance within reach whose stamp is not below zero, where some stamps within reach are.
fn first_from_zero(samples: &Samples) -> Option<i128> {
    first_stamp_from(samples, 0)
}

/// Finds the least distance within reach whose stamp is beyond the end of grand time.
fn first_beyond_end(samples: &Samples) -> Option<i128> {
    first_stamp_from(samples, GRAND_END as i128)
}

/// Finds the least distance within reach, but not its very least, whose stamp is a number or more.
fn first_stamp_from(samples: &Samples, least: i128) -> Option<i128> {
    let (oldest, newest) = samples.ends()?;
    let from_there = |distance| rules::stamp(oldest.point(), newest.point(), distance) >= least;
    first_where(-STAMPED_MOST, STAMPED_MOST, from_there).filter(|first| *first > -STAMPED_MOST)
}
