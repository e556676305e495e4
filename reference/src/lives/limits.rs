//! What every part of a life aims by: numbers at the ends of their range, spreads from the oldest sample that stays, the samples that a bridge follows, its links, its ranking, and where something first holds.

use super::random::Random;
use crate::bridge::{Chosen, Listed, OWN};
use crate::rules::{SPREAD_LEAST, SPREAD_MOST};
use crate::samples::Samples;
use crate::times::{spread, LOCAL_END, PART_END};

/// The spreads from the oldest sample that stays at their limit, to both sides.
const OLDEST_EDGES: [u64; 5] = [
    SPREAD_MOST - 1,
    SPREAD_MOST,
    SPREAD_MOST,
    SPREAD_MOST + 1,
    SPREAD_MOST + 1,
];

/// Gives a local time, often one at an end of the circle or out of range.
pub fn any_local(random: &mut Random) -> u64 {
    match random.below(12) {
        0 => 0,
        1 => LOCAL_END - 1,
        2 => LOCAL_END,
        3 => random.pick(&[LOCAL_END + 1, u64::MAX]),
        4 => random.sized(64),
        5 => random.sized(48),
        _ => random.below(LOCAL_END),
    }
}

/// Gives seconds or a fraction, often at an end or out of range.
pub fn any_part(random: &mut Random) -> u64 {
    match random.below(10) {
        0 => 0,
        1 => PART_END - 1,
        2 => PART_END,
        3 => random.sized(64),
        _ => random.below(PART_END),
    }
}

/// Gives the spread from a clock's next sample, at a local time, to the one after it, such that this is at the limit from the newest, which is then the oldest that stays.
pub fn way_from_oldest(random: &mut Random, samples: &Samples, local: u64) -> u64 {
    let run = samples
        .newest()
        .map_or(0, |newest| spread(local, newest.local));
    let wanted = random.pick(&OLDEST_EDGES);
    wanted.checked_sub(run).unwrap_or(SPREAD_LEAST)
}

/// Gives the samples of the clock that a bridge follows, none where it follows none.
pub fn followed(bridge: &Listed) -> Samples {
    let port = bridge.best().map_or(OWN, |chosen| chosen.port);
    bridge.samples(port).copied().unwrap_or_default()
}

/// Gives the links of a bridge as a mask.
pub fn links(bridge: &Listed) -> u8 {
    let mut mask = 0;
    for (bit, port) in bridge.ports.iter().enumerate() {
        mask |= u8::from(port.linked) << bit;
    }
    mask
}

/// Gives the candidates of a bridge from best to worst.
pub fn ranking(bridge: &Listed) -> Vec<Chosen> {
    (0..=u8::MAX)
        .map_while(|place| bridge.ranked_at(place))
        .collect()
}

/// Finds the first of the numbers from low to high at which something holds that goes on to hold, where it is there.
pub fn first_where(low: i128, high: i128, holds: impl Fn(i128) -> bool) -> Option<i128> {
    if !holds(high) {
        return None;
    }
    let (mut low, mut high) = (low, high);
    while low < high {
        let middle = (low + high).div_euclid(2);
        if holds(middle) {
            high = middle;
        } else {
            low = middle + 1;
        }
    }
    Some(low)
}
