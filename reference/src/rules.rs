//! The arithmetic of rates, delays, hops, sent times and stamps.

use crate::times::{spread, GRAND_END};

/// The least local spread that gives a rate.
pub const SPREAD_LEAST: u64 = 1 << 30;
/// The greatest local spread that gives a rate.
pub const SPREAD_MOST: u64 = 1 << 39;
/// The least ratio of a spread to its difference, 250 parts per million.
pub const STEADINESS: u128 = 4_000;
/// What a rate of one whole is counted as.
pub const RATE_ONE: i128 = 1 << 35;
/// The greatest round trip and the greatest turn that are believed.
pub const TRIP_MOST: u64 = 1 << 39;
/// The greatest delay that is believed or set.
pub const DELAY_MOST: u64 = 1 << 30;
/// The first distance from the newest sample that is too great for a send.
pub const REACH_END: u64 = 1 << 39;
/// The greatest distance from the newest sample, before or after it, that is stamped.
pub const STAMPED_MOST: i128 = 1 << 39;
/// The hop that stands for no clock, and that no frame is taken with.
pub const HOP_NONE: u8 = 255;
/// The last hop that a frame is taken with.
pub const HOP_LAST: u8 = HOP_NONE - 1;
/// What a rate is multiplied with before it is a reading in parts per million.
pub const MILLION: i128 = 1_000_000;

/// Says whether a spread is in range and the difference small against it.
pub fn steady(difference: i128, local_spread: u64) -> bool {
    (SPREAD_LEAST..=SPREAD_MOST).contains(&local_spread)
        && difference.unsigned_abs() * STEADINESS <= u128::from(local_spread)
}

/// Gives the whole rate nearest to a difference over a spread, the upper one of two that are as near.
pub fn rate(difference: i128, local_spread: u64) -> i128 {
    let run = i128::from(local_spread);
    (2 * difference * RATE_ONE + run).div_euclid(2 * run)
}

/// Gives what a rate makes of a stretch of time, rounded down.
pub fn rated(rate: i128, stretch: i128) -> i128 {
    (rate * stretch).div_euclid(RATE_ONE)
}

/// Gives the neighbour's rate between two pairs of its departure and its arrival here.
pub fn neighbour_rate(before: Option<(u64, u64)>, now: (u64, u64)) -> i128 {
    let Some((old_local, old_arrival)) = before else {
        return 0;
    };
    let local_spread = spread(now.0, old_local);
    let difference = i128::from(spread(now.1, old_arrival)) - i128::from(local_spread);
    if steady(difference, local_spread) {
        rate(difference, local_spread)
    } else {
        0
    }
}

/// Gives half of what a round trip took beyond the neighbour's turn, never below zero.
pub fn link_delay(rate: i128, round_trip: u64, turn: u64) -> i128 {
    let scaled = i128::from(turn) + rated(rate, i128::from(turn));
    let half = (i128::from(round_trip) - scaled).div_euclid(2);
    half.max(0)
}

/// Gives the measured delay where round trip, turn and delay are believable.
pub fn measured_delay(rate: i128, round_trip: u64, turn: u64) -> Option<u64> {
    let delay = link_delay(rate, round_trip, turn);
    if round_trip <= TRIP_MOST && turn <= TRIP_MOST && delay <= i128::from(DELAY_MOST) {
        Some(delay as u64)
    } else {
        None
    }
}

/// Gives the hop to hold for a frame's hop below 255 against the chosen clock's hop.
pub fn held_hop(chosen_hop: u8, hop: u8) -> u8 {
    let next = hop + 1;
    if hop > chosen_hop {
        next.max(hop + (HOP_NONE - hop) / 2)
    } else {
        next
    }
}

/// Gives the passes left at a hop: 0 at 255, otherwise 1 more than the least k such that 2^k is no less than the way left to 255.
pub fn passes_left(hop: u8) -> u8 {
    match u16::from(HOP_NONE - hop) {
        0 => 0,
        way_left => 1 + way_left.next_power_of_two().ilog2() as u8,
    }
}

/// Gives the rate from an older sample of grand time and local time to a newer one.
pub fn sample_rate(older: (u128, u64), newer: (u128, u64)) -> i128 {
    let local_spread = spread(newer.1, older.1);
    rate(sample_difference(older, newer), local_spread)
}

/// Gives the grand spread of two samples less their local spread.
pub fn sample_difference(older: (u128, u64), newer: (u128, u64)) -> i128 {
    newer.0 as i128 - older.0 as i128 - i128::from(spread(newer.1, older.1))
}

/// Gives the grand time of a departure: by the samples' rate up to the back time before it, and from there on by local time.
pub fn sent_grand(rate: i128, newest: (u128, u64), back: u64, departure: u64) -> i128 {
    let reach = i128::from(spread(departure, newest.1));
    let stretch = reach - i128::from(back);
    led_on(rate, newest, reach, stretch)
}

/// Gives the errorTime of version 2: the newest sample's, and what the samples' rate makes of the back time, which is missing in the grand time.
pub fn sent_error(rate: i128, newest_error: i32, back: u64) -> i128 {
    i128::from(newest_error) + rated(rate, i128::from(back))
}

/// Gives the stamp of a latch at a distance from the newest sample, on the line from the oldest to it.
pub fn stamp(oldest: (u128, u64), newest: (u128, u64), distance: i128) -> i128 {
    led_on(sample_rate(oldest, newest), newest, distance, distance)
}

/// Leads the newest sample's grand time on by a way, and by what the samples' rate makes of a stretch.
fn led_on(rate: i128, newest: (u128, u64), way: i128, stretch: i128) -> i128 {
    newest.0 as i128 + way + rated(rate, stretch)
}

/// Says whether a number that was worked out is a grand time.
pub fn fits_grand(time: i128) -> bool {
    (0..GRAND_END as i128).contains(&time)
}

/// Gives the reading in parts per million for a rate.
pub fn parts_per_million(rate: i128) -> f64 {
    (rate * MILLION) as f64 / RATE_ONE as f64
}
