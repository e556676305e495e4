//! What a front panel asks for: the candidates at places of the ranking.

use super::limits;
use super::pen::Pen;
use crate::bridge::PORTS_MOST;

/// The first place that no bridge has a candidate at.
const PLACES_END: u8 = PORTS_MOST as u8 + 1;
/// The place of the runner-up.
const RUNNER_UP: u8 = 1;

/// Asks for one place, or for all.
pub fn look(pen: &mut Pen) {
    if pen.random.often(250) {
        show(pen);
    } else {
        ask(pen);
    }
}

/// Asks for the candidate at a place, mostly at one that has one, and now and then at any.
pub fn ask(pen: &mut Pen) {
    let first_beyond = candidates(pen);
    let random = &mut pen.random;
    let place = match random.below(20) {
        0 => random.bits() as u8,
        1 => random.pick(&[PLACES_END, 15, 16, 255]),
        2 | 3 => random.within(0, u64::from(PLACES_END)) as u8,
        4..=8 => RUNNER_UP,
        9..=11 => first_beyond.saturating_sub(1),
        _ => random.within(0, u64::from(first_beyond)) as u8,
    };
    pen.ranked(place);
}

/// Asks for every candidate, from the chosen clock on, and for the place after the last.
pub fn show(pen: &mut Pen) {
    for place in 0..=candidates(pen) {
        pen.ranked(place);
    }
}

/// Gives how many candidates there are.
fn candidates(pen: &Pen) -> u8 {
    limits::ranking(pen.bridge()).len() as u8
}
