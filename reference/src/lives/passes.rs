//! Hops at which the passes left are asked for: over the whole byte, and more often at its ends and where the passes change.

use super::pen::Pen;
use super::random::Random;
use crate::rules::{HOP_LAST, HOP_NONE};

/// The most questions of one turn.
const QUESTIONS_MOST: u64 = 4;

/// Asks for the passes left at some hops.
pub fn ask(pen: &mut Pen) {
    for _ in 0..pen.random.within(1, QUESTIONS_MOST) {
        let hop = any_hop(&mut pen.random);
        pen.passes_left(hop);
    }
}

/// Gives a hop, often one at an end or one where the passes left change.
fn any_hop(random: &mut Random) -> u8 {
    match random.below(4) {
        0 => random.pick(&[0, 1, HOP_LAST, HOP_NONE]),
        1 | 2 => changing_hop(random),
        _ => random.bits() as u8,
    }
}

/// Gives a hop whose way left is a power of two, or the one before it, which has a pass more.
fn changing_hop(random: &mut Random) -> u8 {
    let power_of_two = 1 << random.below(u64::from(u8::BITS));
    HOP_NONE - power_of_two - random.below(2) as u8
}
