//! A seeded generator of lines that live through a bridge's life, and through many of them.

mod aimed;
mod bends;
pub mod census;
mod clocks;
mod errors;
mod extras;
pub(crate) mod latches;
pub(crate) mod limits;
pub mod listed;
pub mod listener_census;
mod listeners;
mod network;
mod panel;
mod passes;
mod pen;
mod plans;
pub(crate) mod random;
mod rivals;
pub mod sample_census;
mod spoil;
pub mod stamped;
mod timestamps;
pub mod version_census;
mod versions;

use crate::bridge::Listed;
use pen::Pen;
use random::Random;
use std::io;

/// Of a hundred lives, how many are of a network of drifting neighbours.
const NETWORK_SHARE: u64 = 25;
/// Of a hundred lives, how many are of frames aimed at the limits.
const AIMED_SHARE: u64 = 15;
/// Of a hundred lives, how many are of clocks that stand close to one another.
const RIVALS_SHARE: u64 = 14;
/// Of a hundred lives, how many are at cables with a listener.
const LISTENERS_SHARE: u64 = 21;
/// Of a hundred lives, how many are of errorTimes about the ends of 32 bits.
const ERRORS_SHARE: u64 = 11;
/// Of a hundred lives, how many are of clocks that bend.
const BENDS_SHARE: u64 = 7;

/// A kind of life, which writes its lines.
type Life = fn(&mut Pen);

/// A taker of each line, its answer and the bridge after it.
pub type Sink<'s> = &'s mut dyn FnMut(&[u8], &[u8], &Listed) -> io::Result<()>;

/// Makes lines from a seed and hands each with its answer and the bridge to a sink.
pub fn lives(lines: u64, seed: u64, sink: Sink) -> io::Result<()> {
    let mut pen = Pen::new(lines, Random::new(seed), sink);
    extras::wander(&mut pen);
    while !pen.done() {
        let live = kind_of_life(pen.random.below(100));
        live(&mut pen);
    }
    pen.finish()
}

/// Gives the kind of life that a number below a hundred stands for, by the shares of the kinds.
fn kind_of_life(chance: u64) -> Life {
    let shares: [(u64, Life); 6] = [
        (NETWORK_SHARE, network::live),
        (AIMED_SHARE, aimed::live),
        (RIVALS_SHARE, rivals::live),
        (LISTENERS_SHARE, listeners::live),
        (ERRORS_SHARE, errors::live),
        (BENDS_SHARE, bends::live),
    ];
    let mut before = 0;
    for (share, live) in shares {
        before += share;
        if chance < before {
            return live;
        }
    }
    extras::wander
}
