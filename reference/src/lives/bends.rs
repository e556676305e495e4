//! Lives of clocks that bend: at a port and as the own clock each sample has another drift than the one before, and lies often at a limit from the newest or from the oldest that stays.

use super::errors;
use super::extras;
use super::limits;
use super::pen::Pen;
use super::plans;
use super::random::Random;
use super::versions;
use crate::bridge::{Plan, OWN};
use crate::frame::Fields;
use crate::rules::{SPREAD_LEAST, SPREAD_MOST, STEADINESS};
use crate::samples::{Sample, Samples};
use crate::times::{moved, next_count, parts, spread, GRAND_END, LOCAL_END};

/// The port that hears a clock that bends.
const PORT: u8 = 1;
/// In a thousand full bridges, how many are capable, whose own clock bends too.
const CAPABLE: u64 = 600;
/// In a thousand frames, how many are of another clock.
const OTHER_CLOCK: u64 = 40;
/// In a thousand samples, how many are read of the own clock where there is one.
const OWN_READ: u64 = 500;
/// In a thousand samples at the least spread, how many are followed by another at it, which is then at the least from the oldest that stays.
const LEAST_AGAIN: u64 = 600;
/// The greatest spread of samples of which three are always kept.
const SPREAD_HALF: u64 = SPREAD_MOST / 2;
/// The least ratio of a spread to its difference that is kept.
const KEPT: u64 = STEADINESS as u64;
/// The spreads from the newest at the limits, to both sides.
const NEWEST_EDGES: [u64; 6] = [
    0,
    SPREAD_LEAST - 1,
    SPREAD_LEAST,
    SPREAD_LEAST,
    SPREAD_MOST,
    SPREAD_MOST + 1,
];

/// Lives one life.
pub fn live(pen: &mut Pen) {
    let ports = pen.random.pick(&[1, 2, 2, 2, 3]);
    let plan = Plan {
        capable: pen.random.often(CAPABLE),
        ..plans::of_ports(&mut pen.random, ports)
    };
    pen.setup(&plan);
    pen.links(((1_u16 << ports) - 1) as u8);
    let mut precedence = plans::precedence(&mut pen.random);
    let steps = pen.random.pick(&[40, 80, 160]);
    for _ in 0..steps {
        if pen.done() {
            return;
        }
        if pen.random.often(OTHER_CLOCK) {
            precedence = plans::precedence(&mut pen.random);
        }
        step(pen, precedence);
    }
}

/// Has a sample come, and looks at what is made from those that are kept.
fn step(pen: &mut Pen, precedence: u128) {
    let own = pen.bridge().settings.capable && pen.random.often(OWN_READ);
    if own {
        read_own(pen);
    } else {
        arrive(pen, precedence);
    }
    match pen.random.below(100) {
        0..=19 => {
            pen.drift(if own { OWN } else { PORT });
        }
        20..=44 => versions::send_at_all(pen),
        45..=49 => extras::edge_send(pen),
        50..=74 => extras::edge_stamp(pen),
        75..=76 => extras::edge_age(pen),
        77..=78 => extras::any_call(pen),
        79..=80 => break_link(pen),
        _ => {}
    }
}

/// Takes the link of the port that hears the clock away and brings it back.
fn break_link(pen: &mut Pen) {
    let all = ((1_u16 << pen.bridge().ports.len()) - 1) as u8;
    pen.links(all & !1);
    pen.drift(PORT);
    pen.links(all);
}

/// Has the next frame of the clock arrive.
fn arrive(pen: &mut Pen, precedence: u128) {
    let Some(port) = pen.bridge().ports.first().copied() else {
        return;
    };
    let random = &mut pen.random;
    let (count, p) = errors::followed(random, &port.record);
    let samples = port.record.samples;
    let local = moved(p, -i128::from(port.fixed.unwrap_or(0)));
    let fields = Fields {
        version: versions::known(random),
        precedence,
        hop: random.below(3) as u8,
        count,
        grand: next_grand(random, &samples, local),
        local: p,
        error: random.about(1000) as i32,
        ..Fields::default()
    };
    let arrival = moved(p, next_way(random, &samples, local));
    extras::arrive(pen, PORT, fields, arrival);
}

/// Takes the next reading of the own clock.
fn read_own(pen: &mut Pen) {
    let own = pen.bridge().own;
    let random = &mut pen.random;
    let (count, before) = match own.last {
        Some(heard) => (next_count(heard.count), heard.time),
        None => (random.bits() as u8, random.below(LOCAL_END)),
    };
    let (seconds, fraction) = parts(next_grand(random, &own.samples, before));
    let now = moved(before, next_way(random, &own.samples, before));
    pen.own_clock(count, seconds, fraction, now);
}

/// Gives the grand time of the next sample of a clock at a local time, or any where none is kept.
fn next_grand(random: &mut Random, samples: &Samples, local: u64) -> u128 {
    let Some(newest) = samples.newest() else {
        return u128::from(random.bits());
    };
    let grand = match samples.oldest_to_stay() {
        Some(oldest) if random.often(250) => grand_from_oldest(random, &oldest, local),
        _ => grand_from_newest(random, &newest, local),
    };
    grand.rem_euclid(GRAND_END as i128) as u128
}

/// Gives a grand time whose difference from the newest sample is at the limit, one unit beyond it, or anywhere within.
fn grand_from_newest(random: &mut Random, newest: &Sample, local: u64) -> i128 {
    let most = spread(local, newest.local) / KEPT;
    let side = random.pick(&[-1, 1]);
    let difference = match random.below(12) {
        0 => 0,
        1..=3 => side * i128::from(most),
        4 => side * (i128::from(most) + 1),
        5 => random.about(2),
        _ => random.about(most),
    };
    newest.grand as i128 + i128::from(spread(local, newest.local)) + difference
}

/// Gives a grand time whose difference from the oldest sample that stays is none, at the limit, or one unit beyond it.
fn grand_from_oldest(random: &mut Random, oldest: &Sample, local: u64) -> i128 {
    let most = i128::from(spread(local, oldest.local) / KEPT);
    let difference = random.pick(&[0, most, -most, most + 1, -most - 1]);
    oldest.grand as i128 + i128::from(spread(local, oldest.local)) + difference
}

/// Gives the way from the next sample of a clock to the one after it: mostly such that three are kept, and often at a limit.
fn next_way(random: &mut Random, samples: &Samples, local: u64) -> i128 {
    let run = samples.newest().map(|newest| spread(local, newest.local));
    if run == Some(SPREAD_LEAST) && random.often(LEAST_AGAIN) {
        return i128::from(SPREAD_LEAST);
    }
    match random.below(20) {
        0..=2 => i128::from(random.pick(&NEWEST_EDGES)),
        3..=5 => i128::from(limits::way_from_oldest(random, samples, local)),
        6 => i128::from(random.within(SPREAD_LEAST, SPREAD_MOST)),
        7 => -i128::from(random.below(SPREAD_HALF)),
        8..=11 => i128::from(random.within(SPREAD_LEAST / KEPT + 1, SPREAD_HALF / KEPT) * KEPT),
        _ => i128::from(random.within(SPREAD_LEAST, SPREAD_HALF)),
    }
}
