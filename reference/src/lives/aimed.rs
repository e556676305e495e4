//! Lives in which each frame is aimed at some limit of the rules.

use super::extras;
use super::limits;
use super::panel;
use super::pen::Pen;
use super::plans;
use super::random::Random;
use super::timestamps;
use super::versions;
use crate::bridge::{OWN, PORTS_MOST};
use crate::frame::{self, Fields};
use crate::port::Port;
use crate::rules::{self, DELAY_MOST, HOP_NONE, SPREAD_LEAST, SPREAD_MOST, TRIP_MOST};
use crate::samples::Samples;
use crate::times::{moved, next_count, parts, spread, GRAND_END, LOCAL_END};

/// The spreads at the limits, to both sides.
const SPREAD_EDGES: [u64; 6] = [
    SPREAD_LEAST - 1,
    SPREAD_LEAST,
    SPREAD_LEAST + 1,
    SPREAD_MOST - 1,
    SPREAD_MOST,
    SPREAD_MOST + 1,
];
/// The delays at the limits, to both sides.
const DELAY_EDGES: [u64; 6] = [
    0,
    1,
    DELAY_MOST - 1,
    DELAY_MOST,
    DELAY_MOST + 1,
    DELAY_MOST + 2,
];
/// The greatest spread over a difference that is still kept.
const KEPT: u64 = 4_000;
/// The spread that every spread with a rate halfway between two whole ones is a multiple of.
const HALF_RUN: u64 = 1 << 36;
/// How many halves to each side of the line of two samples a third is aimed at.
const HALVES_BESIDE: u64 = 100;

/// What is planned for the next frame of each port.
struct Plans {
    delays: [u64; PORTS_MOST],
}

/// Lives one life.
pub fn live(pen: &mut Pen) {
    if pen.random.often(300) {
        let refused = plans::refused(&mut pen.random);
        pen.setup(&refused);
    }
    if pen.random.often(500) {
        versions::be_refused(pen);
    }
    let plan = plans::good(&mut pen.random);
    pen.setup(&plan);
    let all = ((1_u16 << plan.ports) - 1) as u8;
    pen.links(all);
    let mut plans = Plans {
        delays: [0; PORTS_MOST],
    };
    let steps = pen.random.pick(&[30, 100, 100, 300]);
    for _ in 0..steps {
        if pen.done() {
            return;
        }
        plans.step(pen, all);
    }
}

impl Plans {
    /// Makes one aimed call and perhaps some that look at what it did.
    fn step(&mut self, pen: &mut Pen, all: u8) {
        if pen.random.often(10) {
            let mask = pen.random.bits() as u8 & all;
            pen.links(mask);
            panel::look(pen);
            pen.links(all);
        }
        if pen.bridge().settings.capable && pen.random.often(400) {
            aim_own(pen);
        } else {
            self.aim_frame(pen);
        }
        match pen.random.below(100) {
            0..=20 => extras::edge_send(pen),
            21..=29 => versions::send_at_all(pen),
            30..=32 => extras::edge_age(pen),
            33..=59 => extras::ask(pen),
            60..=61 => extras::any_call(pen),
            62..=91 => extras::edge_stamp(pen),
            92..=96 => timestamps::ask(pen),
            _ => {}
        }
    }

    /// Receives an aimed frame at some port and plans the next.
    fn aim_frame(&mut self, pen: &mut Pen) {
        let ports = pen.bridge().ports.len() as u64;
        let place = pen.random.below(ports.min(3)) as usize;
        let port = pen.bridge().ports[place];
        let chosen_hop = pen.bridge().best().map_or(HOP_NONE, |chosen| chosen.hop);
        let back = pen.bridge().settings.back;
        let random = &mut pen.random;
        let p = port
            .record
            .last
            .map_or_else(|| start_local(random), |heard| heard.time);
        let local = aim_local(random, &port, p);
        let (that_tx, that_rx) = aim_that(random, &port, local, p, self.delays[place]);
        let delay = expected_delay(&port, local, p, that_tx, that_rx);
        let taken_at = moved(p, -i128::from(delay));
        let grand = aim_grand(random, &port.record.samples, taken_at);
        let fields = Fields {
            version: versions::known(random),
            sa: [2, 0, 0, 0, 0, place as u8],
            precedence: aim_precedence(random, &port),
            hop: aim_hop(random, chosen_hop),
            count: aim_count(random, port.record.last.map(|heard| heard.count)),
            grand,
            local,
            that_tx,
            that_rx,
            error: aim_error(random, &port.record.samples, (grand, taken_at), back),
        };
        self.delays[place] = port.fixed.unwrap_or_else(|| next_delay(random));
        let way = aim_way(random, &port.record.samples, p, [delay, self.delays[place]]);
        let arrival = if random.often(40) {
            random.within(0, self.delays[place])
        } else {
            moved(p, way)
        };
        pen.receive((place + 1) as u8, &frame::put_together(&fields), arrival);
    }
}

/// Gives a local time near the end of the circle or anywhere.
fn start_local(random: &mut Random) -> u64 {
    if random.often(500) {
        LOCAL_END - 1 - random.sized(40)
    } else {
        random.below(LOCAL_END)
    }
}

/// Gives the delay that the next frame is to have on a measured port.
fn next_delay(random: &mut Random) -> u64 {
    match random.below(6) {
        0 | 1 => random.pick(&DELAY_EDGES),
        2 => random.below(DELAY_MOST),
        _ => random.sized(26),
    }
}

/// Gives the way to the next arrival, such that spreads of arrivals or of samples are at a limit, by the samples before and the delays of this sample and of the next.
fn aim_way(random: &mut Random, samples: &Samples, p: u64, delays: [u64; 2]) -> i128 {
    let [delay, next_delay] = delays;
    let samples_apart = i128::from(next_delay) - i128::from(delay);
    let local = moved(p, -i128::from(delay));
    match random.below(21) {
        0 | 1 => i128::from(random.pick(&SPREAD_EDGES)) + samples_apart,
        2 => i128::from(random.pick(&SPREAD_EDGES)),
        3 | 8 => i128::from(random.within(1 << 19, 1 << 27) * KEPT) + samples_apart,
        4 => i128::from(random.within(1 << 19, 1 << 27) * (KEPT + 1)),
        5 => i128::from(random.within(1 << 19, 1 << 27) * (KEPT - 1)),
        6 => i128::from(random.below(LOCAL_END)),
        7 => i128::from(random.sized(41)),
        17 | 18 => i128::from(half_way(random, samples, local)) + samples_apart,
        19 => {
            let run = half_run(random);
            i128::from(run) + half_difference(random, run)
        }
        20 => i128::from(limits::way_from_oldest(random, samples, local)) + samples_apart,
        _ => i128::from(random.within(SPREAD_LEAST, SPREAD_MOST)),
    }
}

/// Gives a spread over which some differences have a rate halfway between two whole ones.
fn half_run(random: &mut Random) -> u64 {
    HALF_RUN * random.within(1, SPREAD_MOST / HALF_RUN)
}

/// Gives the spread from a sample at a local time to the next, such that this is at such a spread from the newest one that is kept, which is then the oldest that stays, or else from the sample itself.
fn half_way(random: &mut Random, samples: &Samples, local: u64) -> u64 {
    let run = samples
        .newest()
        .map_or(0, |newest| spread(local, newest.local));
    let wanted = half_run(random);
    let way = wanted.checked_sub(run).filter(|way| *way >= SPREAD_LEAST);
    way.unwrap_or(wanted)
}

/// Gives a difference whose rate over such a spread is halfway: for each part of the spread an odd number.
fn half_difference(random: &mut Random, run: u64) -> i128 {
    let odd = 2 * random.about(HALF_RUN / KEPT / 2 - 1) + 1;
    i128::from(run / HALF_RUN) * odd
}

/// Gives a grand time that makes the rate from the oldest sample that stays halfway, and is near the line of the two that are kept, where the spread from the oldest is such a one.
fn half_grand(random: &mut Random, samples: &Samples, local: u64) -> Option<i128> {
    let (oldest, newest) = samples.oldest_to_stay().zip(samples.newest())?;
    let run = spread(local, oldest.local);
    if run == 0 || !run.is_multiple_of(HALF_RUN) {
        return None;
    }
    let parts = i128::from(run / HALF_RUN);
    let gained = rules::sample_difference(oldest.point(), newest.point());
    let odd = 2 * (gained / parts / 2 + random.about(HALVES_BESIDE)) + 1;
    Some(oldest.grand as i128 + i128::from(run) + parts * odd)
}

/// Gives a departure of the neighbour, such that its rate is halfway, at a limit or usual.
fn aim_local(random: &mut Random, port: &Port, p: u64) -> u64 {
    let Some((old_local, old_p)) = port.record.pair else {
        return start_local(random);
    };
    let way = spread(p, old_p);
    let local_spread = match halfway_run(way) {
        Some(run) if random.often(800) => i128::from(run),
        _ => aim_run(random, way),
    };
    moved(old_local, local_spread)
}

/// Gives the neighbour's spread over which a spread of arrivals has a halfway rate, where there is one.
fn halfway_run(way: u64) -> Option<u64> {
    let run = way.next_multiple_of(HALF_RUN);
    let run = if run - way > HALF_RUN / 2 {
        run - HALF_RUN
    } else {
        run
    };
    let difference = i128::from(way) - i128::from(run);
    let parts = i128::from(run / HALF_RUN);
    let odd = |difference: i128| difference % parts == 0 && difference / parts % 2 != 0;
    (rules::steady(difference, run) && odd(difference)).then_some(run)
}

/// Gives the neighbour's spread for a spread of arrivals, such that its rate is at a limit or usual.
fn aim_run(random: &mut Random, way: u64) -> i128 {
    let longest = u128::from(way) * u128::from(KEPT) / u128::from(KEPT - 1);
    let shortest = u128::from(way) * u128::from(KEPT) / u128::from(KEPT + 1);
    match random.below(12) {
        0 => i128::from(way),
        1 | 2 => longest as i128 + random.about(1),
        3 | 4 => shortest as i128 + random.about(1),
        5 => i128::from(random.pick(&SPREAD_EDGES)),
        6 => i128::from(random.below(LOCAL_END)),
        7 => i128::from(way) + random.about(2),
        _ => i128::from(way) + random.about(way / KEPT),
    }
}

/// Gives the neighbour's echo, such that trip, turn or delay is at a limit or usual.
fn aim_that(random: &mut Random, port: &Port, local: u64, p: u64, delay: u64) -> (u64, u64) {
    let rate = rules::neighbour_rate(port.record.pair, (local, p));
    let turn = match random.below(20) {
        0 => random.pick(&[0, 1, 2]),
        1 => random.pick(&[TRIP_MOST - 1, TRIP_MOST, TRIP_MOST + 1]),
        2 => random.below(LOCAL_END),
        3 => random.sized(48),
        _ => random.within(SPREAD_LEAST, SPREAD_MOST - 4 * DELAY_MOST),
    };
    let scaled = i128::from(turn) + rules::rated(rate, i128::from(turn));
    let wanted = scaled + 2 * i128::from(delay) + i128::from(random.below(2));
    let trip = match random.below(20) {
        0 => i128::from(TRIP_MOST) + random.about(1),
        1 => scaled - i128::from(random.sized(30)),
        2 => i128::from(random.below(LOCAL_END)),
        _ => wanted,
    };
    let that_tx = moved(p, -trip);
    let that_rx = moved(local, -i128::from(turn));
    match random.below(20) {
        0..=3 => (0, 0),
        4 => (0, that_rx),
        5 => (that_tx, 0),
        6 => trip_edge(random, rate, local, p),
        _ => (that_tx, that_rx),
    }
}

/// Gives an echo with the longest believable trip and a turn that leaves a believable delay.
fn trip_edge(random: &mut Random, rate: i128, local: u64, p: u64) -> (u64, u64) {
    let trip = i128::from(TRIP_MOST) + random.about(1);
    let around = trip - 2 * i128::from(random.below(DELAY_MOST));
    let turn = around - rules::rated(rate, around);
    let turn = if random.often(300) {
        i128::from(TRIP_MOST) + random.about(1)
    } else {
        turn
    };
    (moved(p, -trip), moved(local, -turn))
}

/// Gives the delay that a port would work out, or none where it would refuse.
fn expected_delay(port: &Port, local: u64, p: u64, that_tx: u64, that_rx: u64) -> u64 {
    let zero = that_tx == 0 && that_rx == 0;
    port.fixed.or(zero.then_some(0)).unwrap_or_else(|| {
        let rate = rules::neighbour_rate(port.record.pair, (local, p));
        let trip = spread(p, that_tx);
        let turn = spread(local, that_rx);
        rules::measured_delay(rate, trip, turn).unwrap_or(0)
    })
}

/// Gives mostly the precedence that is held.
fn aim_precedence(random: &mut Random, port: &Port) -> u128 {
    match port.record.announcement {
        Some(held) if random.often(930) => held.precedence,
        _ => plans::precedence(random),
    }
}

/// Gives a hop around the chosen one or at the end.
fn aim_hop(random: &mut Random, chosen_hop: u8) -> u8 {
    match random.below(12) {
        0 => chosen_hop,
        1 => chosen_hop.saturating_add(1),
        2 => chosen_hop.saturating_sub(1),
        3 => random.pick(&[252, 253, 254, 254]),
        4 if random.often(200) => HOP_NONE,
        5 => random.bits() as u8,
        _ => random.below(4) as u8,
    }
}

/// Gives mostly the count that follows.
fn aim_count(random: &mut Random, last: Option<u8>) -> u8 {
    match last {
        Some(count) if random.often(960) => next_count(count),
        Some(count) if random.often(400) => count,
        Some(count) if random.often(400) => next_count(next_count(count)),
        _ => random.pick(&[0, 253, 254, 255]),
    }
}

/// Gives a grand time whose spread from the newest sample is at a limit or usual, or whose rate from the oldest that stays is halfway.
fn aim_grand(random: &mut Random, samples: &Samples, local: u64) -> u128 {
    let Some(newest) = samples.newest() else {
        return start_grand(random);
    };
    let local_spread = spread(local, newest.local);
    let most = i128::from(local_spread / KEPT);
    let difference = match random.below(14) {
        8.. if local_spread.is_multiple_of(HALF_RUN) => half_difference(random, local_spread),
        0 => 0,
        1 => most,
        2 => most + 1,
        3 => -most,
        4 => -most - 1,
        5 => random.about(2),
        6 => i128::from(random.bits()),
        _ => random.about(local_spread / KEPT),
    };
    let aimed = newest.grand as i128 + i128::from(local_spread) + difference;
    let halfway = half_grand(random, samples, local).filter(|_| random.often(500));
    let grand = halfway.unwrap_or(aimed);
    if (0..GRAND_END as i128).contains(&grand) && !random.often(15) {
        grand as u128
    } else {
        start_grand(random)
    }
}

/// Gives an errorTime, often one for which what version 2 sends is at an end of 32 bits.
fn aim_error(random: &mut Random, samples: &Samples, next: (u128, u64), back: u64) -> i32 {
    let edge = versions::edge_error(random, samples, next, back);
    edge.filter(|_| random.often(500))
        .unwrap_or_else(|| random.bits() as i32)
}

/// Gives a grand time at an end or anywhere.
fn start_grand(random: &mut Random) -> u128 {
    match random.below(8) {
        0 => u128::from(random.sized(40)),
        1 => GRAND_END - 1 - u128::from(random.sized(42)),
        2..=5 => GRAND_END - 1 - u128::from(random.within(SPREAD_LEAST, 2 * SPREAD_MOST)),
        _ => u128::from(random.bits()) << 15,
    }
}

/// Takes an aimed reading of the own clock.
fn aim_own(pen: &mut Pen) {
    let own = pen.bridge().own;
    let random = &mut pen.random;
    let before = own
        .last
        .map_or_else(|| start_local(random), |heard| heard.time);
    let grand = aim_grand(random, &own.samples, before);
    let count = aim_count(random, own.last.map(|heard| heard.count));
    let now = moved(before, aim_way(random, &own.samples, before, [0, 0]));
    let (seconds, fraction) = parts(grand);
    pen.own_clock(count, seconds, fraction, now);
    if pen.random.often(200) {
        pen.drift(OWN);
    }
}
