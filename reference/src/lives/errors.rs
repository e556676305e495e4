//! Lives of a clock whose errorTimes are about the ends of 32 bits, and of ports of both versions that send it on.

use super::extras;
use super::pen::Pen;
use super::plans;
use super::random::Random;
use super::versions;
use crate::bridge::Plan;
use crate::frame::Fields;
use crate::port::{Port, Record};
use crate::rules::{SPREAD_LEAST, SPREAD_MOST, STEADINESS};
use crate::samples::Samples;
use crate::times::{moved, next_count, spread, GRAND_END, LOCAL_END};

/// The port that hears the clock.
const PORT: u8 = 1;
/// In a thousand full bridges, how many are capable, whose own clock may be the better one.
const CAPABLE: u64 = 100;
/// The most bits of the way from a clock's first grand time to the end of grand time, where that is near.
const BEFORE_END_BITS: u64 = 41;

/// Lives one life.
pub fn live(pen: &mut Pen) {
    if pen.random.often(600) {
        versions::be_refused(pen);
    }
    let ports = pen.random.pick(&[1, 2, 2, 2, 3, 4, 8]);
    let plan = Plan {
        capable: pen.random.often(CAPABLE),
        ..plans::of_ports(&mut pen.random, ports)
    };
    pen.setup(&plan);
    pen.links(((1_u16 << ports) - 1) as u8);
    let precedence = plans::precedence(&mut pen.random);
    let steps = pen.random.pick(&[60, 100, 200]) / u64::from(ports);
    for _ in 0..steps {
        if pen.done() {
            return;
        }
        step(pen, precedence);
    }
}

/// Has a frame of the clock arrive, sends it on at every port, and now and then does something else.
fn step(pen: &mut Pen, precedence: u128) {
    arrive(pen, precedence);
    versions::send_at_all(pen);
    match pen.random.below(100) {
        0..=19 => extras::edge_send(pen),
        20..=49 => extras::play_frames(pen),
        50..=54 => extras::ask(pen),
        55..=57 => extras::any_call(pen),
        58..=62 => extras::edge_stamp(pen),
        _ => {}
    }
}

/// Has the next frame of the clock arrive.
fn arrive(pen: &mut Pen, precedence: u128) {
    let back = pen.bridge().settings.back;
    let Some(port) = pen.bridge().ports.first().copied() else {
        return;
    };
    let random = &mut pen.random;
    let (count, p) = followed(random, &port.record);
    let point = next_point(random, &port, p);
    let fields = Fields {
        version: versions::known(random),
        precedence,
        hop: random.below(3) as u8,
        count,
        grand: point.0,
        local: p,
        error: next_error(random, &port.record.samples, point, back),
        ..Fields::default()
    };
    let arrival = moved(p, i128::from(next_way(random)));
    extras::arrive(pen, PORT, fields, arrival);
}

/// Gives the count that follows and the arrival of the frame before, or any where none was heard.
pub(super) fn followed(random: &mut Random, record: &Record) -> (u8, u64) {
    match record.last {
        Some(heard) => (next_count(heard.count), heard.time),
        None => (random.bits() as u8, random.below(LOCAL_END)),
    }
}

/// Gives how long after a frame the next one arrives, such that its sample mostly doesn't stand alone.
fn next_way(random: &mut Random) -> u64 {
    let most = random.pick(&[
        2 * SPREAD_LEAST,
        SPREAD_MOST / 32,
        SPREAD_MOST / 2,
        SPREAD_MOST,
    ]);
    random.within(SPREAD_LEAST, most)
}

/// Gives the grand time and the local time of a port's next sample, at a rate within the limits of both signs, at one of these, or 0.
fn next_point(random: &mut Random, port: &Port, p: u64) -> (u128, u64) {
    let local = moved(p, -i128::from(port.fixed.unwrap_or(0)));
    let Some(newest) = port.record.samples.newest() else {
        let before_end = GRAND_END - 1 - u128::from(random.sized(BEFORE_END_BITS));
        let anywhere = u128::from(random.bits());
        return (random.pick(&[anywhere, before_end]), local);
    };
    let way = spread(local, newest.local);
    let most = way / STEADINESS as u64;
    let difference = match random.below(8) {
        0 => 0,
        1 => i128::from(most),
        2 => -i128::from(most),
        3 => random.about(2),
        _ => random.about(most),
    };
    let grand = newest.grand as i128 + i128::from(way) + difference;
    (grand.rem_euclid(GRAND_END as i128) as u128, local)
}

/// Gives an errorTime at which what version 2 sends is at an end of 32 bits, or one about such an end, or any.
fn next_error(random: &mut Random, samples: &Samples, point: (u128, u64), back: u64) -> i32 {
    let edge = versions::edge_error(random, samples, point, back);
    match (edge, random.below(10)) {
        (Some(error), 0..=5) => error,
        (_, 0..=8) => versions::about_end(random),
        _ => random.bits() as i32,
    }
}
