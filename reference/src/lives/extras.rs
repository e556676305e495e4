//! Calls that fit any moment: questions, calls at a limit, and calls by chance.

use super::latches;
use super::limits::{any_local, any_part, first_where, followed};
use super::panel;
use super::passes;
use super::pen::Pen;
use super::plans;
use super::random::Random;
use super::spoil;
use super::timestamps;
use super::versions;
use crate::answer::{BEYOND_RANGE, NO_CLOCK};
use crate::frame::{self, Fields, Version, FRAME_LEN};
use crate::replay::BYTES_MOST;
use crate::rules::{self, HOP_NONE, REACH_END};
use crate::times::{moved, GRAND_END, LOCAL_END, PART_END};

/// Gives the length of an output, mostly that of a frame.
pub fn output_length(random: &mut Random) -> u64 {
    if random.often(900) {
        return FRAME_LEN as u64;
    }
    random.pick(&[0, 1, 63, 63, 64, 65, 65, 100, 127, 128, 128, 129])
}

/// Gives a port number, mostly one that the bridge has.
pub fn any_port(pen: &mut Pen) -> u8 {
    let ports = pen.bridge().ports.len() as u64;
    match pen.random.below(20) {
        0 => 0,
        1 => (ports + 1) as u8,
        2 => pen.random.bits() as u8,
        _ => pen.random.within(1, ports.max(1)) as u8,
    }
}

/// Gives all linked ports.
pub fn linked_ports(pen: &Pen) -> Vec<u8> {
    (1..)
        .zip(&pen.bridge().ports)
        .filter_map(|(number, port)| port.linked.then_some(number))
        .collect()
}

/// Gives a linked port, if there is one.
pub fn linked_port(pen: &mut Pen) -> Option<u8> {
    let linked = linked_ports(pen);
    (!linked.is_empty()).then(|| pen.random.pick(&linked))
}

/// Asks something of the bridge that changes nothing.
pub fn ask(pen: &mut Pen) {
    match pen.random.below(10) {
        0..=2 => {
            pen.chosen();
        }
        3 | 4 => panel::ask(pen),
        _ => ask_drift(pen),
    }
}

/// Asks for the drift of the chosen clock or of any.
fn ask_drift(pen: &mut Pen) {
    let port = match pen.bridge().best() {
        Some(chosen) if pen.random.often(500) => chosen.port,
        _ => any_port(pen),
    };
    pen.drift(port);
}

/// Has a frame arrive, or now and then be lost, come too far, be spoiled, come twice, or come with another port or arrival.
pub fn arrive(pen: &mut Pen, port: u8, mut fields: Fields, arrival: u64) {
    let chance = pen.random.below(1000);
    if (15..20).contains(&chance) {
        fields.hop = HOP_NONE;
    }
    let whole = frame::put_together(&fields);
    match chance {
        0..=14 => {}
        20..=29 => {
            let spoiled = spoil::frame(&mut pen.random, &whole);
            pen.receive(port, &spoiled, arrival);
        }
        30..=35 => {
            pen.receive(port, &whole, arrival);
            pen.receive(port, &whole, arrival);
        }
        36..=37 => {
            let wrong = any_port(pen);
            pen.receive(wrong, &whole, arrival);
        }
        38..=39 => {
            let wrong = any_local(&mut pen.random);
            pen.receive(port, &whole, wrong);
        }
        _ => {
            pen.receive(port, &whole, arrival);
        }
    }
}

/// Sends at a port with the departure of the frame before, or with the time now where none has left, and gives the frame where it mostly arrives.
pub fn depart(pen: &mut Pen, port: u8, left: &mut Option<u64>, now: u64) -> Option<Fields> {
    let departure = left.unwrap_or(now);
    let length = output_length(&mut pen.random);
    let (answer, sent) = pen.send(port, departure, length);
    if sent.is_some() {
        *left = Some(now);
    }
    if (NO_CLOCK..=BEYOND_RANGE).contains(&answer) {
        *left = None;
    }
    sent.filter(|_| pen.random.often(975))
}

/// Sends with a departure at a limit of the chosen clock's reach or of grand time.
pub fn edge_send(pen: &mut Pen) {
    let Some(port) = linked_port(pen) else {
        return;
    };
    let back = pen.bridge().settings.back;
    let samples = followed(pen.bridge());
    let Some(newest) = samples.newest() else {
        let departure = any_local(&mut pen.random);
        pen.send(port, departure, FRAME_LEN as u64);
        return;
    };
    let top = samples.rate().and_then(|rate| {
        let unfit = |reach| {
            let departure = moved(newest.local, reach);
            !rules::fits_grand(rules::sent_grand(rate, newest.point(), back, departure))
        };
        first_where(0, i128::from(REACH_END) - 1, unfit)
    });
    let reach = match (top, pen.random.below(10)) {
        (Some(top), 0..=6) => top - pen.random.pick(&[0, 1, 1, 2]),
        (_, 0) => -1,
        (_, 1 | 2) => i128::from(REACH_END) - 1,
        (_, 3 | 4) => i128::from(REACH_END),
        (_, 5) => i128::from(back) + pen.random.about(1),
        (_, 6) => 0,
        (_, 7) => pen.random.about(3),
        _ => i128::from(pen.random.sized(39)),
    };
    let departure = moved(newest.local, reach);
    pen.send(port, departure, FRAME_LEN as u64);
}

/// Has a latch stamped that is aimed at the samples of the chosen clock.
pub fn edge_stamp(pen: &mut Pen) {
    let samples = followed(pen.bridge());
    let latch = latches::aimed(&mut pen.random, &samples);
    pen.stamp(latch);
}

/// Ages with a time at the limit of one announcement.
pub fn edge_age(pen: &mut Pen) {
    let timeout = i128::from(pen.bridge().settings.timeout);
    let times: Vec<u64> = pen
        .bridge()
        .ports
        .iter()
        .filter_map(|port| port.record.announcement.map(|held| held.heard_at))
        .collect();
    if times.is_empty() {
        return;
    }
    let heard_at = pen.random.pick(&times);
    pen.age(moved(heard_at, timeout - 1));
    let later = match pen.random.below(6) {
        0 => -1,
        1 => 0,
        2 => timeout + 1,
        _ => timeout,
    };
    pen.age(moved(heard_at, later));
    pen.chosen();
    panel::look(pen);
}

/// Reads, writes or compares frames.
pub fn play_frames(pen: &mut Pen) {
    match pen.random.below(3) {
        0 => {
            let bytes = some_frame(pen);
            pen.read(&bytes);
        }
        1 => write_frame(pen),
        _ => compare_frames(pen),
    }
}

/// Gives a frame that was seen, or a damaged one, or bytes by chance.
pub fn some_frame(pen: &mut Pen) -> Vec<u8> {
    let whole = pen.remembered();
    match pen.random.below(10) {
        0..=2 => spoil::frame(&mut pen.random, &whole),
        3 => {
            let length = pen.random.pick(&[0, 1, 63, 64, 64, 64, 65, BYTES_MOST]);
            (0..length).map(|_| pen.random.bits() as u8).collect()
        }
        4 => dressed(pen),
        _ => whole.to_vec(),
    }
}

/// Gives a frame of chance fields with the fixed bytes right.
fn dressed(pen: &mut Pen) -> Vec<u8> {
    let fields = any_fields(&mut pen.random);
    frame::put_together(&fields).to_vec()
}

/// Gives fields by chance, all in range.
fn any_fields(random: &mut Random) -> Fields {
    Fields {
        version: versions::known(random),
        sa: [2, 0, 0, 0, 0, random.bits() as u8],
        precedence: plans::precedence(random),
        hop: random.pick(&[0, 1, 2, 3, 253, 254, 255]),
        count: random.bits() as u8,
        grand: (u128::from(random.bits()) << 64 | u128::from(random.bits())) % GRAND_END,
        local: random.below(LOCAL_END),
        that_tx: random.below(LOCAL_END),
        that_rx: random.below(LOCAL_END),
        error: random.bits() as i32,
    }
}

/// Writes fields, now and then with a time out of range, and in any version.
fn write_frame(pen: &mut Pen) {
    let mut fields = any_fields(&mut pen.random);
    let random = &mut pen.random;
    fields.version = versions::any(random);
    let (mut seconds, mut fraction) = (random.below(PART_END), random.below(PART_END));
    match random.below(8) {
        0 => seconds = any_part(random),
        1 => fraction = any_part(random),
        2 => fields.local = any_local(random),
        3 => fields.that_tx = any_local(random),
        4 => fields.that_rx = any_local(random),
        _ => fields.precedence |= u128::from(random.bits()) << 20,
    }
    let length = if random.often(500) {
        FRAME_LEN as u64
    } else {
        random.pick(&[0, 1, 63, 63, 64, 65, 66, 127, 128, 129])
    };
    pen.write(&fields, seconds, fraction, length);
}

/// Compares two frames, often ones that differ in little.
fn compare_frames(pen: &mut Pen) {
    let first = some_frame(pen);
    let second = if pen.random.often(400) {
        near_frame(pen, &first)
    } else {
        some_frame(pen)
    };
    if pen.random.often(500) {
        pen.better(&first, &second);
    } else {
        pen.better(&second, &first);
    }
}

/// Gives a frame that differs from another in precedence, hop or version only, or not at all.
fn near_frame(pen: &mut Pen, bytes: &[u8]) -> Vec<u8> {
    let Ok(mut fields) = frame::read(bytes) else {
        return bytes.to_vec();
    };
    let random = &mut pen.random;
    match random.below(5) {
        0 => fields.hop = random.pick(&[fields.hop.saturating_add(1), 254, 255, 0]),
        1 => fields.precedence = plans::precedence(random),
        2 => fields.precedence ^= 1 << random.below(104),
        3 => fields.version = other(fields.version),
        _ => fields.grand = 0,
    }
    fields.sa[5] ^= 1;
    frame::put_together(&fields).to_vec()
}

/// Gives the other of the two versions.
fn other(version: Version) -> Version {
    match version {
        Version::ONE => Version::TWO,
        _ => Version::ONE,
    }
}

/// Makes calls by chance on whatever bridge there is, at times after a refused setup.
pub fn wander(pen: &mut Pen) {
    if pen.random.often(400) {
        let plan = plans::refused(&mut pen.random);
        pen.setup(&plan);
    } else if pen.random.often(200) {
        let plan = plans::good(&mut pen.random);
        pen.setup(&plan);
    }
    if pen.random.often(200) {
        panel::look(pen);
    }
    let lines = pen.random.within(3, 25);
    for _ in 0..lines {
        if pen.done() {
            return;
        }
        any_call(pen);
    }
}

/// Makes one call by chance.
pub fn any_call(pen: &mut Pen) {
    let port = any_port(pen);
    let time = any_local(&mut pen.random);
    match pen.random.below(15) {
        0 => {
            let beyond = 1_u64 << pen.bridge().ports.len();
            let chance = pen.random.bits() >> pen.random.below(9);
            let mask = pen.random.pick(&[chance, beyond, beyond - 1]);
            pen.links(mask as u8);
        }
        1 | 2 => {
            let (seconds, fraction) = (any_part(&mut pen.random), any_part(&mut pen.random));
            let count = pen.random.bits() as u8;
            pen.own_clock(count, seconds, fraction, time);
        }
        3 | 4 => {
            let bytes = some_frame(pen);
            pen.receive(port, &bytes, time);
        }
        5 => {
            pen.age(time);
        }
        6 => ask(pen),
        7 | 8 => {
            let length = output_length(&mut pen.random);
            pen.send(port, time, length);
        }
        9 => {
            let mut line = Vec::new();
            spoil::nonsense(&mut pen.random, &mut line);
            pen.raw(&line);
        }
        10 => {
            pen.stamp(time);
        }
        11 => timestamps::ask(pen),
        12 => passes::ask(pen),
        _ => play_frames(pen),
    }
}
