//! Versions of ports, of frames and of lines, known ones and wrong ones, and errorTimes at the ends of their 32 bits.

use super::extras;
use super::limits;
use super::pen::Pen;
use super::plans;
use super::random::Random;
use crate::bridge::{Plan, PORTS_MOST};
use crate::frame::{Version, FRAME_LEN};
use crate::rules;
use crate::samples::{Sample, Samples};
use crate::times::moved;

/// Wrong versions at the ends of a byte and beside the known ones.
const WRONG: [u8; 3] = [0, 3, u8::MAX];
/// The first of the wrong versions above the known ones.
const FIRST_ABOVE: u8 = 3;
/// The versions of ports that a setup does not look at, most of them wrong.
const BEYOND: [u8; 6] = [0, 1, 2, 3, 3, u8::MAX];
/// The most setups with a wrong version in a row.
const WRONG_SETUPS_MOST: u64 = 3;
/// The most bits of a time after a sample that is soon after it.
const SOON_BITS: u64 = 38;
/// The most bits of the way from an errorTime to the end that it is about; what a usual rate makes of a usual back time has fewer.
const ABOUT_END_BITS: u64 = 24;

/// Gives one of the two versions.
pub fn known(random: &mut Random) -> Version {
    random.pick(&[Version::ONE, Version::TWO])
}

/// Gives a version that is refused.
pub fn wrong(random: &mut Random) -> Version {
    if random.often(700) {
        Version(random.pick(&WRONG))
    } else {
        Version(random.within(u64::from(FIRST_ABOVE), u64::from(u8::MAX)) as u8)
    }
}

/// Gives any version.
pub fn any(random: &mut Random) -> Version {
    if random.often(600) {
        known(random)
    } else {
        wrong(random)
    }
}

/// Gives the versions of so many ports, the same at all or mixed, and anything for the ports beyond them.
pub fn of_ports(random: &mut Random, ports: u8) -> [Version; PORTS_MOST] {
    let same = match random.below(10) {
        0..=4 => return [Version::ONE; PORTS_MOST],
        5 | 6 => Some(known(random)),
        _ => None,
    };
    let mut versions = [Version::ONE; PORTS_MOST];
    for (place, version) in versions.iter_mut().enumerate() {
        *version = if place < usize::from(ports) {
            same.unwrap_or_else(|| known(random))
        } else {
            Version(random.pick(&BEYOND))
        };
    }
    versions
}

/// Gives the place of a port whose version is to be wrong: the first, the last or any of so many.
fn place(random: &mut Random, ports: u8) -> usize {
    let last = usize::from(ports).saturating_sub(1);
    let between = random.index(last + 1);
    random.pick(&[0, last, between])
}

/// Has setups refused that differ from ones that are taken in a version alone, and makes a call on what is left.
pub fn be_refused(pen: &mut Pen) {
    for _ in 0..pen.random.within(1, WRONG_SETUPS_MOST) {
        let plan = plans::good(&mut pen.random);
        let refused = with_wrong_version(&mut pen.random, plan);
        pen.setup(&refused);
    }
    extras::any_call(pen);
}

/// Gives a plan with a wrong version at one of its ports.
pub fn with_wrong_version(random: &mut Random, mut plan: Plan) -> Plan {
    let place = place(random, plan.ports);
    plan.versions[place] = wrong(random);
    plan
}

/// Sends at every port that has a link, with one departure soon after the newest sample that is followed, so that both versions tell of the same.
pub fn send_at_all(pen: &mut Pen) {
    let Some(newest) = limits::followed(pen.bridge()).newest() else {
        return;
    };
    let soon = i128::from(pen.random.sized(SOON_BITS));
    for port in extras::linked_ports(pen) {
        pen.send(port, moved(newest.local, soon), FRAME_LEN as u64);
    }
}

/// Gives an errorTime about an end of its 32 bits.
pub fn about_end(random: &mut Random) -> i32 {
    let inward = random.sized(ABOUT_END_BITS) as i32;
    random.pick(&[i32::MAX - inward, i32::MIN + inward])
}

/// Gives an errorTime for the next sample of a clock, such that what version 2 sends for it is an end of 32 bits, or just within or beyond it; none where it would stand alone.
pub fn edge_error(
    random: &mut Random,
    samples: &Samples,
    next: (u128, u64),
    back: u64,
) -> Option<i32> {
    let rest = rest_after(samples, next, back)?;
    let end = match rest.signum() {
        1 => i32::MAX,
        -1 => i32::MIN,
        _ => random.pick(&[i32::MAX, i32::MIN]),
    };
    let outward = random.pick(&[-1, 0, 0, 1, 1, 2]) * rest.signum();
    let wanted = i128::from(end) + outward - rest;
    i32::try_from(wanted).ok()
}

/// Gives what version 2 adds to the errorTime of a clock's next sample, where that doesn't stand alone.
fn rest_after(samples: &Samples, next: (u128, u64), back: u64) -> Option<i128> {
    let mut after = *samples;
    let next = Sample {
        grand: next.0,
        local: next.1,
        error: 0,
    };
    after.take(next, true);
    Some(rules::sent_error(after.rate()?, 0, back))
}
