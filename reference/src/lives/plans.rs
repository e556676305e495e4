//! Setups, good ones and refused ones.

use super::random::Random;
use super::versions;
use crate::bridge::{
    Plan, Profile, BACK_DEFAULT, BACK_MOST, LISTENER_BACK, LISTENER_PORTS, PORTS_MOST, TIMEOUTS,
};
use crate::rules::DELAY_MOST;

/// The number whose lone capital digit stands for a default.
const LIKE_DEFAULT: u64 = 0xD;
/// The bits of a precedence below its first byte.
const LOW_BITS: u32 = 96;
/// In a thousand plans, how many are a listener's.
const LISTENERS: u64 = 70;

/// Gives one of a few precedences that differ in their first, in a middle or in their last byte.
pub fn precedence(random: &mut Random) -> u128 {
    let first = u128::from(random.pick(&[0_u8, 1, 1, 1, 128, 255])) << LOW_BITS;
    let middle = u128::from(random.pick(&[0_u8, 0, 0, 1])) << 48;
    let last = u128::from(random.pick(&[0_u8, 1, 2, 2, 255]));
    first + middle + last
}

/// Gives a plan that is taken.
pub fn good(random: &mut Random) -> Plan {
    if random.often(LISTENERS) {
        return listener(random);
    }
    let ports = random.pick(&[1, 1, 2, 2, 2, 3, 3, 4, 5, 6, 7, 8, 8]);
    of_ports(random, ports)
}

/// Gives a plan of so many ports that is taken.
pub fn of_ports(random: &mut Random, ports: u8) -> Plan {
    let mut plan = Plan {
        ports,
        precedence: precedence(random),
        capable: random.often(350),
        timeout: timeout(random),
        back: back(random),
        versions: versions::of_ports(random, ports),
        ..Plan::default()
    };
    for byte in &mut plan.mac {
        *byte = random.bits() as u8;
    }
    for (place, delay) in plan.delays.iter_mut().enumerate() {
        *delay = if place < usize::from(plan.ports) {
            good_delay(random)
        } else {
            random.pick(&[None, None, Some(0), Some(DELAY_MOST + 1), Some(u64::MAX)])
        };
    }
    plan
}

/// Gives a plan of a listener that is taken.
pub fn listener(random: &mut Random) -> Plan {
    listening(of_ports(random, LISTENER_PORTS))
}

/// Gives a plan with what makes it a listener's, but for the ports.
fn listening(plan: Plan) -> Plan {
    Plan {
        profile: Profile::Listener,
        capable: false,
        back: Some(LISTENER_BACK),
        ..plan
    }
}

/// Gives a timeout in range, or none for the default.
fn timeout(random: &mut Random) -> Option<u64> {
    match random.below(10) {
        0 => Some(*TIMEOUTS.start()),
        1 => Some(*TIMEOUTS.end()),
        2 => Some(random.within(*TIMEOUTS.start(), *TIMEOUTS.end())),
        3 | 4 => Some(random.within(1 << 38, 1 << 41)),
        _ => None,
    }
}

/// Gives a back time in range, or none for the default.
fn back(random: &mut Random) -> Option<u64> {
    match random.below(10) {
        0 => Some(0),
        1 => Some(BACK_MOST),
        2 => Some(random.below(BACK_MOST)),
        3 => Some(random.sized(39)),
        4 => Some(LIKE_DEFAULT),
        _ => None,
    }
}

/// Gives a fixed delay in range, or none for a measured one.
fn good_delay(random: &mut Random) -> Option<u64> {
    match random.below(12) {
        0 => Some(0),
        1 => Some(DELAY_MOST),
        2 => Some(random.below(DELAY_MOST)),
        3 => Some(random.sized(30)),
        _ => None,
    }
}

/// Gives a plan with something just or far out of range.
pub fn refused(random: &mut Random) -> Plan {
    let plan = good(random);
    out_of_range(random, plan)
}

/// Puts something of a plan just or far out of range.
fn out_of_range(random: &mut Random, mut plan: Plan) -> Plan {
    match random.below(8) {
        0 => plan.ports = 0,
        1 => plan.ports = random.pick(&[9, 10, 255]),
        2 => plan.timeout = Some(random.pick(&[0, TIMEOUTS.start() - 1, LIKE_DEFAULT])),
        3 => plan.timeout = Some(random.pick(&[TIMEOUTS.end() + 1, u64::MAX])),
        4 => plan.back = Some(random.pick(&[BACK_MOST + 1, u64::MAX])),
        5 => {
            let place = random.below(PORTS_MOST as u64) % u64::from(plan.ports);
            plan.delays[place as usize] = Some(random.pick(&[DELAY_MOST + 1, u64::MAX]));
        }
        _ => plan = versions::with_wrong_version(random, plan),
    }
    plan
}

/// Gives a plan of a listener that is refused, mostly for what a full bridge may have.
pub fn refused_listener(random: &mut Random) -> Plan {
    let mut plan = listener(random);
    match random.below(8) {
        0 => {
            let ports = random.within(u64::from(LISTENER_PORTS) + 1, PORTS_MOST as u64);
            plan = listening(of_ports(random, ports as u8));
        }
        1 => plan.capable = true,
        2 => plan.back = Some(random.pick(&[1, LIKE_DEFAULT, BACK_DEFAULT, BACK_MOST])),
        3 => plan.back = None,
        _ => plan = out_of_range(random, plan),
    }
    plan
}
