//! The same bridge as one value of fixed size that each call takes and hands back.

use crate::answer::Answer;
use crate::bridge::{Bridge, Calls, Chosen, Plan, Table, PORTS_MOST};
use crate::port::Port;

/// Eight ports of which the first few count.
#[derive(Clone, Copy, Debug, PartialEq, Eq)]
pub struct Eight {
    used: usize,
    ports: [Port; PORTS_MOST],
}

impl AsRef<[Port]> for Eight {
    /// Gives the ports that count.
    fn as_ref(&self) -> &[Port] {
        &self.ports[..self.used]
    }
}

impl AsMut<[Port]> for Eight {
    /// Gives the ports that count, to be changed.
    fn as_mut(&mut self) -> &mut [Port] {
        &mut self.ports[..self.used]
    }
}

impl Table for Eight {
    /// Keeps the ports in the first places.
    fn of(ports: &[Port]) -> Self {
        let mut eight = Eight {
            used: ports.len(),
            ports: [Port::default(); PORTS_MOST],
        };
        eight.ports[..ports.len()].copy_from_slice(ports);
        eight
    }
}

/// A bridge of fixed size that can be copied.
pub type Flat = Bridge<Eight>;

/// Hands back a bridge made from a plan.
#[inline(never)]
pub fn setup(mut bridge: Flat, plan: Plan) -> (Answer, Flat) {
    let answer = bridge.setup(&plan);
    (answer, bridge)
}

/// Hands back a bridge with its links set.
#[inline(never)]
pub fn links(mut bridge: Flat, mask: u8) -> (Result<u8, Answer>, Flat) {
    let answer = bridge.links(mask);
    (answer, bridge)
}

/// Hands back a bridge with a reading of its own clock.
#[inline(never)]
pub fn own_clock(
    mut bridge: Flat,
    count: u8,
    seconds: u64,
    fraction: u64,
    now: u64,
) -> (Answer, Flat) {
    let answer = bridge.own_clock(count, seconds, fraction, now);
    (answer, bridge)
}

/// Hands back a bridge after a frame has arrived.
#[inline(never)]
pub fn receive(mut bridge: Flat, port: u8, bytes: &[u8], arrival: u64) -> (Answer, Flat) {
    let answer = bridge.receive(port, bytes, arrival);
    (answer, bridge)
}

/// Hands back a bridge without what is stale.
#[inline(never)]
pub fn age(mut bridge: Flat, now: u64) -> (Answer, Flat) {
    let answer = bridge.age(now);
    (answer, bridge)
}

/// Gives the clock that a bridge follows.
#[inline(never)]
pub fn chosen(mut bridge: Flat) -> Option<(u8, u8)> {
    bridge.chosen()
}

/// Gives the candidate at a place of a bridge's ranking.
#[inline(never)]
pub fn ranked(mut bridge: Flat, place: u8) -> Option<Chosen> {
    bridge.ranked(place)
}

/// Hands back a bridge after a frame was written.
#[inline(never)]
pub fn send(mut bridge: Flat, port: u8, departure: u64, output: &mut [u8]) -> (Answer, Flat) {
    let answer = bridge.send(port, departure, output);
    (answer, bridge)
}

/// Gives the drift of one of a bridge's clocks.
#[inline(never)]
pub fn drift(mut bridge: Flat, port: u8) -> Result<Option<f64>, Answer> {
    bridge.drift(port)
}

/// Gives the grand time that a bridge has for a latch.
#[inline(never)]
pub fn stamp(mut bridge: Flat, latch: u64) -> Result<u128, Answer> {
    bridge.stamp(latch)
}

/// The holder of a bridge that goes through every call by value.
#[derive(Clone, Copy, Debug)]
pub struct Handed(pub Flat);

impl Handed {
    /// Stores the bridge that a call handed back and gives its answer on.
    fn keep<A>(&mut self, (answer, bridge): (A, Flat)) -> A {
        self.0 = bridge;
        answer
    }
}

impl Calls for Handed {
    /// Passes the bridge through a setup.
    fn setup(&mut self, plan: &Plan) -> Answer {
        self.keep(setup(self.0, *plan))
    }

    /// Passes the bridge through a setting of links.
    fn links(&mut self, mask: u8) -> Result<u8, Answer> {
        self.keep(links(self.0, mask))
    }

    /// Passes the bridge through a reading of the own clock.
    fn own_clock(&mut self, count: u8, seconds: u64, fraction: u64, now: u64) -> Answer {
        self.keep(own_clock(self.0, count, seconds, fraction, now))
    }

    /// Passes the bridge through an arrival.
    fn receive(&mut self, port: u8, bytes: &[u8], arrival: u64) -> Answer {
        self.keep(receive(self.0, port, bytes, arrival))
    }

    /// Passes the bridge through ageing.
    fn age(&mut self, now: u64) -> Answer {
        self.keep(age(self.0, now))
    }

    /// Asks a copy of the bridge for its chosen clock.
    fn chosen(&mut self) -> Option<(u8, u8)> {
        chosen(self.0)
    }

    /// Asks a copy of the bridge for the candidate at a place.
    fn ranked(&mut self, place: u8) -> Option<Chosen> {
        ranked(self.0, place)
    }

    /// Passes the bridge through a send.
    fn send(&mut self, port: u8, departure: u64, output: &mut [u8]) -> Answer {
        self.keep(send(self.0, port, departure, output))
    }

    /// Asks a copy of the bridge for a drift.
    fn drift(&mut self, port: u8) -> Result<Option<f64>, Answer> {
        drift(self.0, port)
    }

    /// Asks a copy of the bridge for a stamp.
    fn stamp(&mut self, latch: u64) -> Result<u128, Answer> {
        stamp(self.0, latch)
    }
}
