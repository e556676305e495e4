//! How the stations of a ring and its grand master are cabled.

use crate::bridge::TIMEOUT_DEFAULT;
use crate::lives::random::Random;
use std::fmt;

/// The ports of a ring's station.
const STATION_PORTS: u8 = 3;
/// The ports of the grand master.
const MASTER_PORTS: u8 = 1;

/// A station's port to the station before it.
const TO_BEFORE: u8 = 1;
/// A station's port to the station after it.
const TO_AFTER: u8 = 2;
/// The first station's port to the grand master.
const TO_MASTER: u8 = 3;
/// The grand master's port to the first station.
const OF_MASTER: u8 = 1;

/// The shortest cable, in metres.
const METRES_LEAST: u64 = 300;
/// The longest cable, in metres.
const METRES_MOST: u64 = 5_000;
/// How long a frame takes along a metre of cable, 5 ns in U.
const METRE: u64 = 5_498;

/// A ring of stations that hears a grand master at its first station.
#[derive(Clone, Copy, Debug)]
pub struct Ring {
    pub stations: usize,
    /// Whether there is a cable between the last and the first station.
    pub closed: bool,
    /// The timeout of every station, a power of two; none for the default.
    pub timeout: Option<u64>,
    /// The seed from which clocks, cables, phases and jitter are drawn.
    pub draw: u64,
}

impl Ring {
    /// Gives the grand master's place, which is behind those of the ring's own stations.
    pub fn master(&self) -> usize {
        self.stations
    }

    /// Gives how many ports the station at a place has.
    pub fn ports(&self, station: usize) -> u8 {
        if station == self.master() {
            MASTER_PORTS
        } else {
            STATION_PORTS
        }
    }

    /// Names the two ways to cable a ring.
    pub fn form(&self) -> &'static str {
        if self.closed {
            "closed"
        } else {
            "open"
        }
    }

    /// Prints the timeout.
    pub fn timeout_as_power(&self) -> String {
        format!("2^{}", self.timeout.unwrap_or(TIMEOUT_DEFAULT).ilog2())
    }
}

impl fmt::Display for Ring {
    /// Names the ring where something fails.
    fn fmt(&self, to: &mut fmt::Formatter) -> fmt::Result {
        let (stations, form, draw) = (self.stations, self.form(), self.draw);
        let timeout = self.timeout_as_power();
        write!(
            to,
            "{stations} stations, {form}, timeout {timeout} U, draw {draw}"
        )
    }
}

/// One end of a cable: a station's place, and its port.
#[derive(Clone, Copy, Debug, PartialEq, Eq)]
pub struct End {
    pub station: usize,
    pub port: u8,
}

/// A cable, which delays frames by as much both ways.
#[derive(Clone, Copy, Debug)]
struct Cable {
    ends: [End; 2],
    delay: u64,
}

/// All cables of a ring.
#[derive(Clone, Debug)]
pub struct Cabling {
    cables: Vec<Cable>,
}

impl Cabling {
    /// Lays the cables of a ring; their lengths are the same whether or not the ring is closed.
    pub fn by_chance(ring: &Ring, random: &mut Random) -> Cabling {
        let mut cables = vec![cable((ring.master(), OF_MASTER), (0, TO_MASTER), random)];
        for station in 0..ring.stations {
            let next = (station + 1) % ring.stations;
            cables.push(cable((station, TO_AFTER), (next, TO_BEFORE), random));
        }
        if !ring.closed {
            cables.pop();
        }
        Cabling { cables }
    }

    /// Gives the other end of the cable at a port and the cable's delay, if there is a cable.
    pub fn across(&self, port: End) -> Option<(End, u64)> {
        self.cables.iter().find_map(|cable| match cable.ends {
            [near, far] if near == port => Some((far, cable.delay)),
            [far, near] if near == port => Some((far, cable.delay)),
            _ => None,
        })
    }

    /// Gives the mask of a station's links, with bit 0 for port 1.
    pub fn links(&self, station: usize) -> u8 {
        self.cables
            .iter()
            .flat_map(|cable| cable.ends)
            .filter(|end| end.station == station)
            .fold(0, |mask, end| mask | 1 << (end.port - 1))
    }
}

/// Lays a cable between two ports, each given by its station's place and its number.
fn cable(one: (usize, u8), other: (usize, u8), random: &mut Random) -> Cable {
    Cable {
        ends: [one, other].map(|(station, port)| End { station, port }),
        delay: random.within(METRES_LEAST, METRES_MOST) * METRE,
    }
}

#[cfg(test)]
mod tests {
    use super::{Cabling, End, Ring};
    use crate::lives::random::Random;

    /// Makes a ring of four.
    fn four(closed: bool) -> Ring {
        Ring {
            stations: 4,
            closed,
            timeout: None,
            draw: 1,
        }
    }

    /// Lays the cables of a ring of four.
    fn cabled(closed: bool) -> Cabling {
        Cabling::by_chance(&four(closed), &mut Random::new(1))
    }

    /// Gives a port.
    fn end(station: usize, port: u8) -> End {
        End { station, port }
    }

    /// Every cable leads back to its own port, with the same delay.
    #[test]
    fn cables_lead_both_ways() {
        let cabling = cabled(true);
        let there_and_back = |port| {
            let (far, delay) = cabling.across(port)?;
            assert_eq!(cabling.across(far), Some((port, delay)));
            Some(far)
        };
        assert_eq!(there_and_back(end(0, 1)), Some(end(3, 2)));
        assert_eq!(there_and_back(end(1, 2)), Some(end(2, 1)));
        assert_eq!(there_and_back(end(0, 3)), Some(end(4, 1)));
        assert_eq!(there_and_back(end(1, 3)), None);
    }

    /// An open ring is the closed one without the cable between its last and its first station.
    #[test]
    fn an_open_ring_lacks_one_cable() {
        let (closed, open) = (cabled(true), cabled(false));
        assert_eq!(open.across(end(0, 1)), None);
        assert_eq!(open.across(end(3, 2)), None);
        for port in [end(0, 2), end(1, 2), end(3, 1), end(4, 1)] {
            assert_eq!(open.across(port), closed.across(port));
        }
    }

    /// Each station's links are its ports that have a cable.
    #[test]
    fn links_are_the_cabled_ports() {
        let links = |closed| [0, 1, 2, 3, 4].map(|station| cabled(closed).links(station));
        assert_eq!(links(true), [7, 3, 3, 3, 1]);
        assert_eq!(links(false), [6, 3, 3, 1, 1]);
    }

    /// A ring is named by all that tells it from others.
    #[test]
    fn rings_have_names() {
        let name = "4 stations, closed, timeout 2^39 U, draw 1";
        assert_eq!(four(true).to_string(), name);
        let shorter = Ring {
            timeout: Some(1 << 38),
            ..four(false)
        };
        let name = "4 stations, open, timeout 2^38 U, draw 1";
        assert_eq!(shorter.to_string(), name);
    }
}
