//! The course of a ring, event after event: it settles, its grand master falls silent, and in the end nobody announces the clock.

use super::cabling::{Cabling, End, Ring};
use super::clock::{in_seconds, Clock, SECOND, TICK};
use super::program::Answers;
use super::row::Rows;
use super::station::{Frame, Setup, Station, Taken};
use crate::lives::random::Random;
use std::collections::BTreeMap;
use std::io;

/// When the grand master falls silent.
pub const SILENCE: u64 = 2 * SECOND;

/// How long after that the clock may be announced at most.
const ANNOUNCED_MOST: u64 = 60 * SECOND;
/// How late a duty is at most, a fifth of a millisecond.
const LATE_MOST: u64 = 219_902_326;
/// The grand time at true time 0, in seconds.
const FIRST_SECOND: u128 = 1_700_000_000;

/// Starts a program for a station.
pub type Starter<'s> = &'s mut dyn FnMut() -> io::Result<Box<dyn Answers>>;

/// What a station does each 10 ms.
#[derive(Clone, Copy, Debug)]
enum Duty {
    ReadOwnClock,
    Age,
    Send(u8),
}

/// What happens at a time.
#[derive(Debug)]
enum Event {
    /// A station does a duty, which it may be late for.
    Duty {
        station: usize,
        duty: Duty,
        planned: u64,
    },
    /// A frame arrives at a port.
    Arrival { port: End, frame: Frame },
}

impl Event {
    /// Gives the place of the station at which it happens.
    fn station(&self) -> usize {
        match self {
            Event::Duty { station, .. } => *station,
            Event::Arrival { port, .. } => port.station,
        }
    }
}

/// A change of the held hop of a station's chosen clock, which is none where no clock is chosen any more.
#[derive(Clone, Copy, Debug, PartialEq, Eq)]
pub struct Change {
    pub time: u64,
    pub station: usize,
    pub hop: Option<u8>,
}

/// What became of a ring.
#[derive(Clone, Debug, Default, PartialEq, Eq)]
pub struct Outcome {
    /// How many frames of the dead clock the ring's stations took.
    pub taken: u64,
    /// How many of these a station took whose chosen hop was below the frame's.
    pub premised: u64,
    /// The longest row of each kind.
    pub longest: Rows,
    /// How long after the silence the clock was announced.
    pub announced: u64,
    /// How far the grand time in a frame that the ring's stations sent after the silence was off, at the most.
    pub off: u64,
    /// The held hops of the chosen clocks, from the start on.
    pub changes: Vec<Change>,
}

/// A ring on its course.
struct Course {
    ring: Ring,
    cabling: Cabling,
    stations: Vec<Station>,
    random: Random,
    time: u64,
    /// What is still to happen, by its time and then by when it was planned.
    events: BTreeMap<(u64, u64), Event>,
    events_planned: u64,
    outcome: Outcome,
}

/// Plays a ring from its start until nobody announces its grand master's clock.
pub fn play(ring: &Ring, start: Starter) -> io::Result<Outcome> {
    let played = Course::new(ring, start).and_then(Course::outcome);
    played.map_err(|error| io::Error::other(format!("{ring}: {error}")))
}

impl Course {
    /// Cables the stations of a ring, sets them up and plans their first duties.
    fn new(ring: &Ring, start: Starter) -> io::Result<Course> {
        let mut random = Random::new(ring.draw);
        let mut course = Course {
            ring: *ring,
            cabling: Cabling::by_chance(ring, &mut random),
            stations: Vec::new(),
            random,
            time: 0,
            events: BTreeMap::new(),
            events_planned: 0,
            outcome: Outcome::default(),
        };
        for place in 0..=ring.master() {
            let station = course.station(place, start()?)?;
            course.stations.push(station);
            course.plan_duties(place);
        }
        Ok(course)
    }

    /// Sets up the station at a place; the grand master alone is capable of a clock of its own.
    fn station(&mut self, place: usize, program: Box<dyn Answers>) -> io::Result<Station> {
        let setup = Setup {
            number: place + 1,
            ports: self.ring.ports(place),
            links: self.cabling.links(place),
            capable: place == self.ring.master(),
            timeout: self.ring.timeout,
        };
        Station::new(&setup, Clock::by_chance(&mut self.random), program)
    }

    /// Plans each duty of a station for the first time; a port without a cable has a phase too, so that those of an open ring
    /// are the closed one's.
    fn plan_duties(&mut self, station: usize) {
        let mut duties = vec![Duty::Age];
        duties.extend((1..=self.ring.ports(station)).map(Duty::Send));
        if station == self.ring.master() {
            duties.push(Duty::ReadOwnClock);
        }
        for duty in duties {
            let phase = self.random.below(TICK);
            if self.has_duty(station, duty) {
                self.plan_duty(station, duty, phase);
            }
        }
    }

    /// Says whether a station has a duty: it sends only at ports with a cable.
    fn has_duty(&self, station: usize, duty: Duty) -> bool {
        match duty {
            Duty::Send(port) => self.cabling.across(End { station, port }).is_some(),
            Duty::Age | Duty::ReadOwnClock => true,
        }
    }

    /// Plans a duty for a time, and by how much the station is late for it.
    fn plan_duty(&mut self, station: usize, duty: Duty, planned: u64) {
        let time = planned + self.random.below(LATE_MOST);
        let event = Event::Duty {
            station,
            duty,
            planned,
        };
        self.plan(time, event);
    }

    /// Plans an event for a time.
    fn plan(&mut self, time: u64, event: Event) {
        self.events.insert((time, self.events_planned), event);
        self.events_planned += 1;
    }

    /// Runs the whole course, and gives what became of the ring.
    fn outcome(mut self) -> io::Result<Outcome> {
        self.settle()?;
        self.outlive()?;
        for station in &mut self.stations {
            station.end()?;
        }
        Ok(self.outcome)
    }

    /// Lets the ring settle until the grand master falls silent; by then every station must have chosen the clock.
    fn settle(&mut self) -> io::Result<()> {
        while self.next_time() < SILENCE {
            self.step()?;
        }
        match self.ring_stations().find(|it| it.chosen().is_none()) {
            None => Ok(()),
            Some(station) => Err(io::Error::other(format!(
                "{station} has not chosen the clock before the silence"
            ))),
        }
    }

    /// Goes on after the silence until nobody announces the clock.
    fn outlive(&mut self) -> io::Result<()> {
        while self.is_announced() {
            if self.time > SILENCE + ANNOUNCED_MOST {
                let seconds = in_seconds(ANNOUNCED_MOST);
                let fault = format!("the clock is still announced {seconds} s after the silence");
                return Err(io::Error::other(fault));
            }
            self.step()?;
        }
        self.outcome.announced = self.time - SILENCE;
        Ok(())
    }

    /// Gives the time of the next event.
    fn next_time(&self) -> u64 {
        let next = self.events.first_key_value();
        next.map_or(u64::MAX, |((time, _), _)| *time)
    }

    /// Gives the ring's own stations.
    fn ring_stations(&self) -> impl Iterator<Item = &Station> {
        self.stations[..self.ring.stations].iter()
    }

    /// Says whether a station of the ring has chosen the clock, or a frame is under way to one.
    fn is_announced(&self) -> bool {
        self.ring_stations().any(|it| it.chosen().is_some())
            || self.events.values().any(|event| self.is_under_way(event))
    }

    /// Says whether an event is the arrival of a frame at a station of the ring.
    fn is_under_way(&self, event: &Event) -> bool {
        matches!(event, Event::Arrival { .. }) && event.station() != self.ring.master()
    }

    /// Lets the next event happen; at the grand master none happens once it is silent.
    fn step(&mut self) -> io::Result<()> {
        let Some(((time, _), event)) = self.events.pop_first() else {
            return Ok(());
        };
        self.time = time;
        let station = event.station();
        if station == self.ring.master() {
            return if time < SILENCE {
                self.happen(event)
            } else {
                Ok(())
            };
        }
        let before = self.chosen_hop(station);
        self.happen(event)?;
        let hop = self.chosen_hop(station);
        if hop != before {
            self.outcome.changes.push(Change { time, station, hop });
        }
        Ok(())
    }

    /// Gives the held hop of a station's chosen clock.
    fn chosen_hop(&self, station: usize) -> Option<u8> {
        self.stations[station].chosen().map(|chosen| chosen.hop)
    }

    /// Has an event happen; a duty comes again after 10 ms.
    fn happen(&mut self, event: Event) -> io::Result<()> {
        match event {
            Event::Duty {
                station,
                duty,
                planned,
            } => {
                self.plan_duty(station, duty, planned + TICK);
                self.do_duty(station, duty)
            }
            Event::Arrival { port, frame } => self.receive(port, &frame),
        }
    }

    /// Has a station do a duty.
    fn do_duty(&mut self, station: usize, duty: Duty) -> io::Result<()> {
        let time = self.time;
        match duty {
            Duty::ReadOwnClock => self.stations[station].read_own_clock(time, grand_at(time)),
            Duty::Age => self.stations[station].age(time),
            Duty::Send(port) => self.send(End { station, port }),
        }
    }

    /// Has a station send at a port; a frame that leaves arrives at the other end of the cable.
    fn send(&mut self, port: End) -> io::Result<()> {
        let sent = self.stations[port.station].send(port.port, self.time)?;
        if let (Some(frame), Some((far, delay))) = (sent, self.cabling.across(port)) {
            self.hold_to_truth(port.station, &frame);
            self.plan(self.time + delay, Event::Arrival { port: far, frame });
        }
        Ok(())
    }

    /// Notes how far the grand time in a frame of the ring's own is off, once the grand master is silent.
    fn hold_to_truth(&mut self, station: usize, frame: &Frame) {
        if self.time >= SILENCE && station != self.ring.master() {
            let off = frame.grand.abs_diff(grand_at(frame.departed)) as u64;
            self.outcome.off = self.outcome.off.max(off);
        }
    }

    /// Has a station receive a frame at a port.
    fn receive(&mut self, port: End, frame: &Frame) -> io::Result<()> {
        match self.stations[port.station].receive(port.port, self.time, frame)? {
            Some(taken) => self.count(&taken),
            None => Ok(()),
        }
    }

    /// Counts a frame that was taken, and holds its rows to the theorems.
    fn count(&mut self, taken: &Taken) -> io::Result<()> {
        self.outcome.longest = self.outcome.longest.or_longer(taken.rows);
        if self.time >= SILENCE {
            self.outcome.taken += 1;
            self.outcome.premised += u64::from(taken.premise);
        }
        match taken.rows.too_long() {
            None => Ok(()),
            Some(fault) => Err(io::Error::other(fault)),
        }
    }
}

/// Gives the grand time at a true time.
fn grand_at(time: u64) -> u128 {
    FIRST_SECOND * u128::from(SECOND) + u128::from(time)
}
