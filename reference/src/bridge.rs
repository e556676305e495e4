//! The bridge: its ports, the station's own clock and the calls.

use crate::answer::{
    Answer, BAD_LENGTH, BAD_SETUP, BEYOND_RANGE, DONE, NO_CLOCK, NO_LINK, OUT_OF_RANGE,
    OUT_OF_REACH, OUT_OF_SEQUENCE, TOO_FEW_SAMPLES,
};
use crate::frame::{self, Fields, Version, FRAME_LEN, MAC_LEN, PRECEDENCE_WORST};
use crate::order::{InTurn, Order, Places};
use crate::port::{Heard, Port};
use crate::rules::{self, HOP_LAST, HOP_NONE, REACH_END, STAMPED_MOST};
use crate::samples::{Sample, Samples};
use crate::times::{distance, grand, is_local, next_count, spread};
use std::ops::RangeInclusive;

/// The most ports that a bridge has.
pub const PORTS_MOST: usize = 8;
/// The timeouts that can be set.
pub const TIMEOUTS: RangeInclusive<u64> = 1 << 36..=1 << 46;
/// The timeout where none is given.
pub const TIMEOUT_DEFAULT: u64 = 1 << 39;
/// The greatest back time that can be set.
pub const BACK_MOST: u64 = (1 << 39) - 1;
/// The back time where none is given.
pub const BACK_DEFAULT: u64 = 16_492_674_417;
/// The ports that a listener has.
pub const LISTENER_PORTS: u8 = 1;
/// The back time that a listener has.
pub const LISTENER_BACK: u64 = 0;
/// The number that stands for the station's own clock.
pub const OWN: u8 = 0;

/// What a station is set up as: a full bridge, which sends the chosen clock on, or a listener, which sends so that its neighbour can measure the cable.
#[derive(Clone, Copy, Debug, Default, PartialEq, Eq)]
pub enum Profile {
    #[default]
    Full,
    Listener,
}

/// What a setup is given.
#[derive(Clone, Copy, Debug, Default, PartialEq, Eq)]
pub struct Plan {
    pub profile: Profile,
    pub ports: u8,
    pub mac: [u8; MAC_LEN],
    pub precedence: u128,
    pub capable: bool,
    pub timeout: Option<u64>,
    pub back: Option<u64>,
    pub delays: [Option<u64>; PORTS_MOST],
    pub versions: [Version; PORTS_MOST],
}

/// What a setup settles for the whole bridge.
#[derive(Clone, Copy, Debug, Default, PartialEq, Eq)]
pub struct Settings {
    pub profile: Profile,
    pub mac: [u8; MAC_LEN],
    pub precedence: u128,
    pub capable: bool,
    pub timeout: u64,
    pub back: u64,
}

/// The station's own clock.
#[derive(Clone, Copy, Debug, Default, PartialEq, Eq)]
pub struct OwnClock {
    pub last: Option<Heard>,
    pub samples: Samples,
}

/// A candidate: a clock that the station can follow, the better one being less.
#[derive(Clone, Copy, Debug, PartialEq, Eq, PartialOrd, Ord, Hash)]
pub struct Chosen {
    pub precedence: u128,
    pub hop: u8,
    pub port: u8,
}

/// A place where the ports of a bridge are kept.
pub trait Table: AsRef<[Port]> + AsMut<[Port]> {
    /// Makes the place for at most eight ports.
    fn of(ports: &[Port]) -> Self;
}

impl Table for Vec<Port> {
    /// Keeps the ports in a list.
    fn of(ports: &[Port]) -> Self {
        ports.to_vec()
    }
}

/// A bridge over some place for its ports, with some order in which it compares candidates.
#[derive(Clone, Copy, Debug, PartialEq, Eq)]
pub struct Bridge<T, O = InTurn> {
    pub settings: Settings,
    pub own: OwnClock,
    pub ports: T,
    order: O,
}

/// The bridge with its ports in a list.
pub type Listed = Bridge<Vec<Port>>;

/// The calls of a bridge, one after another on one state.
pub trait Calls {
    /// Starts anew from a plan.
    fn setup(&mut self, plan: &Plan) -> Answer;
    /// Sets all links and gives how many are up.
    fn links(&mut self, mask: u8) -> Result<u8, Answer>;
    /// Takes a reading of the station's own clock.
    fn own_clock(&mut self, count: u8, seconds: u64, fraction: u64, now: u64) -> Answer;
    /// Takes a frame that arrived at a port.
    fn receive(&mut self, port: u8, bytes: &[u8], arrival: u64) -> Answer;
    /// Forgets what is stale.
    fn age(&mut self, now: u64) -> Answer;
    /// Gives port and held hop of the clock that is followed.
    fn chosen(&mut self) -> Option<(u8, u8)>;
    /// Gives the candidate at a place of the ranking, 0 for the clock that is followed.
    fn ranked(&mut self, place: u8) -> Option<Chosen>;
    /// Writes the next frame of a port.
    fn send(&mut self, port: u8, departure: u64, output: &mut [u8]) -> Answer;
    /// Gives a clock's drift, if it has one to read.
    fn drift(&mut self, port: u8) -> Result<Option<f64>, Answer>;
    /// Gives the grand time of a latched local time.
    fn stamp(&mut self, latch: u64) -> Result<u128, Answer>;
}

impl<T: Table> Bridge<T> {
    /// Makes the bridge that a refused setup leaves, which compares one port after another.
    pub fn empty() -> Self {
        Self::comparing(InTurn)
    }
}

impl<T: Table, O: Order> Bridge<T, O> {
    /// Makes the bridge that a refused setup leaves, which compares in an order.
    pub fn comparing(order: O) -> Self {
        Bridge {
            settings: Settings::default(),
            own: OwnClock::default(),
            ports: T::of(&[]),
            order,
        }
    }

    /// Makes a bridge after a plan whose values are in range.
    fn planned(plan: &Plan, order: O) -> Option<Self> {
        let ports = plan.planned_ports()?;
        let timeout = plan.timeout.unwrap_or(TIMEOUT_DEFAULT);
        let back = plan.back.unwrap_or(BACK_DEFAULT);
        if !TIMEOUTS.contains(&timeout) || back > BACK_MOST {
            return None;
        }
        if plan.profile == Profile::Listener && !plan.only_listens(back) {
            return None;
        }
        Some(Bridge {
            settings: Settings {
                profile: plan.profile,
                mac: plan.mac,
                precedence: plan.precedence,
                capable: plan.capable,
                timeout,
                back,
            },
            own: OwnClock::default(),
            ports: T::of(&ports),
            order,
        })
    }

    /// Gives the place of a port in the table.
    fn place(&self, port: u8) -> Option<usize> {
        let place = usize::from(port).checked_sub(1)?;
        (place < self.ports.as_ref().len()).then_some(place)
    }

    /// Gives the best of all clocks that can be followed, and goes on to the order of the next choice.
    fn choose(&mut self) -> Option<Chosen> {
        let chosen = self.best();
        self.order.turn();
        chosen
    }

    /// Gives the best of all clocks that can be followed.
    pub fn best(&self) -> Option<Chosen> {
        let own = self.settings.candidate();
        let heard = (1..)
            .zip(self.ports.as_ref())
            .filter_map(|(number, port)| Chosen::heard(number, port));
        self.order.best(own.into_iter().chain(heard))
    }

    /// Gives the clock at a place of the ranking: all that can be followed, listed afresh and sorted from best to worst.
    pub fn ranked_at(&self, place: u8) -> Option<Chosen> {
        let mut places = self.candidates();
        self.order.mix(&mut places);
        places.sort();
        let mut ranking = places.iter().flatten();
        ranking.nth(usize::from(place)).copied()
    }

    /// Lists the own clock and every port, each as a candidate or none.
    fn candidates(&self) -> Places {
        let mut places = Places::default();
        places[usize::from(OWN)] = self.settings.candidate();
        for (number, port) in (1..).zip(self.ports.as_ref()) {
            places[usize::from(number)] = Chosen::heard(number, port);
        }
        places
    }

    /// Gives the samples of the own clock or of a port that is there.
    pub fn samples(&self, port: u8) -> Option<&Samples> {
        if port == OWN {
            return Some(&self.own.samples);
        }
        self.place(port)
            .map(|place| &self.ports.as_ref()[place].record.samples)
    }

    /// Gives the chosen clock with its oldest and its newest sample, or refuses.
    fn followed(&mut self) -> Result<(Chosen, Sample, Sample), Answer> {
        let chosen = self.choose().ok_or(NO_CLOCK)?;
        let (oldest, newest) = self
            .samples(chosen.port)
            .and_then(Samples::ends)
            .ok_or(TOO_FEW_SAMPLES)?;
        Ok((chosen, oldest, newest))
    }

    /// Gives the fields of a frame that tell of a clock in a version, those of a station and of a link being zeros, or refuses.
    fn told(&mut self, version: Version, departure: u64) -> Result<Fields, Answer> {
        let told = match self.settings.profile {
            Profile::Full => self.told_of_chosen(version, departure)?,
            Profile::Listener => told_by_listener(),
        };
        Ok(Fields { version, ..told })
    }

    /// Gives the fields that tell of the chosen clock, with the grand time for a departure and the errorTime of a version, or refuses.
    fn told_of_chosen(&mut self, version: Version, departure: u64) -> Result<Fields, Answer> {
        let (chosen, oldest, newest) = self.followed()?;
        if spread(departure, newest.local) >= REACH_END {
            return Err(OUT_OF_REACH);
        }
        let back = self.settings.back;
        let rate = rules::sample_rate(oldest.point(), newest.point());
        let sent = rules::sent_grand(rate, newest.point(), back, departure);
        let error = match version {
            Version::TWO => as_error(rules::sent_error(rate, newest.error, back))?,
            _ => newest.error,
        };
        Ok(Fields {
            precedence: chosen.precedence,
            hop: chosen.hop,
            grand: as_grand(sent)?,
            error,
            ..Fields::default()
        })
    }
}

/// Gives the fields that tell of a clock in a listener's frame: the worst precedence, the last hop, and grand time and error zero.
fn told_by_listener() -> Fields {
    Fields {
        precedence: PRECEDENCE_WORST,
        hop: HOP_LAST,
        ..Fields::default()
    }
}

/// Gives a number that was worked out as a grand time, or refuses.
fn as_grand(time: i128) -> Result<u128, Answer> {
    if rules::fits_grand(time) {
        Ok(time as u128)
    } else {
        Err(BEYOND_RANGE)
    }
}

/// Gives a number that was worked out as an errorTime, or refuses.
fn as_error(error: i128) -> Result<i32, Answer> {
    i32::try_from(error).map_err(|_| BEYOND_RANGE)
}

impl Plan {
    /// Gives the ports that are planned, where there are one to eight, each with a delay and a version that can be set.
    fn planned_ports(&self) -> Option<Vec<Port>> {
        let delays = self.delays.get(..usize::from(self.ports))?;
        let ports: Vec<Port> = delays
            .iter()
            .zip(self.versions)
            .map(|(delay, version)| Port::new(*delay, version))
            .collect();
        (!ports.is_empty() && ports.iter().all(Port::can_be_set)).then_some(ports)
    }

    /// Says whether ports, own clock and back time are those that a listener has.
    fn only_listens(&self, back: u64) -> bool {
        self.ports == LISTENER_PORTS && !self.capable && back == LISTENER_BACK
    }
}

impl Settings {
    /// Gives the own clock as a candidate where the station is capable.
    fn candidate(&self) -> Option<Chosen> {
        self.capable.then_some(Chosen {
            precedence: self.precedence,
            hop: 0,
            port: OWN,
        })
    }
}

impl Chosen {
    /// Gives the clock that a port hears as a candidate where there is an announcement.
    fn heard(number: u8, port: &Port) -> Option<Chosen> {
        let held = port.record.announcement?;
        Some(Chosen {
            precedence: held.precedence,
            hop: held.hop,
            port: number,
        })
    }
}

impl OwnClock {
    /// Takes a reading of a capable station's clock.
    fn take(&mut self, count: u8, grand: u128, now: u64) -> Answer {
        let before = self.last.replace(Heard { count, time: now });
        match before.filter(|heard| count == next_count(heard.count)) {
            Some(heard) => {
                let sample = Sample {
                    grand,
                    local: heard.time,
                    error: 0,
                };
                self.samples.take(sample, true);
                DONE
            }
            None => OUT_OF_SEQUENCE,
        }
    }
}

impl<T: Table, O: Order> Calls for Bridge<T, O> {
    /// Starts anew from a plan, without ports if it is refused.
    #[cfg_attr(feature = "calls", inline(never))]
    fn setup(&mut self, plan: &Plan) -> Answer {
        match Self::planned(plan, self.order) {
            Some(bridge) => {
                *self = bridge;
                DONE
            }
            None => {
                *self = Self::comparing(self.order);
                BAD_SETUP
            }
        }
    }

    /// Sets each port's link from its bit, unless a bit has no port.
    #[cfg_attr(feature = "calls", inline(never))]
    fn links(&mut self, mask: u8) -> Result<u8, Answer> {
        let ports = self.ports.as_mut();
        if usize::from(mask) >= 1 << ports.len() {
            return Err(OUT_OF_RANGE);
        }
        for (bit, port) in ports.iter_mut().enumerate() {
            port.set_link(mask & (1 << bit) != 0);
        }
        Ok(ports.iter().map(|port| u8::from(port.linked)).sum())
    }

    /// Takes a reading that belongs to the call before.
    #[cfg_attr(feature = "calls", inline(never))]
    fn own_clock(&mut self, count: u8, seconds: u64, fraction: u64, now: u64) -> Answer {
        match grand(seconds, fraction) {
            Some(time) if is_local(now) => {
                if self.settings.capable {
                    self.own.take(count, time, now)
                } else {
                    NO_CLOCK
                }
            }
            _ => OUT_OF_RANGE,
        }
    }

    /// Hands a frame to its port, with the chosen hop as it stands before.
    #[cfg_attr(feature = "calls", inline(never))]
    fn receive(&mut self, port: u8, bytes: &[u8], arrival: u64) -> Answer {
        match self.place(port) {
            Some(place) if is_local(arrival) => {
                let chosen_hop = self.choose().map_or(HOP_NONE, |chosen| chosen.hop);
                self.ports.as_mut()[place].receive(chosen_hop, bytes, arrival)
            }
            _ => OUT_OF_RANGE,
        }
    }

    /// Ages each port.
    #[cfg_attr(feature = "calls", inline(never))]
    fn age(&mut self, now: u64) -> Answer {
        if !is_local(now) {
            return OUT_OF_RANGE;
        }
        let timeout = self.settings.timeout;
        for port in self.ports.as_mut() {
            port.age(now, timeout);
        }
        DONE
    }

    /// Gives port and held hop of the best clock.
    #[cfg_attr(feature = "calls", inline(never))]
    fn chosen(&mut self) -> Option<(u8, u8)> {
        self.choose().map(|chosen| (chosen.port, chosen.hop))
    }

    /// Gives the candidate at a place of the ranking, and goes on to the order of the next.
    #[cfg_attr(feature = "calls", inline(never))]
    fn ranked(&mut self, place: u8) -> Option<Chosen> {
        let ranked = self.ranked_at(place);
        self.order.turn();
        ranked
    }

    /// Writes the next frame of a port, or refuses and leaves the output alone.
    #[cfg_attr(feature = "calls", inline(never))]
    fn send(&mut self, port: u8, departure: u64, output: &mut [u8]) -> Answer {
        let place = match self.place(port) {
            Some(place) if is_local(departure) => place,
            _ => return OUT_OF_RANGE,
        };
        if !self.ports.as_ref()[place].linked {
            return NO_LINK;
        }
        if output.len() < FRAME_LEN {
            return BAD_LENGTH;
        }
        let count = self.ports.as_mut()[place].use_count();
        let version = self.ports.as_ref()[place].version;
        let told = match self.told(version, departure) {
            Ok(told) => told,
            Err(refusal) => return refusal,
        };
        let echo = self.ports.as_ref()[place].record.echo;
        let (that_tx, that_rx) = echo.unwrap_or((0, 0));
        let fields = Fields {
            sa: self.settings.mac,
            count,
            local: departure,
            that_tx,
            that_rx,
            ..told
        };
        frame::write(&fields, output)
    }

    /// Gives the drift over a clock's own samples, from the oldest to the newest.
    #[cfg_attr(feature = "calls", inline(never))]
    fn drift(&mut self, port: u8) -> Result<Option<f64>, Answer> {
        let samples = self.samples(port).ok_or(OUT_OF_RANGE)?;
        Ok(samples.rate().map(rules::parts_per_million))
    }

    /// Gives the grand time of a latch on the line through the chosen clock's oldest and newest sample.
    #[cfg_attr(feature = "calls", inline(never))]
    fn stamp(&mut self, latch: u64) -> Result<u128, Answer> {
        if !is_local(latch) {
            return Err(OUT_OF_RANGE);
        }
        let (_, oldest, newest) = self.followed()?;
        let distance = distance(latch, newest.local);
        if distance.abs() > STAMPED_MOST {
            return Err(OUT_OF_REACH);
        }
        as_grand(rules::stamp(oldest.point(), newest.point(), distance))
    }
}
