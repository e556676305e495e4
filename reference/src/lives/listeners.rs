//! Lives at cables that have a listener at one end or at both: each far end is a station of its own, which hears what the near one sends and answers by the rules.

use super::clocks::{self, Clock, OwnReader};
use super::extras;
use super::limits;
use super::panel;
use super::pen::Pen;
use super::plans;
use super::random::Random;
use crate::answer::DONE;
use crate::bridge::{Calls, Listed, Plan, Profile, OWN};
use crate::frame::{self, Fields, FRAME_LEN, PRECEDENCE_WORST};
use crate::rules::{HOP_LAST, HOP_NONE};
use crate::times::LOCAL_END;

/// The port that a far station has.
const FAR_PORT: u8 = 1;
/// The link of that port.
const FAR_LINK: u8 = 1;
/// The count from which on a port is now and then sent at until its count has gone round.
const NEARLY_ROUND: u8 = 128;
/// In a thousand full bridges at far ends, how many are capable; the others send nothing unless they hear a clock.
const FAR_CAPABLE: u64 = 900;
/// In a thousand full bridges at the near end, how many are capable.
const NEAR_CAPABLE: u64 = 200;
/// In a thousand full bridges, how many have the worst precedence.
const WORST: u64 = 600;
/// How many calls by chance come after a refused setup, at the most.
const AFTER_REFUSED: u64 = 6;

/// The station at the far end of a cable.
struct Far {
    station: Listed,
    clock: Clock,
    own: OwnReader,
    cable: i128,
    jitter: u64,
    hop: Option<u8>,
    left: Option<i128>,
    near_left: Option<u64>,
    silent: u64,
}

impl Far {
    /// Makes a station of a profile at the end of a cable with a delay.
    fn at(random: &mut Random, tick: u64, profile: Profile, cable: u64) -> Far {
        let plan = match profile {
            Profile::Full => full(random, 1, FAR_CAPABLE),
            Profile::Listener => plans::listener(random),
        };
        let mut station = Listed::empty();
        station.setup(&plan);
        let mut far = Far {
            station,
            clock: Clock::of_local(random, tick, false),
            own: OwnReader::of(Clock::of_grand(random, tick, false)),
            cable: i128::from(cable),
            jitter: random.pick(&[0, 0, 0, 100, tick / 20_000]),
            hop: None,
            left: None,
            near_left: None,
            silent: 0,
        };
        if profile == Profile::Full {
            far.hop = said_hop(random, plan.precedence);
        }
        far.restart();
        far
    }

    /// Takes the link away and brings it up again.
    fn restart(&mut self) {
        let _none = self.station.links(0);
        let _one = self.station.links(FAR_LINK);
        self.left = None;
        self.near_left = None;
    }

    /// Lets the station age what is stale and read its own clock, if it has one.
    fn go_on(&mut self, now: i128) {
        let time = self.clock.local(now);
        self.station.age(time);
        let reading = self.own.read(now);
        self.station
            .own_clock(reading.count, reading.seconds, reading.fraction, time);
    }

    /// Gives the frame that leaves now, where the station has one to send; its clock may be said to be farther away than it is.
    fn frame(&mut self, now: i128) -> Option<Fields> {
        let departure = self.clock.local(self.left.unwrap_or(now));
        let mut bytes = [0; FRAME_LEN];
        let answer = self.station.send(FAR_PORT, departure, &mut bytes);
        self.left = (answer == DONE).then_some(now);
        let fields = frame::read(&bytes).ok()?;
        Some(Fields {
            hop: self.hop.unwrap_or(fields.hop),
            ..fields
        })
    }

    /// Hears a frame that left the near station.
    fn hear(&mut self, fields: &Fields, now: i128) {
        let arrival = self.clock.local(now + self.cable);
        let bytes = frame::put_together(fields);
        self.station.receive(FAR_PORT, &bytes, arrival);
    }
}

/// Gives the hop that a full bridge's frames are given instead of their own, if one: often the last where the precedence is the worst.
fn said_hop(random: &mut Random, precedence: u128) -> Option<u8> {
    if precedence == PRECEDENCE_WORST && random.often(800) {
        return Some(HOP_LAST);
    }
    let hop = random.pick(&[0, 1, 3, 127, 253, HOP_LAST, HOP_NONE]);
    random.often(300).then_some(hop)
}

/// Gives the plan of a full bridge of so many ports, capable so many times in a thousand, whose precedence is often the worst.
fn full(random: &mut Random, ports: u8, capable: u64) -> Plan {
    let plan = plans::of_ports(random, ports);
    let worst = random.often(WORST).then_some(PRECEDENCE_WORST);
    Plan {
        precedence: worst.unwrap_or(plan.precedence),
        capable: random.often(capable),
        ..plan
    }
}

/// The near station's cables.
struct Cables {
    time: i128,
    tick: u64,
    clock: Clock,
    own: OwnReader,
    capable: bool,
    fars: Vec<Far>,
}

/// Lives one life.
pub fn live(pen: &mut Pen) {
    if pen.random.often(700) {
        be_refused(pen);
    }
    let plan = near(&mut pen.random);
    pen.setup(&plan);
    if pen.random.often(300) {
        look_around(pen);
    }
    let mut cables = Cables::at(&mut pen.random, &plan);
    cables.restore_links(pen);
    if pen.random.often(300) {
        look_around(pen);
    }
    let ticks = pen.random.pick(&[50, 100, 200, 400]);
    for _ in 0..ticks / u64::from(plan.ports) {
        if pen.done() {
            return;
        }
        cables.step(pen);
    }
}

/// Has setups of a listener refused, and makes some calls on what is left.
fn be_refused(pen: &mut Pen) {
    for _ in 0..pen.random.within(1, 4) {
        let plan = plans::refused_listener(&mut pen.random);
        pen.setup(&plan);
    }
    for _ in 0..pen.random.below(AFTER_REFUSED) {
        extras::any_call(pen);
    }
}

/// Gives the plan of the near station: a listener, or a full bridge that is to hear one.
fn near(random: &mut Random) -> Plan {
    if random.often(500) {
        return plans::listener(random);
    }
    let ports = random.pick(&[1, 1, 2, 2, 2, 3, 4, 8]);
    full(random, ports, NEAR_CAPABLE)
}

/// Gives the profile of a far station: a listener mostly hears a full bridge, and a full bridge as often a listener as another one.
fn far_profile(random: &mut Random, near: Profile) -> Profile {
    let listener = match near {
        Profile::Full => 500,
        Profile::Listener => 250,
    };
    if random.often(listener) {
        Profile::Listener
    } else {
        Profile::Full
    }
}

/// Makes each call that a station answers though it has heard nothing yet.
fn look_around(pen: &mut Pen) {
    extras::edge_stamp(pen);
    extras::ask(pen);
    panel::look(pen);
    send_anyhow(pen);
    extras::edge_send(pen);
}

/// Sends with a port, a departure and a length that may all be wrong.
fn send_anyhow(pen: &mut Pen) {
    let port = extras::any_port(pen);
    let departure = limits::any_local(&mut pen.random);
    let length = extras::output_length(&mut pen.random);
    pen.send(port, departure, length);
}

impl Cables {
    /// Lays a cable to each port of a plan.
    fn at(random: &mut Random, plan: &Plan) -> Cables {
        let tick = clocks::tick(random);
        let mut cables = Cables {
            time: 0,
            tick,
            clock: Clock::of_local(random, tick, false),
            own: OwnReader::of(Clock::of_grand(random, tick, false)),
            capable: plan.capable,
            fars: Vec::new(),
        };
        for fixed in &plan.delays[..usize::from(plan.ports)] {
            let profile = far_profile(random, plan.profile);
            let cable = fixed.unwrap_or_else(|| clocks::cable(random, tick));
            cables.fars.push(Far::at(random, tick, profile, cable));
        }
        cables
    }

    /// Lets one tick pass.
    fn step(&mut self, pen: &mut Pen) {
        self.time += clocks::next_tick(&mut pen.random, self.tick);
        for place in 0..self.fars.len() {
            if self.fars[place].silent > 0 {
                self.fars[place].silent -= 1;
            } else {
                self.arrive(pen, place);
            }
        }
        if self.capable {
            self.read_own(pen);
        }
        for place in 0..self.fars.len() {
            if pen.random.often(930) {
                self.send(pen, place);
            }
        }
        self.happen(pen);
    }

    /// Gives a time within the tick, a given part of it after its start.
    fn soon(&self, random: &mut Random, parts: u64) -> i128 {
        self.time + clocks::within_tick(random, self.tick, parts)
    }

    /// Lets a far station's frame leave and mostly arrive.
    fn arrive(&mut self, pen: &mut Pen, place: usize) {
        let now = self.soon(&mut pen.random, 0);
        let far = &mut self.fars[place];
        far.go_on(now);
        let Some(fields) = far.frame(now) else {
            return;
        };
        let late = i128::from(pen.random.within(0, far.jitter));
        let arrival = self.clock.local(now + far.cable + late);
        extras::arrive(pen, (place + 1) as u8, fields, arrival);
    }

    /// Takes a reading of the near station's own clock.
    fn read_own(&mut self, pen: &mut Pen) {
        let now = self.soon(&mut pen.random, 2);
        let reading = self.own.read(now);
        let time = self.clock.local(now);
        pen.own_clock(reading.count, reading.seconds, reading.fraction, time);
    }

    /// Sends a frame to a far station, with the departure of the one before.
    fn send(&mut self, pen: &mut Pen, place: usize) {
        let now = self.soon(&mut pen.random, 4);
        let time = self.clock.local(now);
        let far = &mut self.fars[place];
        let port = (place + 1) as u8;
        if let Some(fields) = extras::depart(pen, port, &mut far.near_left, time) {
            far.hear(&fields, now);
        }
    }

    /// Lets some of the rarer things happen.
    fn happen(&mut self, pen: &mut Pen) {
        let now = self.clock.local(self.soon(&mut pen.random, 6));
        let place = pen.random.index(self.fars.len());
        if limits::links(pen.bridge()) != self.all() && pen.random.often(300) {
            self.restore_links(pen);
        }
        match pen.random.below(100) {
            0 => self.lose_link(pen, place),
            1..=4 if self.fars.len() > 1 => self.lose_chosen(pen),
            5 | 6 => self.fars[place].silent = pen.random.sized(8),
            7 => self.pause(pen),
            8 => extras::edge_age(pen),
            9 | 10 => self.move_grand(&mut pen.random, place),
            11..=21 => extras::edge_send(pen),
            22..=24 => send_anyhow(pen),
            25 => self.read_own(pen),
            26..=35 => {
                pen.age(now);
            }
            36..=45 => extras::ask(pen),
            46..=65 => extras::edge_stamp(pen),
            66..=75 => panel::look(pen),
            76..=83 => extras::any_call(pen),
            84..=86 => self.send_round(pen, place),
            87 => {
                pen.age(LOCAL_END);
            }
            _ => {}
        }
    }

    /// Gives the mask of all links.
    fn all(&self) -> u8 {
        ((1_u16 << self.fars.len()) - 1) as u8
    }

    /// Brings all links up.
    fn restore_links(&mut self, pen: &mut Pen) {
        pen.links(self.all());
    }

    /// Takes one link away at both ends.
    fn lose_link(&mut self, pen: &mut Pen, place: usize) {
        let mask = limits::links(pen.bridge());
        pen.links(mask & !(1 << place));
        self.fars[place].restart();
        panel::look(pen);
    }

    /// Takes the link of the chosen clock away, where that is heard at a port.
    fn lose_chosen(&mut self, pen: &mut Pen) {
        let chosen = pen.bridge().best();
        if let Some(port) = chosen.map(|clock| clock.port).filter(|port| *port != OWN) {
            self.lose_link(pen, usize::from(port) - 1);
        }
    }

    /// Lets time pass without a frame, at times beyond the timeout.
    fn pause(&mut self, pen: &mut Pen) {
        let most = pen.bridge().settings.timeout;
        self.time += i128::from(pen.random.within(most / 2, most + most / 8));
        if pen.random.often(600) {
            pen.age(self.clock.local(self.time));
            panel::look(pen);
        }
    }

    /// Moves the grand time of a far station's own clock, often to just before its end.
    fn move_grand(&mut self, random: &mut Random, place: usize) {
        let clock = &mut self.fars[place].own.clock;
        clock.move_grand(random, self.tick, self.time);
    }

    /// Sends at a port until its count has gone round, where it nearly has.
    fn send_round(&mut self, pen: &mut Pen, place: usize) {
        let count = |pen: &Pen| {
            let port = pen.bridge().ports.get(place);
            port.map_or(0, |port| port.record.next_count)
        };
        while count(pen) >= NEARLY_ROUND && !pen.done() {
            self.time += i128::from(self.tick);
            self.send(pen, place);
        }
    }
}
