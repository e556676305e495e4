//! Lives among neighbours whose clocks drift and who answer what the bridge really sent.

use super::clocks::{self, Clock};
use super::extras;
use super::limits;
use super::panel;
use super::passes;
use super::pen::Pen;
use super::plans;
use super::random::Random;
use super::timestamps;
use super::versions;
use crate::answer::DONE;
use crate::bridge::Plan;
use crate::frame::{Fields, Version};
use crate::port::Heard;
use crate::times::{next_count, parts, LOCAL_END, PART_END};

/// How long a neighbour mostly keeps its echo, a quarter of a second.
const ECHO_KEPT: i128 = 1 << 38;

/// In a thousand neighbours, how many have errorTimes about the ends of 32 bits.
const ERRING: u64 = 150;
/// In a thousand ticks, in how many a grand master's clock bends.
const BENDING: u64 = 50;

/// A grand master somewhere behind the neighbours.
struct Master {
    clock: Clock,
    precedence: u128,
}

/// A station at the other end of a link.
struct Neighbour {
    clock: Clock,
    link: i128,
    noise: u64,
    master: usize,
    hop: u8,
    count: u8,
    departed: Option<i128>,
    echo: (u64, u64),
    heard: Option<Heard>,
    heard_at: i128,
    forgetful: bool,
    silent: u64,
    bridge_left: Option<u64>,
    /// The version of its frames, or none where each has its own by chance.
    version: Option<Version>,
    /// Whether the errorTimes of its frames are about the ends of 32 bits.
    erring: bool,
}

impl Neighbour {
    /// Makes the frame that leaves now.
    fn frame(&mut self, random: &mut Random, now: i128, masters: &[Master]) -> Fields {
        let before = self.departed.unwrap_or(now);
        if self.forgetful && now - self.heard_at > ECHO_KEPT {
            self.echo = (0, 0);
        }
        let master = &masters[self.master];
        let fields = Fields {
            version: self.version.unwrap_or_else(|| versions::known(random)),
            sa: [2, 0, 0, 0, 1, self.hop],
            precedence: master.precedence,
            hop: self.hop,
            count: self.count,
            grand: master.clock.grand(before),
            local: self.clock.local(before + random.about(self.noise)),
            that_tx: self.echo.0,
            that_rx: self.echo.1,
            error: if self.erring {
                versions::about_end(random)
            } else {
                random.about(1000) as i32
            },
        };
        self.departed = Some(now);
        self.count = next_count(self.count);
        fields
    }

    /// Hears a frame of the bridge.
    fn hear(&mut self, fields: &Fields, now: i128) {
        let time = self.clock.local(now);
        let heard = Heard {
            count: fields.count,
            time,
        };
        if let Some(before) = self.heard.replace(heard) {
            if fields.count == next_count(before.count) {
                self.echo = (fields.local, before.time);
                self.heard_at = now;
            }
        }
    }

    /// Starts anew as after a break of the link.
    fn restart(&mut self, random: &mut Random) {
        self.departed = None;
        self.echo = (0, 0);
        self.heard = None;
        self.bridge_left = None;
        if random.often(500) {
            self.count = 0;
        }
    }
}

/// A bridge among its neighbours.
struct Network {
    time: i128,
    tick: u64,
    wild: bool,
    clock: Clock,
    masters: Vec<Master>,
    neighbours: Vec<Neighbour>,
    own_before: i128,
    own_count: u8,
    capable: bool,
}

/// Lives one life.
pub fn live(pen: &mut Pen) {
    if pen.random.often(300) {
        let refused = plans::refused(&mut pen.random);
        pen.setup(&refused);
    }
    let plan = plans::good(&mut pen.random);
    pen.setup(&plan);
    if pen.random.often(300) {
        extras::edge_stamp(pen);
    }
    let mut network = Network::around(&mut pen.random, &plan);
    let all = ((1_u16 << plan.ports) - 1) as u8;
    pen.links(all);
    let ticks = pen.random.pick(&[10, 30, 60, 60, 120, 120, 300]);
    for _ in 0..ticks {
        if pen.done() {
            return;
        }
        network.step(pen);
    }
}

impl Network {
    /// Makes the neighbours for a plan.
    fn around(random: &mut Random, plan: &Plan) -> Network {
        let tick = clocks::tick(random);
        let wild = random.often(80);
        let masters = (0..3).map(|_| master(random, tick, wild)).collect();
        let mut network = Network {
            time: 0,
            tick,
            wild,
            clock: Clock::of_local(random, tick, wild),
            masters,
            neighbours: Vec::new(),
            own_before: 0,
            own_count: random.bits() as u8,
            capable: plan.capable,
        };
        for fixed in &plan.delays[..usize::from(plan.ports)] {
            let neighbour = network.neighbour(random, *fixed);
            network.neighbours.push(neighbour);
        }
        network
    }

    /// Makes a neighbour.
    fn neighbour(&self, random: &mut Random, fixed: Option<u64>) -> Neighbour {
        let measured = clocks::cable(random, self.tick);
        let noise = match random.below(6) {
            0 => self.tick / 20_000,
            1 | 2 => 100,
            _ => 0,
        };
        Neighbour {
            clock: Clock::of_local(random, self.tick, self.wild),
            link: i128::from(fixed.unwrap_or(measured)),
            noise,
            master: random.below(self.masters.len() as u64) as usize,
            hop: hop(random),
            count: random.pick(&[0, 0, 250, 128]),
            departed: None,
            echo: (0, 0),
            heard: None,
            heard_at: 0,
            forgetful: random.often(950),
            silent: 0,
            bridge_left: None,
            version: random.pick(&[Some(Version::ONE), Some(Version::TWO), None]),
            erring: random.often(ERRING),
        }
    }

    /// Lets one tick pass.
    fn step(&mut self, pen: &mut Pen) {
        self.time += clocks::next_tick(&mut pen.random, self.tick);
        if pen.random.often(BENDING) {
            self.bend(&mut pen.random);
        }
        for place in 0..self.neighbours.len() {
            if self.neighbours[place].silent > 0 {
                self.neighbours[place].silent -= 1;
            } else {
                self.arrive(pen, place);
            }
        }
        if self.capable && pen.random.often(900) {
            self.read_own(pen);
        }
        for place in 0..self.neighbours.len() {
            if pen.random.often(970) {
                self.send(pen, place);
            }
        }
        self.happen(pen);
    }

    /// Gives a grand master's clock another drift from now on.
    fn bend(&mut self, random: &mut Random) {
        let master = random.index(self.masters.len());
        let clock = &mut self.masters[master].clock;
        clock.bend(random, self.wild, self.time);
    }

    /// Gives a time within the tick, a given part of it after its start.
    fn soon(&self, random: &mut Random, parts: u64) -> i128 {
        self.time + clocks::within_tick(random, self.tick, parts)
    }

    /// Lets a neighbour's frame leave and mostly arrive.
    fn arrive(&mut self, pen: &mut Pen, place: usize) {
        let now = self.soon(&mut pen.random, 0);
        let neighbour = &mut self.neighbours[place];
        let fields = neighbour.frame(&mut pen.random, now, &self.masters);
        let arrival = self.clock.local(now + neighbour.link);
        extras::arrive(pen, (place + 1) as u8, fields, arrival);
    }

    /// Takes a reading of the own clock, which is for the reading before.
    fn read_own(&mut self, pen: &mut Pen) {
        let now = self.soon(&mut pen.random, 2);
        let grand = self.masters[0].clock.grand(self.own_before);
        let (mut seconds, mut fraction) = parts(grand);
        self.own_count = next_count(self.own_count);
        let mut time = self.clock.local(now);
        match pen.random.below(200) {
            0 => seconds += PART_END,
            1 => fraction += PART_END,
            2 => time += LOCAL_END,
            3 | 4 => self.own_count = pen.random.bits() as u8,
            _ => {}
        }
        if pen.own_clock(self.own_count, seconds, fraction, time) != crate::answer::OUT_OF_RANGE {
            self.own_before = now;
        }
    }

    /// Sends a frame to a neighbour, with the departure of the one before.
    fn send(&mut self, pen: &mut Pen, place: usize) {
        let now = self.soon(&mut pen.random, 4);
        let time = self.clock.local(now);
        let neighbour = &mut self.neighbours[place];
        let port = (place + 1) as u8;
        if let Some(fields) = extras::depart(pen, port, &mut neighbour.bridge_left, time) {
            neighbour.hear(&fields, now + neighbour.link);
        }
    }

    /// Lets some of the rarer things happen.
    fn happen(&mut self, pen: &mut Pen) {
        let now = self.clock.local(self.soon(&mut pen.random, 6));
        let ports = self.neighbours.len() as u64;
        let place = pen.random.below(ports) as usize;
        if !pen.bridge().ports.iter().all(|port| port.linked) && pen.random.often(150) {
            self.restore_links(pen);
        }
        match pen.random.below(100) {
            0 => self.change_links(pen),
            1 => self.neighbours[place].silent = pen.random.sized(7),
            2 => self.change_master(&mut pen.random, place),
            3 => self.neighbours[place].hop = hop(&mut pen.random),
            4 => self.pause(pen),
            5 => extras::edge_age(pen),
            6..=8 => extras::edge_send(pen),
            9..=10 => self.send(pen, place),
            11..=13 => extras::any_call(pen),
            14..=23 => extras::play_frames(pen),
            24 => self.move_grand(&mut pen.random),
            25..=44 => {
                pen.age(now);
            }
            45..=64 => extras::ask(pen),
            65..=89 => extras::edge_stamp(pen),
            90..=94 => panel::look(pen),
            95..=98 => timestamps::ask(pen),
            _ => passes::ask(pen),
        }
    }

    /// Sets links anew, so that some come and some go.
    fn change_links(&mut self, pen: &mut Pen) {
        let ports = self.neighbours.len() as u32;
        let all = ((1_u16 << ports) - 1) as u8;
        let mask = limits::links(pen.bridge());
        let wanted = match pen.random.below(5) {
            0 => all,
            3 => all.wrapping_add(1),
            1 => mask ^ (1 << pen.random.below(u64::from(ports))),
            2 => pen.random.bits() as u8 & all,
            _ => mask,
        };
        if pen.links(wanted) != DONE {
            return;
        }
        for (bit, neighbour) in self.neighbours.iter_mut().enumerate() {
            if wanted & (1 << bit) == 0 {
                neighbour.restart(&mut pen.random);
            }
        }
        panel::look(pen);
        if wanted != all && pen.random.often(500) {
            pen.chosen();
            self.time += i128::from(self.tick);
            self.restore_links(pen);
        }
    }

    /// Brings all links up.
    fn restore_links(&mut self, pen: &mut Pen) {
        let all = ((1_u16 << self.neighbours.len()) - 1) as u8;
        pen.links(all);
    }

    /// Gives a neighbour another grand master behind it.
    fn change_master(&mut self, random: &mut Random, place: usize) {
        let masters = self.masters.len() as u64;
        self.neighbours[place].master = random.below(masters) as usize;
        if random.often(300) {
            self.neighbours[place].hop = hop(random);
        }
        if random.often(100) {
            let master = random.below(masters) as usize;
            self.masters[master].precedence = plans::precedence(random);
        }
    }

    /// Lets time pass without a frame, at times beyond the timeout.
    fn pause(&mut self, pen: &mut Pen) {
        let most = pen.bridge().settings.timeout;
        self.time += i128::from(pen.random.within(most / 2, most + most / 8));
        if pen.random.often(600) {
            pen.age(self.clock.local(self.time));
            panel::look(pen);
        }
    }

    /// Moves a grand master's time, often to just before its end.
    fn move_grand(&mut self, random: &mut Random) {
        let master = random.below(self.masters.len() as u64) as usize;
        let clock = &mut self.masters[master].clock;
        clock.move_grand(random, self.tick, self.time);
    }
}

/// Makes a grand master.
fn master(random: &mut Random, tick: u64, wild: bool) -> Master {
    Master {
        clock: Clock::of_grand(random, tick, wild),
        precedence: plans::precedence(random),
    }
}

/// Gives a hop, mostly a small one.
fn hop(random: &mut Random) -> u8 {
    match random.below(12) {
        0 => random.pick(&[126, 127, 128, 129, 253, 254, 255]),
        1 => random.bits() as u8,
        _ => random.below(5) as u8,
    }
}
