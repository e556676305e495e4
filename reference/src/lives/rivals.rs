//! Lives of clocks that stand close to one another: frames lift them above and drop them below their rivals, links go and come, and ports age while others are heard.

use super::extras;
use super::limits;
use super::panel;
use super::pen::Pen;
use super::plans;
use super::random::Random;
use super::versions;
use crate::bridge::{Chosen, Plan, OWN};
use crate::frame::{self, Fields};
use crate::port::Announcement;
use crate::rules::{self, HOP_NONE};
use crate::times::{moved, next_count, LOCAL_END};

/// The local time that has come, and the most that it goes on by until the next frame.
struct Rivals {
    now: u64,
    step: u64,
}

/// Lives one life.
pub fn live(pen: &mut Pen) {
    let ports = pen.random.pick(&[2, 3, 4, 6, 8, 8]);
    let plan = Plan {
        capable: pen.random.often(600),
        ..plans::of_ports(&mut pen.random, ports)
    };
    pen.setup(&plan);
    if pen.random.often(500) {
        panel::show(pen);
    }
    let all = ((1_u16 << ports) - 1) as u8;
    pen.links(all);
    let mut rivals = Rivals {
        now: pen.random.below(LOCAL_END),
        step: pen.bridge().settings.timeout / u64::from(ports),
    };
    let steps = pen.random.pick(&[50, 100, 200]);
    for _ in 0..steps {
        if pen.done() {
            return;
        }
        rivals.step(pen, all);
    }
}

impl Rivals {
    /// Makes one call, mostly an arrival, and often looks at the ranking after it.
    fn step(&mut self, pen: &mut Pen, all: u8) {
        match pen.random.below(100) {
            0..=3 => lose_links(pen),
            4..=7 => {
                pen.links(all);
            }
            8..=12 => {
                pen.age(self.now);
            }
            13 => extras::edge_age(pen),
            14..=17 => extras::edge_send(pen),
            18..=20 => extras::edge_stamp(pen),
            21 => extras::any_call(pen),
            _ => self.arrive(pen),
        }
        if pen.random.often(350) {
            panel::look(pen);
        }
    }

    /// Has a frame arrive at some port.
    fn arrive(&mut self, pen: &mut Pen) {
        self.now = moved(self.now, i128::from(pen.random.below(self.step)));
        let place = pen.random.index(pen.bridge().ports.len());
        let bytes = frame::put_together(&rival_frame(pen, place));
        pen.receive((place + 1) as u8, &bytes, self.now);
    }
}

/// Takes the links of one candidate or some away.
fn lose_links(pen: &mut Pen) {
    let ranking = limits::ranking(pen.bridge());
    let mut mask = limits::links(pen.bridge());
    for _ in 0..pen.random.pick(&[1, 1, 1, 2, 4]) {
        match ranking.get(pen.random.index(ranking.len())) {
            Some(clock) if clock.port != OWN => mask &= !(1 << (clock.port - 1)),
            _ => {}
        }
    }
    pen.links(mask);
}

/// Gives the next frame of a port, which puts its clock beside a rival's or leaves it where it stands, and is now and then refused.
fn rival_frame(pen: &mut Pen, place: usize) -> Fields {
    let ranking = limits::ranking(pen.bridge());
    let record = pen.bridge().ports[place].record;
    let chosen_hop = ranking.first().map_or(HOP_NONE, |clock| clock.hop);
    let random = &mut pen.random;
    let (precedence, held_hop) = standing(random, record.announcement, &ranking);
    let (count, p) = match record.last {
        Some(heard) => (next_count(heard.count), heard.time),
        None => (random.bits() as u8, 0),
    };
    let mut fields = Fields {
        version: versions::known(random),
        sa: [2, 0, 0, 0, 2, place as u8],
        precedence,
        hop: hop_to_be_held(chosen_hop, held_hop),
        count,
        grand: u128::from(p),
        local: p,
        ..Fields::default()
    };
    match random.below(40) {
        0 => fields.hop = HOP_NONE,
        1 => fields.count = random.bits() as u8,
        2 => fields.that_tx = moved(p, 1),
        _ => {}
    }
    fields
}

/// Gives a precedence and a held hop: those of the announcement, or ones beside it, beside a rival's, or anywhere.
fn standing(random: &mut Random, held: Option<Announcement>, ranking: &[Chosen]) -> (u128, u8) {
    match held {
        Some(held) if random.often(400) => (held.precedence, held.hop),
        Some(held) if random.often(200) => beside(random, held.precedence, held.hop),
        _ if ranking.is_empty() || random.often(150) => {
            (plans::precedence(random), random.below(4) as u8)
        }
        _ => {
            let rival = random.pick(ranking);
            beside(random, rival.precedence, rival.hop)
        }
    }
}

/// Gives a precedence and a held hop that are the same, or one of them a little better or worse.
fn beside(random: &mut Random, precedence: u128, hop: u8) -> (u128, u8) {
    match random.below(8) {
        0 => (precedence.saturating_sub(1), hop),
        1 => (precedence + 1, hop),
        2 => (precedence, hop.saturating_sub(1)),
        3 => (precedence, hop.saturating_add(1)),
        4 => (precedence, random.below(4) as u8),
        _ => (precedence, hop),
    }
}

/// Gives a hop that is held as the wanted one against the chosen clock's, or 0 where there is none.
fn hop_to_be_held(chosen_hop: u8, wanted: u8) -> u8 {
    (0..HOP_NONE)
        .find(|hop| rules::held_hop(chosen_hop, *hop) == wanted)
        .unwrap_or(0)
}
