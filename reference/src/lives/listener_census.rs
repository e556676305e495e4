//! Counts how setups of a listener ended, what listeners answered and sent, and how their frames were heard.

use super::census::{put_counts, put_row, ANSWERS};
use super::limits;
use super::pen::answer_of;
use crate::answer::{
    Answer, BAD_DELAY, BAD_LENGTH, BAD_SETUP, BAD_VERSION, BEYOND_RANGE, DONE, NOT_TIME_SYNC,
    NO_CLOCK, NO_LINK, OUT_OF_RANGE, OUT_OF_REACH, OUT_OF_SEQUENCE, TOO_FAR, TOO_FEW_SAMPLES,
};
use crate::bridge::{
    Calls, Chosen, Listed, Plan, Profile, LISTENER_BACK, LISTENER_PORTS, PORTS_MOST, TIMEOUTS,
    TIMEOUT_DEFAULT,
};
use crate::frame::{self, Fields, FRAME_LEN, PRECEDENCE_WORST};
use crate::hex;
use crate::replay;
use crate::rules::{DELAY_MOST, HOP_LAST, HOP_NONE};
use crate::times::spread;
use std::fmt;

/// How a setup of a listener ended: taken with a port of either kind, or refused for one reason alone, or no line.
const SETUPS: [&str; 11] = [
    "measured",
    "fixed",
    "no port",
    "more ports",
    "capable",
    "back time",
    "default back time",
    "timeout",
    "delay",
    "version",
    "no line",
];
const MEASURED: usize = 0;
const FIXED: usize = 1;
const NO_PORT: usize = 2;
const MORE_PORTS: usize = 3;
const CAPABLE: usize = 4;
const BACK_TIME: usize = 5;
const DEFAULT_BACK_TIME: usize = 6;
const TIMEOUT: usize = 7;
const DELAY: usize = 8;
const VERSION: usize = 9;
const NO_LINE: usize = 10;

/// What each call of a listener should answer at the least: a send with no number from 10 to 13, an own clock with none but 2 and 10.
const WANTED: [(u8, &[Answer]); 7] = [
    (b'L', &[DONE, OUT_OF_RANGE]),
    (b'O', &[OUT_OF_RANGE, NO_CLOCK]),
    (
        b'R',
        &[
            DONE,
            OUT_OF_RANGE,
            NO_LINK,
            BAD_LENGTH,
            NOT_TIME_SYNC,
            BAD_VERSION,
            TOO_FAR,
            OUT_OF_SEQUENCE,
            BAD_DELAY,
        ],
    ),
    (b'A', &[DONE, OUT_OF_RANGE]),
    (b'T', &[DONE, OUT_OF_RANGE, NO_LINK, BAD_LENGTH]),
    (b'D', &[DONE, OUT_OF_RANGE]),
    (
        b'E',
        &[
            DONE,
            OUT_OF_RANGE,
            NO_CLOCK,
            TOO_FEW_SAMPLES,
            OUT_OF_REACH,
            BEYOND_RANGE,
        ],
    ),
];

/// A listener's sends by what a full bridge would have answered: done, or 10 to 13.
const INSTEAD: [(&str, Answer); 5] = [
    ("done", DONE),
    ("no clock", NO_CLOCK),
    ("too few samples", TOO_FEW_SAMPLES),
    ("out of reach", OUT_OF_REACH),
    ("beyond range", BEYOND_RANGE),
];

/// What a frame of a listener was: the first since the setup, one with the echo, one without though something was heard, one with the link's delay measured, one with count 0 after 255, and one with count 0 after the link was lost.
const SENT: [&str; 6] = ["first", "echo", "no echo", "measured", "round", "again"];
const FIRST: usize = 0;
const ECHO: usize = 1;
const NO_ECHO: usize = 2;
const SENT_MEASURED: usize = 3;
const ROUND: usize = 4;
const AGAIN: usize = 5;

/// How listeners were heard. By a full bridge: held at 255 by a step or, against a lesser H, by the least jump, and with the delay measured; chosen, so that a send and a stamp
/// were refused with 11; chosen by its port alone; not chosen any more once a better clock came, and chosen again once that was gone. By a listener. And clocks of the worst
/// precedence: sent on with hop 255, and refused with 7.
const HEARD: [&str; 11] = [
    "by a step",
    "by the least jump",
    "delay measured",
    "send refused",
    "stamp refused",
    "tied",
    "gave way",
    "came back",
    "by a listener",
    "worst sent on",
    "worst refused",
];
const STEP: usize = 0;
const LEAST_JUMP: usize = 1;
const HEARD_MEASURED: usize = 2;
const SEND_REFUSED: usize = 3;
const STAMP_REFUSED: usize = 4;
const TIED: usize = 5;
const GAVE_WAY: usize = 6;
const CAME_BACK: usize = 7;
const BY_LISTENER: usize = 8;
const WORST_SENT: usize = 9;
const WORST_REFUSED: usize = 10;

/// Counts of setups, answers and frames of listeners, and of how they were heard.
#[derive(Default)]
pub struct ListenerCensus {
    last_count: Option<u8>,
    chosen: Option<Chosen>,
    followed_listener: bool,
    setups: [u64; SETUPS.len()],
    answers: [[u64; ANSWERS]; WANTED.len()],
    instead: [u64; INSTEAD.len()],
    sent: [u64; SENT.len()],
    heard: [u64; HEARD.len()],
}

impl ListenerCensus {
    /// Counts a line with its answer and the bridge after it.
    pub fn count(&mut self, line: &[u8], reply: &[u8], bridge: &Listed) {
        if line.starts_with(b"P ") || line.starts_with(b"V 1 ") {
            self.count_setup(line, reply);
        } else if reply != b"0E" {
            match bridge.settings.profile {
                Profile::Listener => self.count_listener(line, reply, bridge),
                Profile::Full => self.count_full(line, reply, bridge),
            }
        }
        self.chosen = bridge.best();
        self.followed_listener = follows_listener(bridge);
    }

    /// Counts a setup of a listener.
    fn count_setup(&mut self, line: &[u8], reply: &[u8]) {
        let kind = match replay::plan_in(line) {
            Some(plan) => setup_kind(&plan, answer_of(reply)),
            None => Some(NO_LINE),
        };
        if let Some(kind) = kind {
            self.setups[kind] += 1;
        }
        if reply != b"0E" {
            self.last_count = None;
        }
    }

    /// Counts what a listener answered.
    fn count_listener(&mut self, line: &[u8], reply: &[u8], bridge: &Listed) {
        let answer = answer_of(reply);
        let letter = line.first();
        if let Some(row) = WANTED.iter().position(|(known, _)| Some(known) == letter) {
            self.answers[row][usize::from(answer)] += 1;
        }
        if let Some(fields) = sent_in(line, reply) {
            self.count_sent(&fields, bridge);
        }
        if answer == DONE && heard_in(line).is_some_and(|fields| is_listeners(&fields)) {
            self.heard[BY_LISTENER] += 1;
        }
    }

    /// Counts a frame that a listener sent.
    fn count_sent(&mut self, fields: &Fields, bridge: &Listed) {
        let instead = full_answer(bridge, fields.local);
        if let Some(kind) = INSTEAD.iter().position(|(_, answer)| *answer == instead) {
            self.instead[kind] += 1;
        }
        let record = &bridge.ports[0].record;
        let before = self.last_count.replace(fields.count);
        let echoes = record.echo == Some((fields.that_tx, fields.that_rx));
        let kinds = [
            (FIRST, before.is_none()),
            (ECHO, echoes),
            (NO_ECHO, record.pair.is_some() && !echoes),
            (SENT_MEASURED, measured(bridge, 0).is_some()),
            (ROUND, fields.count == 0 && before == Some(u8::MAX)),
            (
                AGAIN,
                fields.count == 0 && before.is_some_and(|count| count < u8::MAX),
            ),
        ];
        add(&mut self.sent, &kinds);
    }

    /// Counts how a full bridge heard listeners.
    fn count_full(&mut self, line: &[u8], reply: &[u8], bridge: &Listed) {
        let answer = answer_of(reply);
        if let Some(fields) = heard_in(line) {
            self.count_heard(&fields, answer, line, bridge);
        }
        if let Some(fields) = sent_in(line, reply) {
            let worst = fields.precedence == PRECEDENCE_WORST && fields.hop == HOP_NONE;
            self.heard[WORST_SENT] += u64::from(worst);
        }
        let follows = follows_listener(bridge);
        let came = follows && !self.followed_listener && self.chosen.is_some();
        let kinds = [
            (SEND_REFUSED, follows && too_few(b'T', line, answer)),
            (STAMP_REFUSED, follows && too_few(b'E', line, answer)),
            (TIED, follows && asks_for_clock(line) && is_tied(bridge)),
            (CAME_BACK, came && matches!(line.first(), Some(b'L' | b'A'))),
        ];
        add(&mut self.heard, &kinds);
    }

    /// Counts a frame that a full bridge heard.
    fn count_heard(&mut self, fields: &Fields, answer: Answer, line: &[u8], bridge: &Listed) {
        let taken = answer == DONE && is_listeners(fields);
        let jumped = self.chosen.is_some_and(|clock| clock.hop < fields.hop);
        let gave_way = self.followed_listener && !follows_listener(bridge);
        let worst = fields.precedence == PRECEDENCE_WORST;
        let delay = place_in(line).and_then(|place| measured(bridge, place));
        let kinds = [
            (STEP, taken && !jumped),
            (LEAST_JUMP, taken && jumped),
            (HEARD_MEASURED, taken && delay.is_some()),
            (GAVE_WAY, answer == DONE && gave_way),
            (WORST_REFUSED, answer == TOO_FAR && worst),
        ];
        add(&mut self.heard, &kinds);
    }

    /// Gives what was never seen.
    pub fn missing(&self) -> Vec<String> {
        let mut missing = Vec::new();
        for ((letter, answers), row) in WANTED.iter().zip(&self.answers) {
            for answer in answers
                .iter()
                .filter(|answer| row[usize::from(**answer)] == 0)
            {
                missing.push(format!("{} {answer}", char::from(*letter)));
            }
        }
        let instead = INSTEAD.map(|(name, _)| name);
        let rows: [(&str, &[&str], &[u64]); 4] = [
            ("set up", &SETUPS, &self.setups),
            ("sent for", &instead, &self.instead),
            ("sent", &SENT, &self.sent),
            ("heard", &HEARD, &self.heard),
        ];
        for (row, names, counts) in rows {
            let unseen = names.iter().zip(counts).filter(|(_, count)| **count == 0);
            missing.extend(unseen.map(|(name, _)| format!("{row} {name}")));
        }
        missing
    }
}

impl fmt::Display for ListenerCensus {
    /// Prints a row for each call of listeners with a column for each answer, and rows of setups, of frames and of how they were heard.
    fn fmt(&self, out: &mut fmt::Formatter) -> fmt::Result {
        for ((letter, _), row) in WANTED.iter().zip(&self.answers) {
            put_row(out, &format!("listens {}", char::from(*letter)), row)?;
        }
        let instead = INSTEAD.map(|(name, _)| name);
        put_counts(out, "listeners set up", &SETUPS, &self.setups)?;
        put_counts(out, "listeners sent for", &instead, &self.instead)?;
        put_counts(out, "listeners sent", &SENT, &self.sent)?;
        put_counts(out, "listeners heard", &HEARD, &self.heard)?;
        writeln!(out, "listeners missing {:?}", self.missing())
    }
}

/// Adds one to the count of each kind that was found.
pub(super) fn add(counts: &mut [u64], kinds: &[(usize, bool)]) {
    for (kind, found) in kinds {
        counts[*kind] += u64::from(*found);
    }
}

/// Gives how a setup of a listener ended, unless it had more than one reason to be refused.
fn setup_kind(plan: &Plan, answer: Answer) -> Option<usize> {
    let ports = usize::from(plan.ports);
    let looked_at = plan.delays.iter().take(ports).flatten();
    let mut versions = plan.versions.iter().take(ports);
    let timeout = plan.timeout.unwrap_or(TIMEOUT_DEFAULT);
    let faults = [
        (NO_PORT, !(1..=PORTS_MOST).contains(&ports)),
        (MORE_PORTS, (2..=PORTS_MOST).contains(&ports)),
        (CAPABLE, plan.capable),
        (
            BACK_TIME,
            plan.back.is_some_and(|back| back != LISTENER_BACK),
        ),
        (DEFAULT_BACK_TIME, plan.back.is_none()),
        (TIMEOUT, !TIMEOUTS.contains(&timeout)),
        (
            DELAY,
            looked_at.max().is_some_and(|most| *most > DELAY_MOST),
        ),
        (VERSION, !versions.all(|version| version.is_known())),
    ];
    let found: Vec<usize> = faults
        .into_iter()
        .filter_map(|(kind, found)| found.then_some(kind))
        .collect();
    let taken = if plan.delays[0].is_none() {
        MEASURED
    } else {
        FIXED
    };
    match (&found[..], answer) {
        ([], DONE) => Some(taken),
        ([fault], BAD_SETUP) => Some(*fault),
        _ => None,
    }
}

/// Gives what a full bridge that has heard the same would have answered to a send.
fn full_answer(listener: &Listed, departure: u64) -> Answer {
    let mut full = listener.clone();
    full.settings.profile = Profile::Full;
    full.send(LISTENER_PORTS, departure, &mut [0; FRAME_LEN])
}

/// Gives the fields of the frame that a line had sent.
pub(super) fn sent_in(line: &[u8], reply: &[u8]) -> Option<Fields> {
    let bytes = line.strip_prefix(b"T ").and(reply.strip_prefix(b"00 "))?;
    fields_of(bytes.get(..2 * FRAME_LEN)?)
}

/// Gives the fields of the frame that a line has arrive.
pub(super) fn heard_in(line: &[u8]) -> Option<Fields> {
    let fields = line.strip_prefix(b"R ")?;
    fields_of(fields.rsplit(|letter| *letter == b' ').next()?)
}

/// Gives the fields of a frame in digits.
fn fields_of(digits: &[u8]) -> Option<Fields> {
    let mut room = [0; FRAME_LEN];
    let bytes = hex::bytes(digits, &mut room)?;
    frame::read(bytes).ok()
}

/// Gives the place in the table of the port in a line of an arrival or of a send.
pub(super) fn place_in(line: &[u8]) -> Option<usize> {
    let port = line.split(|letter| *letter == b' ').nth(1)?;
    usize::try_from(hex::number(port)?).ok()?.checked_sub(1)
}

/// Says whether a frame is such as a listener sends.
fn is_listeners(fields: &Fields) -> bool {
    (fields.precedence, fields.hop, fields.grand) == (PRECEDENCE_WORST, HOP_LAST, 0)
}

/// Says whether the clock that a bridge has chosen is a listener's: of the worst precedence, held at 255, with grand time zero.
fn follows_listener(bridge: &Listed) -> bool {
    let newest = limits::followed(bridge).newest();
    bridge.best().is_some_and(|clock| {
        (clock.precedence, clock.hop) == (PRECEDENCE_WORST, HOP_NONE)
            && newest.is_some_and(|sample| sample.grand == 0)
    })
}

/// Says whether a line of a letter was refused for too few samples.
fn too_few(letter: u8, line: &[u8], answer: Answer) -> bool {
    line.first() == Some(&letter) && answer == TOO_FEW_SAMPLES
}

/// Says whether a line asks for the chosen clock or for a place of the ranking.
fn asks_for_clock(line: &[u8]) -> bool {
    matches!(line.first(), Some(b'C' | b'K'))
}

/// Says whether the chosen clock and the runner-up differ in their port alone.
fn is_tied(bridge: &Listed) -> bool {
    let key = |place| {
        let clock: Option<Chosen> = bridge.ranked_at(place);
        clock.map(|clock| (clock.precedence, clock.hop))
    };
    key(0) == key(1)
}

/// Gives the delay that was measured with the last frame that a port took, where there was one above zero.
fn measured(bridge: &Listed, place: usize) -> Option<u64> {
    let port = bridge
        .ports
        .get(place)
        .filter(|port| port.fixed.is_none())?;
    let (_, p) = port.record.pair?;
    let newest = port.record.samples.newest()?;
    Some(spread(p, newest.local)).filter(|delay| *delay > 0)
}
