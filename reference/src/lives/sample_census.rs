//! Counts what became of the samples that were taken, which of them were at a limit, and how many samples were kept where a send, a stamp or a drift was made from them.

use super::census::{put_counts, sampled_port};
use super::latches;
use super::listener_census::{add, sent_in};
use super::pen::answer_of;
use crate::answer::DONE;
use crate::bridge::{Listed, Profile, OWN};
use crate::frame::Version;
use crate::hex;
use crate::rules::{self, SPREAD_LEAST, SPREAD_MOST, STEADINESS};
use crate::samples::{joins, Sample, Samples, KEPT_MOST};
use crate::times::spread;
use std::fmt;

/// Whose samples are counted.
const CLOCKS: [&str; 2] = ["a port", "the own clock"];
const OF_PORT: usize = 0;
const OF_OWN: usize = 1;

/// How many samples were kept before one was taken, up to three.
const BEFORE: [&str; KEPT_MOST + 1] = ["none", "one", "two", "three"];

/// What became of a sample: it was kept beside what stayed, or it stood alone by the limits from the oldest that stays alone, from the newest alone or from both, or by the precedence.
const FATES: [&str; 5] = [
    "kept",
    "alone by the oldest",
    "alone by the newest",
    "alone by both",
    "alone by the precedence",
];
const KEPT: usize = 0;
const BY_OLDEST: usize = 1;
const BY_NEWEST: usize = 2;
const BY_BOTH: usize = 3;
const BY_PRECEDENCE: usize = 4;

/// At which limit a sample was where three would stand. Kept: at the greatest spread from the oldest that stays, at the greatest difference from it, at the least
/// spread from it that there can be, which is twice the least; at the least spread from the newest, at the greatest difference from it. Alone by one unit: beyond
/// the greatest spread from the oldest, the newest taking it; below the least spread from the newest and beyond the greatest difference from it, the oldest taking it.
const LIMITS: [&str; 8] = [
    "oldest at the spread",
    "oldest at the difference",
    "oldest at the least",
    "newest at the spread",
    "newest at the difference",
    "oldest beyond the spread",
    "newest below the spread",
    "newest beyond the difference",
];
const OLDEST_SPREAD: usize = 0;
const OLDEST_DIFFERENCE: usize = 1;
const OLDEST_LEAST: usize = 2;
const NEWEST_SPREAD: usize = 3;
const NEWEST_DIFFERENCE: usize = 4;
const OLDEST_SPREAD_BEYOND: usize = 5;
const NEWEST_SPREAD_BELOW: usize = 6;
const NEWEST_DIFFERENCE_BEYOND: usize = 7;

/// From what something was made: from two samples, from three, and of these from three whose newest two have another rate than the oldest and the newest.
const SOURCES: [&str; 3] = ["two", "three", "three that bend"];
const FROM_TWO: usize = 0;
const FROM_THREE: usize = 1;
const FROM_BENT: usize = 2;

/// What was made: a frame of either version, a stamp, or a drift.
const MADE: [&str; 4] = ["version 1", "version 2", "stamp", "drift"];
const SENT_ONE: usize = 0;
const SENT_TWO: usize = 1;
const STAMP: usize = 2;
const DRIFT: usize = 3;

/// What is kept of a clock, with the precedence that is held, none for the own clock.
#[derive(Clone, Copy, Default)]
struct Held {
    samples: Samples,
    precedence: Option<u128>,
}

/// Counts of samples by what became of them, and of what was made from them.
#[derive(Default)]
pub struct SampleCensus {
    /// What was kept before the line of the own clock and of each port.
    before: Vec<Held>,
    fates: [[[u64; FATES.len()]; BEFORE.len()]; CLOCKS.len()],
    limits: [[u64; LIMITS.len()]; CLOCKS.len()],
    made: [[[u64; MADE.len()]; SOURCES.len()]; CLOCKS.len()],
}

impl SampleCensus {
    /// Counts a line with its answer, and notes what is kept after it.
    pub fn count(&mut self, line: &[u8], reply: &[u8], bridge: &Listed) {
        if let Some(port) = sampled_port(line).filter(|_| answer_of(reply) == DONE) {
            self.count_taken(port, bridge);
        }
        if let Some((port, made)) = made_in(line, reply, bridge) {
            self.count_made(port, made, bridge);
        }
        self.before = held(bridge);
    }

    /// Counts the sample that a port or the own clock took.
    fn count_taken(&mut self, port: u8, bridge: &Listed) {
        let after = held(bridge);
        let place = usize::from(port);
        let (Some(before), Some(after)) = (self.before.get(place), after.get(place)) else {
            return;
        };
        let Some(new) = after.samples.newest() else {
            return;
        };
        let same_clock = before.precedence == after.precedence;
        let kept = before.samples.count();
        let fate = fate(&before.samples, &new, same_clock);
        self.fates[clock(port)][kept][fate] += 1;
        if let Some(kinds) = limit_kinds(&before.samples, &new).filter(|_| same_clock) {
            add(&mut self.limits[clock(port)], &kinds);
        }
    }

    /// Counts something that was made from the samples of a port or of the own clock.
    fn count_made(&mut self, port: u8, made: usize, bridge: &Listed) {
        let Some(samples) = bridge.samples(port) else {
            return;
        };
        let three = samples.count() == KEPT_MOST;
        let sources = [
            (FROM_TWO, !three),
            (FROM_THREE, three),
            (FROM_BENT, three && bends(samples)),
        ];
        for (source, found) in sources {
            self.made[clock(port)][source][made] += u64::from(found);
        }
    }

    /// Gives each row of counts with its name and the names of its columns.
    fn rows(&self) -> Vec<(String, &[&str], &[u64])> {
        let mut rows: Vec<(String, &[&str], &[u64])> = Vec::new();
        for (clock, of) in CLOCKS.iter().enumerate() {
            for (before, counts) in BEFORE.iter().zip(&self.fates[clock]) {
                rows.push((format!("after {before} of {of}"), &FATES, counts));
            }
            rows.push((format!("limits of {of}"), &LIMITS, &self.limits[clock]));
            for (source, counts) in SOURCES.iter().zip(&self.made[clock]) {
                rows.push((format!("made from {source} of {of}"), &MADE, counts));
            }
        }
        rows
    }

    /// Gives what was never seen though it can be.
    pub fn missing(&self) -> Vec<String> {
        let mut missing = Vec::new();
        for (row, names, counts) in self.rows() {
            let unseen = names.iter().zip(counts).filter(|(_, count)| **count == 0);
            missing.extend(unseen.map(|(name, _)| format!("{row}: {name}")));
        }
        let never = never_seen();
        missing.retain(|name| !never.contains(name));
        missing
    }
}

impl fmt::Display for SampleCensus {
    /// Prints a row for each thing that samples are counted in.
    fn fmt(&self, out: &mut fmt::Formatter) -> fmt::Result {
        for (row, names, counts) in self.rows() {
            put_counts(out, &format!("samples {row}"), names, counts)?;
        }
        writeln!(out, "samples missing {:?}", self.missing())
    }
}

/// Gives what there cannot be: none that stands alone where none was kept, none by the oldest where fewer than two were, and none by the precedence of the own clock.
fn never_seen() -> Vec<String> {
    let mut never = Vec::new();
    for (clock, of) in CLOCKS.iter().enumerate() {
        for (kept, before) in BEFORE.iter().enumerate() {
            let impossible = |fate: usize| match fate {
                KEPT => false,
                BY_NEWEST => kept == 0,
                BY_PRECEDENCE => kept == 0 || clock == OF_OWN,
                _ => kept < 2,
            };
            let fates = (0..FATES.len()).filter(|fate| impossible(*fate));
            never.extend(fates.map(|fate| format!("after {before} of {of}: {}", FATES[fate])));
        }
    }
    never
}

/// Gives whose samples those of a port number are.
fn clock(port: u8) -> usize {
    if port == OWN {
        OF_OWN
    } else {
        OF_PORT
    }
}

/// Gives what is kept of the own clock and of each port.
fn held(bridge: &Listed) -> Vec<Held> {
    let own = Held {
        samples: bridge.own.samples,
        precedence: None,
    };
    let ports = bridge.ports.iter().map(|port| Held {
        samples: port.record.samples,
        precedence: port.record.announcement.map(|held| held.precedence),
    });
    std::iter::once(own).chain(ports).collect()
}

/// Gives what becomes of a new sample beside those that are kept.
fn fate(kept: &Samples, new: &Sample, same_clock: bool) -> usize {
    let takes = |sample: Option<Sample>| sample.is_none_or(|sample| joins(&sample, new));
    if kept.count() > 0 && !same_clock {
        return BY_PRECEDENCE;
    }
    match (takes(kept.newest()), takes(kept.oldest_to_stay())) {
        (true, true) => KEPT,
        (true, false) => BY_OLDEST,
        (false, true) => BY_NEWEST,
        (false, false) => BY_BOTH,
    }
}

/// Gives at which limits a new sample of the same clock is, where three would stand.
fn limit_kinds(kept: &Samples, new: &Sample) -> Option<[(usize, bool); LIMITS.len()]> {
    let (newest, oldest) = kept.newest().zip(kept.oldest_to_stay())?;
    let by_newest = joins(&newest, new);
    let by_oldest = joins(&oldest, new);
    let kept = by_newest && by_oldest;
    let (newest_spread, newest_left) = room(&newest, new);
    let (oldest_spread, oldest_left) = room(&oldest, new);
    Some([
        (OLDEST_SPREAD, kept && oldest_spread == SPREAD_MOST),
        (OLDEST_DIFFERENCE, kept && oldest_left == 0),
        (OLDEST_LEAST, kept && oldest_spread == 2 * SPREAD_LEAST),
        (NEWEST_SPREAD, kept && newest_spread == SPREAD_LEAST),
        (NEWEST_DIFFERENCE, kept && newest_left == 0),
        (
            OLDEST_SPREAD_BEYOND,
            by_newest && oldest_spread == SPREAD_MOST + 1,
        ),
        (
            NEWEST_SPREAD_BELOW,
            by_oldest && newest_spread == SPREAD_LEAST - 1,
        ),
        (NEWEST_DIFFERENCE_BEYOND, by_oldest && newest_left == -1),
    ])
}

/// Gives the spread from a kept sample to a new one, and how much greater the difference could be and still be taken.
fn room(kept: &Sample, new: &Sample) -> (u64, i128) {
    let run = spread(new.local, kept.local);
    let difference = rules::sample_difference(kept.point(), new.point());
    let most = (u128::from(run) / STEADINESS) as i128;
    (run, most - difference.abs())
}

/// Says whether the newest two of three samples have another rate than the oldest and the newest.
fn bends(samples: &Samples) -> bool {
    let newest_two = samples
        .oldest_to_stay()
        .zip(samples.newest())
        .map(|(before, newest)| rules::sample_rate(before.point(), newest.point()));
    newest_two != samples.rate()
}

/// Gives what a line had made from samples, where it had, and the port whose samples they are.
fn made_in(line: &[u8], reply: &[u8], bridge: &Listed) -> Option<(u8, usize)> {
    if !reply.starts_with(b"00 ") {
        return None;
    }
    if let Some(drift) = line.strip_prefix(b"D ") {
        return Some((u8::try_from(hex::number(drift)?).ok()?, DRIFT));
    }
    let followed = bridge.best()?.port;
    if latches::called(line).is_some() {
        return Some((followed, STAMP));
    }
    let sent = sent_in(line, reply).filter(|_| bridge.settings.profile == Profile::Full)?;
    let made = match sent.version {
        Version::TWO => SENT_TWO,
        _ => SENT_ONE,
    };
    Some((followed, made))
}
