//! Counts how often each call gave each answer, how the frames that were taken came by their held hops, which way rates were rounded, what places of the ranking showed, which numbers of passes left were printed, what listeners did and how they were heard, how versions fared, what became of samples, and where scales left their range.

use super::latches;
use super::limits;
use super::listener_census::ListenerCensus;
use super::pen::answer_of;
use super::sample_census::SampleCensus;
use super::version_census::VersionCensus;
use crate::answer::{
    Answer, BAD_DELAY, BAD_LINE, BEYOND_RANGE, DONE, NO_CLOCK, OUT_OF_RANGE, OUT_OF_REACH, TOO_FAR,
    TOO_FEW_SAMPLES,
};
use crate::bridge::{Chosen, Listed, OWN, PORTS_MOST};
use crate::frame::AT_HOP;
use crate::hex;
use crate::ptp::SECONDS_END;
use crate::rules::{self, HOP_NONE, RATE_ONE};
use crate::samples::Samples;
use crate::times::{distance, is_local, spread};
use std::cmp::Ordering;
use std::fmt;

/// The letters of the calls whose answers are numbers, but for stamps, timestamps and scales, which are counted by themselves.
const LETTERS: [u8; 11] = *b"SPVLORATDFW";
/// How many answers there are.
pub(super) const ANSWERS: usize = BAD_LINE as usize + 1;

/// Where a latch lies: nowhere as long as there are no two samples, else by the newest one.
const SIDES: [&str; 4] = ["nowhere", "before", "at", "after"];
const NOWHERE: usize = 0;
const BEFORE: usize = 1;
const AT: usize = 2;
const AFTER: usize = 3;

/// What answers to latches there should be at the least, where below zero is before and the end is after.
/// Twelve digits are never out of range, so that answer is wanted of calls alone.
const STAMPS_WANTED: [(usize, Answer); 9] = [
    (NOWHERE, NO_CLOCK),
    (NOWHERE, TOO_FEW_SAMPLES),
    (BEFORE, DONE),
    (BEFORE, OUT_OF_REACH),
    (BEFORE, BEYOND_RANGE),
    (AT, DONE),
    (AFTER, DONE),
    (AFTER, OUT_OF_REACH),
    (AFTER, BEYOND_RANGE),
];

/// Counts of the answers to latches by the side on which they lie.
#[derive(Default)]
pub struct StampCensus {
    counts: [[u64; ANSWERS]; SIDES.len()],
}

impl StampCensus {
    /// Counts a latch with its refusal, if it has one, on a bridge.
    pub fn count(&mut self, latch: u64, refusal: Option<Answer>, bridge: &Listed) {
        let answer = refusal.unwrap_or(DONE);
        self.counts[side(latch, bridge)][usize::from(answer)] += 1;
    }

    /// Gives the wanted answers that were never seen, each with its side.
    pub fn missing(&self) -> Vec<(&str, Answer)> {
        STAMPS_WANTED
            .iter()
            .filter(|(side, answer)| self.counts[*side][usize::from(*answer)] == 0)
            .map(|(side, answer)| (SIDES[*side], *answer))
            .collect()
    }
}

impl fmt::Display for StampCensus {
    /// Prints a row for each side with a column for each answer.
    fn fmt(&self, out: &mut fmt::Formatter) -> fmt::Result {
        for (side, row) in SIDES.iter().zip(&self.counts) {
            put_row(out, &format!("E {side}"), row)?;
        }
        writeln!(out, "stamps missing {:?}", self.missing())
    }
}

/// Gives the side on which a latch lies of the newest sample of the clock that a bridge follows.
fn side(latch: u64, bridge: &Listed) -> usize {
    match limits::followed(bridge).ends() {
        Some((_, newest)) if is_local(latch) => match distance(latch, newest.local).cmp(&0) {
            Ordering::Less => BEFORE,
            Ordering::Equal => AT,
            Ordering::Greater => AFTER,
        },
        _ => NOWHERE,
    }
}

/// How a frame that was taken came by its held hop: a single step; from beyond the chosen clock, half of the way left, or the least step where that is none.
const WAYS: [&str; 3] = ["step", "jump", "least"];
const STEP: usize = 0;
const JUMP: usize = 1;
const LEAST: usize = 2;
/// The greatest hop half of whose way left is a whole step.
const JUMP_MOST: u8 = HOP_NONE - 2;

/// Counts of the frames that were taken by the way in which they came by their held hop.
#[derive(Default)]
pub struct HopCensus {
    chosen: Option<u8>,
    counts: [u64; WAYS.len()],
}

impl HopCensus {
    /// Counts a line with its answer, where it is a frame that was taken, and notes the chosen hop after it.
    fn count(&mut self, line: &[u8], reply: &[u8], bridge: &Listed) {
        if let Some(hop) = heard_hop(line).filter(|_| answer_of(reply) == DONE) {
            let chosen = self.chosen.unwrap_or(HOP_NONE);
            self.counts[way(chosen, hop)] += 1;
        }
        self.chosen = bridge.best().map(|chosen| chosen.hop);
    }

    /// Gives the ways that were never seen.
    fn missing(&self) -> Vec<&str> {
        uncounted(&WAYS, &self.counts)
    }
}

impl fmt::Display for HopCensus {
    /// Prints a row with a column for each way.
    fn fmt(&self, out: &mut fmt::Formatter) -> fmt::Result {
        write!(out, "hops taken")?;
        for (way, count) in WAYS.iter().zip(self.counts) {
            write!(out, ", {way} {count}")?;
        }
        writeln!(out, ", missing {:?}", self.missing())
    }
}

/// Gives the hop of the frame in a line that has one received.
fn heard_hop(line: &[u8]) -> Option<u8> {
    let fields = line.strip_prefix(b"R ")?;
    let frame = fields.rsplit(|letter| *letter == b' ').next()?;
    hex::byte(frame.get(2 * AT_HOP..2 * AT_HOP + 2)?)
}

/// Gives the way in which a hop comes by its held one.
fn way(chosen: u8, hop: u8) -> usize {
    match hop {
        _ if hop <= chosen => STEP,
        ..=JUMP_MOST => JUMP,
        _ => LEAST,
    }
}

/// Which way a rate goes to a whole number: not at all, down, up, and up from a half, above zero or below it.
const TURNS: [&str; 5] = ["exact", "down", "up", "half above", "half below"];
const EXACT: usize = 0;
const DOWN: usize = 1;
const UP: usize = 2;
const HALF_ABOVE: usize = 3;
const HALF_BELOW: usize = 4;
/// Whose rates are counted: those of the clocks that are heard, and those of the neighbours that delays are measured by.
const RATED: [&str; 2] = ["clocks", "neighbours"];
const CLOCKS: usize = 0;
const NEIGHBOURS: usize = 1;

/// Counts of the rates that each line that was taken brought, by the way in which they are rounded.
#[derive(Default)]
pub struct RateCensus {
    pairs: [Option<(u64, u64)>; PORTS_MOST],
    counts: [[u64; TURNS.len()]; RATED.len()],
}

impl RateCensus {
    /// Counts what a line brought, where it was taken, and notes the pairs after it.
    fn count(&mut self, line: &[u8], reply: &[u8], bridge: &Listed) {
        if let Some(port) = sampled_port(line).filter(|_| answer_of(reply) == DONE) {
            if let Some((oldest, newest)) = bridge.samples(port).and_then(Samples::ends) {
                let difference = rules::sample_difference(oldest.point(), newest.point());
                let run = spread(newest.local, oldest.local);
                self.counts[CLOCKS][turn(difference, run)] += 1;
            }
            self.count_neighbour(port, bridge);
        }
        for (pair, port) in self.pairs.iter_mut().zip(&bridge.ports) {
            *pair = port.record.pair;
        }
    }

    /// Counts the rate of the neighbour at a port whose delay is measured, where it has one.
    fn count_neighbour(&mut self, port: u8, bridge: &Listed) {
        let Some(place) = usize::from(port).checked_sub(1) else {
            return;
        };
        let measured = bridge.ports.get(place).filter(|port| port.fixed.is_none());
        let pairs = self.pairs[place].zip(measured.and_then(|port| port.record.pair));
        let Some(((old_local, old_arrival), (local, arrival))) = pairs else {
            return;
        };
        let run = spread(local, old_local);
        let difference = i128::from(spread(arrival, old_arrival)) - i128::from(run);
        if rules::steady(difference, run) {
            self.counts[NEIGHBOURS][turn(difference, run)] += 1;
        }
    }

    /// Gives the ways of rounding that were never seen, each with whose rate it is.
    fn missing(&self) -> Vec<String> {
        let mut missing = Vec::new();
        for (rated, row) in RATED.iter().zip(&self.counts) {
            for (turn, count) in TURNS.iter().zip(row) {
                if *count == 0 {
                    missing.push(format!("{rated} {turn}"));
                }
            }
        }
        missing
    }
}

impl fmt::Display for RateCensus {
    /// Prints a row for whose rates they are with a column for each way of rounding.
    fn fmt(&self, out: &mut fmt::Formatter) -> fmt::Result {
        for (rated, row) in RATED.iter().zip(&self.counts) {
            put_counts(out, &format!("rates of {rated}"), &TURNS, row)?;
        }
        writeln!(out, "rates missing {:?}", self.missing())
    }
}

/// Gives the port whose clock a line brings a sample of.
pub(super) fn sampled_port(line: &[u8]) -> Option<u8> {
    let mut fields = line.split(|letter| *letter == b' ');
    match fields.next()? {
        b"O" => Some(OWN),
        b"R" => u8::try_from(hex::number(fields.next()?)?).ok(),
        _ => None,
    }
}

/// Gives the way in which the rate of a difference over a spread is rounded.
fn turn(difference: i128, local_spread: u64) -> usize {
    let run = i128::from(local_spread);
    let past_floor = (2 * difference * RATE_ONE).rem_euclid(2 * run);
    match past_floor.cmp(&run) {
        _ if past_floor == 0 => EXACT,
        Ordering::Less => DOWN,
        Ordering::Greater => UP,
        Ordering::Equal if difference > 0 => HALF_ABOVE,
        Ordering::Equal => HALF_BELOW,
    }
}

/// What last happened to the ranking: a setup began it; a frame let a candidate enter it, rise, fall, or keep its place though something else changed;
/// candidates left it with their links or by age; a link came up or a candidate's frame was refused with 7, 8 or 9, and it stayed as it was.
const EVENTS: [&str; 9] = [
    "set up", "entered", "rose", "fell", "kept", "lost", "aged", "linked", "refused",
];
const SET_UP: usize = 0;
const ENTERED: usize = 1;
const ROSE: usize = 2;
const FELL: usize = 3;
const KEPT: usize = 4;
const LOST: usize = 5;
const AGED: usize = 6;
const LINKED: usize = 7;
const REFUSED: usize = 8;
/// What a place of the ranking shows: the chosen clock, the runner-up, a later candidate, or none as it is beyond the last.
const SHOWN: [&str; 4] = ["chosen", "runner-up", "later", "beyond"];
const RUNNER_UP: usize = 1;
const LATER: usize = 2;
const PAST_LAST: usize = 3;
/// What is never shown after a setup, which leaves no candidate but the own clock.
const NEVER_SHOWN: [(usize, usize); 2] = [(SET_UP, RUNNER_UP), (SET_UP, LATER)];
/// What else lines of places should be at the least: of a ranking without a candidate, of one of two that differ in their port alone, of the ninth candidate, of a place with two digits, and no line.
const PLACE_KINDS: [&str; 5] = ["empty", "tied", "ninth", "far", "no line"];
const EMPTY: usize = 0;
const TIED: usize = 1;
const NINTH: usize = 2;
const FAR: usize = 3;
const NO_LINE: usize = 4;
/// The place of the ninth candidate, after which there is none.
const LAST_PLACE: usize = PORTS_MOST;
/// The first place that has two digits.
const FAR_PLACE: usize = 16;

/// Counts of what places of the ranking showed, by what last happened to it.
#[derive(Default)]
pub struct RankingCensus {
    ranking: Vec<Chosen>,
    links: usize,
    event: usize,
    counts: [[u64; SHOWN.len()]; EVENTS.len()],
    places: [u64; PLACE_KINDS.len()],
}

impl RankingCensus {
    /// Counts a line with its answer where it asks for a place, and notes what another one did to the ranking.
    pub fn count(&mut self, line: &[u8], reply: &[u8], bridge: &Listed) {
        if let Some(place) = line.strip_prefix(b"K") {
            match place.strip_prefix(b" ").and_then(hex::number) {
                Some(place) if reply != b"0E" => self.count_place(place as usize),
                _ => self.places[NO_LINE] += 1,
            }
            return;
        }
        let after = limits::ranking(bridge);
        let links = bridge.ports.iter().filter(|port| port.linked).count();
        if let Some(event) = self.event_of(line, reply, &after, links) {
            self.event = event;
        }
        self.ranking = after;
        self.links = links;
    }

    /// Gives what a line did to the ranking, where it did something that is counted.
    fn event_of(&self, line: &[u8], reply: &[u8], after: &[Chosen], links: usize) -> Option<usize> {
        let changed = self.ranking != after;
        match line.first()? {
            b'S' | b'P' | b'V' if reply != b"0E" => Some(SET_UP),
            b'L' if changed => Some(LOST),
            b'L' if links > self.links => Some(LINKED),
            b'A' if changed => Some(AGED),
            b'R' => {
                let port = sampled_port(line)?;
                let before = place_of(&self.ranking, port);
                if changed {
                    return Some(movement(before, place_of(after, port)));
                }
                before.filter(|_| (TOO_FAR..=BAD_DELAY).contains(&answer_of(reply)))?;
                Some(REFUSED)
            }
            _ => None,
        }
    }

    /// Counts what a place showed.
    fn count_place(&mut self, place: usize) {
        let shown = match self.ranking.get(place) {
            Some(_) => place.min(LATER),
            None => PAST_LAST,
        };
        self.counts[self.event][shown] += 1;
        let kinds = [
            (EMPTY, self.ranking.is_empty()),
            (TIED, is_tied(&self.ranking, place)),
            (NINTH, place == LAST_PLACE && shown == LATER),
            (FAR, place >= FAR_PLACE),
        ];
        for (kind, found) in kinds {
            self.places[kind] += u64::from(found);
        }
    }

    /// Gives what was never seen.
    pub fn missing(&self) -> Vec<String> {
        let mut missing = Vec::new();
        for (event, row) in self.counts.iter().enumerate() {
            for (shown, count) in row.iter().enumerate() {
                if *count == 0 && !NEVER_SHOWN.contains(&(event, shown)) {
                    missing.push(format!("{} after {}", SHOWN[shown], EVENTS[event]));
                }
            }
        }
        for (kind, count) in PLACE_KINDS.iter().zip(self.places) {
            if count == 0 {
                missing.push(kind.to_string());
            }
        }
        missing
    }
}

impl fmt::Display for RankingCensus {
    /// Prints a row for each event with a column for each thing shown, and a row of the other kinds of places.
    fn fmt(&self, out: &mut fmt::Formatter) -> fmt::Result {
        for (event, row) in EVENTS.iter().zip(&self.counts) {
            put_counts(out, &format!("K after {event}"), &SHOWN, row)?;
        }
        put_counts(out, "K", &PLACE_KINDS, &self.places)?;
        writeln!(out, "ranking missing {:?}", self.missing())
    }
}

/// Gives the place of a port in a ranking.
fn place_of(ranking: &[Chosen], port: u8) -> Option<usize> {
    ranking.iter().position(|clock| clock.port == port)
}

/// Gives how a candidate that a frame was taken of moved from the place that it had, if it had one.
fn movement(before: Option<usize>, after: Option<usize>) -> usize {
    match before.zip(after) {
        None => ENTERED,
        Some((before, after)) if after < before => ROSE,
        Some((before, after)) if after > before => FELL,
        Some(_) => KEPT,
    }
}

/// Says whether the candidate at a place of a ranking differs from the one before or after it in its port alone.
fn is_tied(ranking: &[Chosen], place: usize) -> bool {
    let key = |clock: &Chosen| (clock.precedence, clock.hop);
    let at = |place: usize| ranking.get(place).map(key);
    let ties = |other: Option<usize>| at(place).is_some() && other.and_then(at) == at(place);
    ties(place.checked_sub(1)) || ties(place.checked_add(1))
}

/// What lines of passes left should print at the least: each number of passes that there is, and that it is no line.
const PASSES: [&str; 11] = [
    "00", "01", "02", "03", "04", "05", "06", "07", "08", "09", "0E",
];

/// Counts of what lines of passes left printed.
#[derive(Default)]
pub struct PassesCensus {
    counts: [u64; PASSES.len()],
}

impl PassesCensus {
    /// Counts a line with its answer, where its first field is H, though it may have no form.
    pub fn count(&mut self, line: &[u8], reply: &[u8]) {
        if line.split(|letter| *letter == b' ').next() != Some(b"H") {
            return;
        }
        if let Some(place) = PASSES.iter().position(|known| known.as_bytes() == reply) {
            self.counts[place] += 1;
        }
    }

    /// Gives what was never printed.
    pub fn missing(&self) -> Vec<&str> {
        uncounted(&PASSES, &self.counts)
    }
}

impl fmt::Display for PassesCensus {
    /// Prints a row with a column for each answer.
    fn fmt(&self, out: &mut fmt::Formatter) -> fmt::Result {
        put_counts(out, "H", &PASSES, &self.counts)?;
        writeln!(out, "passes missing {:?}", self.missing())
    }
}

/// The letters of the lines of timestamps and scales.
const TIMESTAMP_LETTERS: [u8; 5] = *b"XIGUN";
/// What each of them should answer at the least.
const TIMESTAMP_WANTED: [Answer; 3] = [DONE, OUT_OF_RANGE, BAD_LINE];
/// Half of the PTP seconds: a scale that leaves its range leaves it below zero for those before, beyond the end for those after.
const SECONDS_HALF: u64 = SECONDS_END / 2;
const BELOW: &str = "below zero";
const BEYOND: &str = "beyond the end";
/// The ends at which scales can leave their range: GPS is behind PTP, NTP ahead of it, and UTC either.
const ENDS_WANTED: [(u8, &str); 4] = [(b'G', BELOW), (b'U', BELOW), (b'U', BEYOND), (b'N', BEYOND)];

/// Counts of the answers to lines of timestamps and scales, and of the ends at which scales left their range.
#[derive(Default)]
pub struct TimestampCensus {
    counts: [[u64; ANSWERS]; TIMESTAMP_LETTERS.len()],
    ends: [u64; ENDS_WANTED.len()],
}

impl TimestampCensus {
    /// Counts a line with its answer, where its first field is one of the letters, though it may have no form.
    pub fn count(&mut self, line: &[u8], reply: &[u8]) {
        let mut fields = line.split(|letter| *letter == b' ');
        let Some(&[letter]) = fields.next() else {
            return;
        };
        let Some(row) = TIMESTAMP_LETTERS.iter().position(|known| *known == letter) else {
            return;
        };
        let answer = answer_of(reply);
        self.counts[row][usize::from(answer)] += 1;
        if answer == BEYOND_RANGE {
            self.count_end(letter, fields.next().and_then(hex::number));
        }
    }

    /// Counts the end at which a scale left its range, by the PTP seconds that it was asked for.
    fn count_end(&mut self, letter: u8, seconds: Option<u64>) {
        let end = match seconds {
            Some(..SECONDS_HALF) => BELOW,
            _ => BEYOND,
        };
        if let Some(place) = ENDS_WANTED.iter().position(|known| *known == (letter, end)) {
            self.ends[place] += 1;
        }
    }

    /// Gives the wanted answers and ends that were never seen, each with its letter.
    pub fn missing(&self) -> Vec<String> {
        let mut missing = Vec::new();
        for (letter, row) in TIMESTAMP_LETTERS.iter().zip(&self.counts) {
            for answer in TIMESTAMP_WANTED {
                if row[usize::from(answer)] == 0 {
                    missing.push(format!("{} {answer}", char::from(*letter)));
                }
            }
        }
        for ((letter, end), count) in ENDS_WANTED.iter().zip(self.ends) {
            if count == 0 {
                missing.push(format!("{} {end}", char::from(*letter)));
            }
        }
        missing
    }
}

impl fmt::Display for TimestampCensus {
    /// Prints a row for each letter with a column for each answer, and a row of ends.
    fn fmt(&self, out: &mut fmt::Formatter) -> fmt::Result {
        for (letter, row) in TIMESTAMP_LETTERS.iter().zip(&self.counts) {
            put_row(out, &char::from(*letter).to_string(), row)?;
        }
        write!(out, "scales left")?;
        for ((letter, end), count) in ENDS_WANTED.iter().zip(self.ends) {
            write!(out, ", {} {end} {count}", char::from(*letter))?;
        }
        writeln!(out, "\ntimestamps missing {:?}", self.missing())
    }
}

/// Gives the names whose counts are zero.
fn uncounted<'a>(names: &[&'a str], counts: &[u64]) -> Vec<&'a str> {
    names
        .iter()
        .zip(counts)
        .filter(|(_, count)| **count == 0)
        .map(|(name, _)| *name)
        .collect()
}

/// Prints a row of counts, each after its name.
pub(super) fn put_counts(
    out: &mut fmt::Formatter,
    row: &str,
    names: &[&str],
    counts: &[u64],
) -> fmt::Result {
    write!(out, "{row}")?;
    for (name, count) in names.iter().zip(counts) {
        write!(out, ", {name} {count}")?;
    }
    writeln!(out)
}

/// Prints a row of numbers.
pub(super) fn put_row<T: fmt::Display>(
    out: &mut fmt::Formatter,
    name: &str,
    row: &[T],
) -> fmt::Result {
    write!(out, "{name:<9}")?;
    for number in row {
        write!(out, " {number:>8}")?;
    }
    writeln!(out)
}

/// Counts by call and answer, and of what has no number.
#[derive(Default)]
pub struct Census {
    lines: u64,
    counts: [[u64; ANSWERS]; LETTERS.len()],
    bad: u64,
    chosen_none: u64,
    chosen_own: u64,
    chosen_port: u64,
    readings: u64,
    parts: u64,
    no_parts: u64,
    stamps: StampCensus,
    hops: HopCensus,
    rates: RateCensus,
    ranking: RankingCensus,
    passes: PassesCensus,
    listeners: ListenerCensus,
    versions: VersionCensus,
    samples: SampleCensus,
    timestamps: TimestampCensus,
}

impl Census {
    /// Counts a line with its answer and the bridge after it.
    pub fn count(&mut self, line: &[u8], reply: &[u8], bridge: &Listed) {
        self.lines += 1;
        self.hops.count(line, reply, bridge);
        self.rates.count(line, reply, bridge);
        self.ranking.count(line, reply, bridge);
        self.passes.count(line, reply);
        self.listeners.count(line, reply, bridge);
        self.versions.count(line, reply, bridge);
        self.samples.count(line, reply, bridge);
        self.timestamps.count(line, reply);
        if reply == b"0E" {
            self.bad += 1;
            return;
        }
        if let Some(latch) = latches::called(line) {
            self.stamps.count(latch, Some(answer_of(reply)), bridge);
            return;
        }
        match line.first() {
            Some(b'C') => self.count_chosen(reply),
            Some(b'B') if reply == b"-" => self.no_parts += 1,
            Some(b'B') => self.parts += 1,
            Some(letter) => self.count_answer(*letter, reply),
            None => {}
        }
    }

    /// Counts a chosen clock.
    fn count_chosen(&mut self, reply: &[u8]) {
        match reply {
            b"FF FF" => self.chosen_none += 1,
            [b'0', b'0', ..] => self.chosen_own += 1,
            _ => self.chosen_port += 1,
        }
    }

    /// Counts an answer that is a number.
    fn count_answer(&mut self, letter: u8, reply: &[u8]) {
        if letter == b'D' && reply.len() > 2 {
            self.readings += 1;
        }
        if let Some(row) = LETTERS.iter().position(|known| *known == letter) {
            self.counts[row][usize::from(answer_of(reply))] += 1;
        }
    }

    /// Says whether every answer was seen.
    pub fn complete(&self) -> bool {
        self.missing().is_empty()
            && self.stamps.missing().is_empty()
            && self.hops.missing().is_empty()
            && self.rates.missing().is_empty()
            && self.ranking.missing().is_empty()
            && self.passes.missing().is_empty()
            && self.listeners.missing().is_empty()
            && self.versions.missing().is_empty()
            && self.samples.missing().is_empty()
            && self.timestamps.missing().is_empty()
            && self.stamps.counts[NOWHERE][usize::from(OUT_OF_RANGE)] > 0
    }

    /// Gives the answers that were never seen.
    fn missing(&self) -> Vec<usize> {
        let seen = |answer| {
            self.counts.iter().any(|row| row[answer] > 0) || (answer == 14 && self.bad > 0)
        };
        (0..ANSWERS).filter(|answer| !seen(*answer)).collect()
    }
}

impl fmt::Display for Census {
    /// Prints a row for each call with a column for each answer.
    fn fmt(&self, out: &mut fmt::Formatter) -> fmt::Result {
        put_row(out, "", &(0..ANSWERS).collect::<Vec<usize>>())?;
        for (letter, row) in LETTERS.iter().zip(&self.counts) {
            put_row(out, &char::from(*letter).to_string(), row)?;
        }
        write!(out, "{}{}", self.timestamps, self.stamps)?;
        writeln!(
            out,
            "C    none {}, own {}, port {}",
            self.chosen_none, self.chosen_own, self.chosen_port
        )?;
        writeln!(out, "B    part {}, none {}", self.parts, self.no_parts)?;
        writeln!(out, "D    readings {}", self.readings)?;
        write!(out, "{}{}{}", self.hops, self.rates, self.ranking)?;
        write!(out, "{}{}{}", self.passes, self.listeners, self.versions)?;
        write!(out, "{}", self.samples)?;
        writeln!(out, "no call (14) {}", self.bad)?;
        writeln!(out, "lines {}", self.lines)?;
        writeln!(out, "answers missing {:?}", self.missing())
    }
}
