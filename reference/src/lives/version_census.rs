//! Counts how versions fared: in setups that say every part, in frames that were sent, heard, read and written, and in comparisons.

use super::census::put_counts;
use super::limits;
use super::listener_census::{add, heard_in, place_in, sent_in};
use super::pen::answer_of;
use crate::answer::{
    Answer, BAD_DELAY, BAD_LENGTH, BAD_SETUP, BAD_VERSION, BEYOND_RANGE, DONE, OUT_OF_RANGE,
    TOO_FAR,
};
use crate::bridge::{Calls, Listed, Plan, Profile, PORTS_MOST};
use crate::frame::{self, Fields, Version, AT_VERSION};
use crate::hex;
use crate::replay::{self, BYTES_MOST};
use crate::rules;
use std::fmt;

/// The wrong versions that are counted by themselves; the others are counted together.
const WRONG: [u8; 3] = [0, 3, u8::MAX];
/// How many kinds of wrong versions are counted.
const WRONG_KINDS: usize = WRONG.len() + 1;

/// How a setup that says every part ended. It was refused for the version of one port alone: by that version, by the port's place,
/// and for a listener's. It was taken: with version 1 at each port, with 2 at each, with both, with a wrong one beyond the ports,
/// as a listener's of either version. Or it was no line.
const SETUPS: [&str; 14] = [
    "refused 0",
    "refused 3",
    "refused 255",
    "refused other",
    "refused first",
    "refused last",
    "refused listener",
    "1 at each",
    "2 at each",
    "mixed",
    "wrong beyond",
    "listener 1",
    "listener 2",
    "no line",
];
const REFUSED_FIRST: usize = 4;
const REFUSED_LAST: usize = 5;
const REFUSED_LISTENER: usize = 6;
const ONE_AT_EACH: usize = 7;
const TWO_AT_EACH: usize = 8;
const MIXED: usize = 9;
const WRONG_BEYOND: usize = 10;
const LISTENER_ONE: usize = 11;
const LISTENER_TWO: usize = 12;
const SETUP_NO_LINE: usize = 13;

/// What a send came to. In version 1: a frame, and one where version 2 is refused for its errorTime. In version 2: a frame with nothing
/// added, with more or less, always rounded down; one with the greatest errorTime and one with the least; refused for its errorTime
/// at either end, and for its grand time alone. And a listener's frame in either version.
const SENT: [&str; 12] = [
    "1",
    "1 where 2 is refused",
    "2 with nothing",
    "2 with more",
    "2 with less",
    "2 at the greatest",
    "2 at the least",
    "2 refused above",
    "2 refused below",
    "2 refused for grand time",
    "listener 1",
    "listener 2",
];
const SENT_ONE: usize = 0;
const SENT_ONE_INSTEAD: usize = 1;
const WITH_NOTHING: usize = 2;
const WITH_MORE: usize = 3;
const WITH_LESS: usize = 4;
const AT_GREATEST: usize = 5;
const AT_LEAST: usize = 6;
const REFUSED_ABOVE: usize = 7;
const REFUSED_BELOW: usize = 8;
const REFUSED_FOR_GRAND: usize = 9;
const LISTENER_SENT_ONE: usize = 10;
const LISTENER_SENT_TWO: usize = 11;

/// What became of a frame that was heard: refused with 6, by its version; taken, by its version and the port's; taken after one of the
/// other version at the same port; refused with 7, 8 or 9 in version 2.
const HEARD: [&str; 10] = [
    "refused 0",
    "refused 3",
    "refused 255",
    "refused other",
    "1 at 1",
    "1 at 2",
    "2 at 1",
    "2 at 2",
    "changed",
    "2 refused for more",
];
const HEARD_TAKEN: usize = 4;
const HEARD_CHANGED: usize = 8;
const HEARD_FOR_MORE: usize = 9;

/// What became of a frame that was to be read: refused with 6, by its version, or read.
const READ: [&str; 6] = [
    "refused 0",
    "refused 3",
    "refused 255",
    "refused other",
    "1",
    "2",
];
const READ_ONE: usize = 4;

/// What became of a frame that was to be written: refused with 6, by its version, or written; or refused with 2 or 4 though its version is wrong too.
const WRITTEN: [&str; 8] = [
    "refused 0",
    "refused 3",
    "refused 255",
    "refused other",
    "1",
    "2",
    "wrong out of range",
    "wrong too short",
];
const WRITTEN_ONE: usize = 4;
const WRONG_OUT_OF_RANGE: usize = 6;
const WRONG_TOO_SHORT: usize = 7;

/// Of what versions two frames were that were compared: both known, or one or both wrong and else right.
const COMPARED: [&str; 7] = [
    "1 and 1",
    "1 and 2",
    "2 and 1",
    "2 and 2",
    "first wrong",
    "second wrong",
    "both wrong",
];
const FIRST_WRONG: usize = 4;
const SECOND_WRONG: usize = 5;
const BOTH_WRONG: usize = 6;

/// Counts of setups, sends, arrivals, reads, writes and comparisons by their versions.
#[derive(Default)]
pub struct VersionCensus {
    taken_last: [Option<Version>; PORTS_MOST],
    setups: [u64; SETUPS.len()],
    sent: [u64; SENT.len()],
    heard: [u64; HEARD.len()],
    read: [u64; READ.len()],
    written: [u64; WRITTEN.len()],
    compared: [u64; COMPARED.len()],
}

impl VersionCensus {
    /// Counts a line with its answer and the bridge after it.
    pub fn count(&mut self, line: &[u8], reply: &[u8], bridge: &Listed) {
        let is_line = reply != b"0E";
        match line.first() {
            Some(b'V') => self.count_setup(line, reply),
            Some(b'S' | b'P') if is_line => self.taken_last = Default::default(),
            Some(b'T') if is_line => self.count_sent(line, reply, bridge),
            Some(b'R') if is_line => self.count_heard(line, reply, bridge),
            Some(b'F') if is_line => self.count_read(line, reply),
            Some(b'W') if is_line => self.count_written(line, reply),
            Some(b'B') if is_line => self.count_compared(line),
            _ => {}
        }
    }

    /// Counts a setup that says every part.
    fn count_setup(&mut self, line: &[u8], reply: &[u8]) {
        let Some(plan) = replay::plan_in(line) else {
            self.setups[SETUP_NO_LINE] += 1;
            return;
        };
        self.taken_last = Default::default();
        match answer_of(reply) {
            DONE => add(&mut self.setups, &taken_kinds(&plan)),
            BAD_SETUP => self.count_refused(&plan),
            _ => {}
        }
    }

    /// Counts a setup that was refused, where one port's version was the only reason.
    fn count_refused(&mut self, plan: &Plan) {
        let wrong = wrong_places(looked_at(plan));
        let right = Plan {
            versions: Default::default(),
            ..*plan
        };
        let &[place] = &wrong[..] else {
            return;
        };
        if Listed::empty().setup(&right) != DONE {
            return;
        }
        let last = usize::from(plan.ports) - 1;
        let kinds = [
            (wrong_kind(plan.versions[place]), true),
            (REFUSED_FIRST, place == 0),
            (REFUSED_LAST, place == last && last > 0),
            (REFUSED_LISTENER, plan.profile == Profile::Listener),
        ];
        add(&mut self.setups, &kinds);
    }

    /// Counts a send that made a frame or was refused with 13.
    fn count_sent(&mut self, line: &[u8], reply: &[u8], bridge: &Listed) {
        let Some(port) = place_in(line).and_then(|place| bridge.ports.get(place)) else {
            return;
        };
        if bridge.settings.profile == Profile::Listener {
            self.count_listened(line, reply);
        } else if port.version == Version::ONE {
            let kinds = sent_in_one(line, reply, bridge);
            add(&mut self.sent, &kinds);
        } else {
            let kinds = sent_in_two(line, reply, bridge);
            add(&mut self.sent, &kinds.unwrap_or_default());
        }
    }

    /// Counts a frame that a listener sent.
    fn count_listened(&mut self, line: &[u8], reply: &[u8]) {
        if let Some(fields) = sent_in(line, reply) {
            let kinds = [
                (LISTENER_SENT_ONE, fields.version == Version::ONE),
                (LISTENER_SENT_TWO, fields.version == Version::TWO),
            ];
            add(&mut self.sent, &kinds);
        }
    }

    /// Counts a frame that arrived.
    fn count_heard(&mut self, line: &[u8], reply: &[u8], bridge: &Listed) {
        let answer = answer_of(reply);
        let frame = line.split(|letter| *letter == b' ').nth(3);
        if let Some(wrong) = frame.filter(|_| answer == BAD_VERSION).and_then(version_in) {
            self.heard[wrong_kind(wrong)] += 1;
        }
        let Some((place, fields)) = place_in(line).zip(heard_in(line)) else {
            return;
        };
        let for_more = (TOO_FAR..=BAD_DELAY).contains(&answer) && fields.version == Version::TWO;
        self.heard[HEARD_FOR_MORE] += u64::from(for_more);
        if answer == DONE {
            self.count_taken(place, &fields, bridge);
        }
    }

    /// Counts a frame that was taken at the port at a place.
    fn count_taken(&mut self, place: usize, fields: &Fields, bridge: &Listed) {
        let at = bridge.ports[place].version;
        self.heard[HEARD_TAKEN + pair_kind(fields.version, at)] += 1;
        let before = self.taken_last[place].replace(fields.version);
        let changed = before.is_some_and(|version| version != fields.version);
        self.heard[HEARD_CHANGED] += u64::from(changed);
    }

    /// Counts a frame that was to be read.
    fn count_read(&mut self, line: &[u8], reply: &[u8]) {
        let frame = line.split(|letter| *letter == b' ').nth(1);
        if let Some(version) = frame.and_then(version_in) {
            match answer_of(reply) {
                DONE => self.read[READ_ONE + two_kind(version)] += 1,
                BAD_VERSION => self.read[wrong_kind(version)] += 1,
                _ => {}
            }
        }
    }

    /// Counts a frame that was to be written.
    fn count_written(&mut self, line: &[u8], reply: &[u8]) {
        let Some(version) = written_version(line) else {
            return;
        };
        let kind = match answer_of(reply) {
            DONE => WRITTEN_ONE + two_kind(version),
            BAD_VERSION => wrong_kind(version),
            OUT_OF_RANGE if !version.is_known() => WRONG_OUT_OF_RANGE,
            BAD_LENGTH if !version.is_known() => WRONG_TOO_SHORT,
            _ => return,
        };
        self.written[kind] += 1;
    }

    /// Counts a comparison.
    fn count_compared(&mut self, line: &[u8]) {
        let mut parts = line.split(|letter| *letter == b' ').skip(1);
        let mut next = || parts.next().map(standing);
        let kind = match (next(), next()) {
            (Some(Ok(first)), Some(Ok(second))) => pair_kind(first, second),
            (Some(Err(BAD_VERSION)), Some(Ok(_))) => FIRST_WRONG,
            (Some(Ok(_)), Some(Err(BAD_VERSION))) => SECOND_WRONG,
            (Some(Err(BAD_VERSION)), Some(Err(BAD_VERSION))) => BOTH_WRONG,
            _ => return,
        };
        self.compared[kind] += 1;
    }

    /// Gives each row of counts with its name and the names of its columns.
    fn rows(&self) -> [(&str, &[&str], &[u64]); 6] {
        [
            ("set up", &SETUPS, &self.setups),
            ("sent", &SENT, &self.sent),
            ("heard", &HEARD, &self.heard),
            ("read", &READ, &self.read),
            ("written", &WRITTEN, &self.written),
            ("compared", &COMPARED, &self.compared),
        ]
    }

    /// Gives what was never seen.
    pub fn missing(&self) -> Vec<String> {
        let mut missing = Vec::new();
        for (row, names, counts) in self.rows() {
            let unseen = names.iter().zip(counts).filter(|(_, count)| **count == 0);
            missing.extend(unseen.map(|(name, _)| format!("{row} {name}")));
        }
        missing
    }
}

impl fmt::Display for VersionCensus {
    /// Prints a row for each thing that versions are counted in.
    fn fmt(&self, out: &mut fmt::Formatter) -> fmt::Result {
        for (row, names, counts) in self.rows() {
            put_counts(out, &format!("versions {row}"), names, counts)?;
        }
        writeln!(out, "versions missing {:?}", self.missing())
    }
}

/// Gives the versions of the ports that a plan has.
fn looked_at(plan: &Plan) -> &[Version] {
    let ports = usize::from(plan.ports).min(PORTS_MOST);
    &plan.versions[..ports]
}

/// Gives the places of the wrong versions among some.
fn wrong_places(versions: &[Version]) -> Vec<usize> {
    let wrong = |place: &usize| !versions[*place].is_known();
    (0..versions.len()).filter(wrong).collect()
}

/// Gives the kind of a wrong version.
fn wrong_kind(version: Version) -> usize {
    let known = WRONG.iter().position(|wrong| *wrong == version.0);
    known.unwrap_or(WRONG_KINDS - 1)
}

/// Gives 0 for version 1 and 1 for version 2.
fn two_kind(version: Version) -> usize {
    usize::from(version == Version::TWO)
}

/// Gives which pair of versions two are, in the order in which pairs are named.
fn pair_kind(first: Version, second: Version) -> usize {
    2 * two_kind(first) + two_kind(second)
}

/// Gives which kinds a setup is of that was taken.
fn taken_kinds(plan: &Plan) -> [(usize, bool); 6] {
    let versions = looked_at(plan);
    let full = plan.profile == Profile::Full;
    let one = versions.contains(&Version::ONE);
    let two = versions.contains(&Version::TWO);
    let beyond = &plan.versions[versions.len()..];
    [
        (ONE_AT_EACH, full && !two),
        (TWO_AT_EACH, full && !one),
        (MIXED, full && one && two),
        (WRONG_BEYOND, !wrong_places(beyond).is_empty()),
        (LISTENER_ONE, !full && one),
        (LISTENER_TWO, !full && two),
    ]
}

/// What the frame of version 2 would be for the clock that a bridge follows.
struct Rest {
    /// What is added to the newest sample's errorTime.
    added: i128,
    /// What is sent as errorTime, if it can be.
    sent: i128,
}

/// Gives what version 2 sends for the clock that a bridge follows, where that has at least two samples.
fn rest_of(bridge: &Listed) -> Option<Rest> {
    let samples = limits::followed(bridge);
    let (rate, newest) = samples.rate().zip(samples.newest())?;
    let back = bridge.settings.back;
    Some(Rest {
        added: rules::sent_error(rate, 0, back),
        sent: rules::sent_error(rate, newest.error, back),
    })
}

/// Gives which kinds a send in version 1 is of.
fn sent_in_one(line: &[u8], reply: &[u8], bridge: &Listed) -> [(usize, bool); 2] {
    let sent = sent_in(line, reply).is_some();
    let refused_in_two = rest_of(bridge).is_some_and(|rest| i32::try_from(rest.sent).is_err());
    [(SENT_ONE, sent), (SENT_ONE_INSTEAD, sent && refused_in_two)]
}

/// Gives which kinds a send in version 2 is of, where there were at least two samples.
fn sent_in_two(line: &[u8], reply: &[u8], bridge: &Listed) -> Option<[(usize, bool); 8]> {
    let rest = rest_of(bridge)?;
    let sent = sent_in(line, reply);
    let error = sent.map(|fields| fields.error);
    let refused = answer_of(reply) == BEYOND_RANGE;
    let above = rest.sent > i128::from(i32::MAX);
    let below = rest.sent < i128::from(i32::MIN);
    Some([
        (WITH_NOTHING, sent.is_some() && rest.added == 0),
        (WITH_MORE, sent.is_some() && rest.added > 0),
        (WITH_LESS, sent.is_some() && rest.added < 0),
        (AT_GREATEST, error == Some(i32::MAX)),
        (AT_LEAST, error == Some(i32::MIN)),
        (REFUSED_ABOVE, refused && above),
        (REFUSED_BELOW, refused && below),
        (REFUSED_FOR_GRAND, refused && !above && !below),
    ])
}

/// Gives the version in the digits of a frame.
fn version_in(digits: &[u8]) -> Option<Version> {
    let digits = digits.get(2 * AT_VERSION..2 * AT_VERSION + 2)?;
    hex::byte(digits).map(Version)
}

/// Gives the version in a line that has a frame written.
fn written_version(line: &[u8]) -> Option<Version> {
    let version = line.rsplit(|letter| *letter == b' ').nth(1)?;
    u8::try_from(hex::number(version)?).ok().map(Version)
}

/// Gives the version of a frame in digits, or the refusal that it meets.
fn standing(digits: &[u8]) -> Result<Version, Answer> {
    let mut room = [0; BYTES_MOST];
    let bytes = hex::bytes(digits, &mut room).unwrap_or_default();
    frame::read(bytes).map(|fields| fields.version)
}
