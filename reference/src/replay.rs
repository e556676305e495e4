//! Lines that each make one call of a bridge.

use crate::answer::{Answer, BAD_LINE, DONE, OUT_OF_RANGE};
use crate::bridge::{Calls, Plan, Profile, PORTS_MOST};
use crate::frame::{self, Fields, Version, MAC_LEN, PRECEDENCE_LEN};
use crate::hex::{self, GRAND_DIGITS, LOCAL_DIGITS, NANOSECONDS_DIGITS, SECONDS_DIGITS};
use crate::program::Program;
use crate::ptp::{self, Scale, Timestamp};
use crate::rules;
use crate::times::grand;

/// The longest line that can have the form, the one with two of the longest byte fields.
pub const LINE_MOST: usize = 1 + 2 * (1 + 2 * BYTES_MOST);
/// The most bytes of a field or of an output.
pub const BYTES_MOST: usize = 128;
/// What the bytes of an output are before the call.
pub const FILLING: u8 = 0xA5;

/// What is printed for no clock, both as port and as hop.
const NONE: u8 = 0xFF;

/// A bridge that lines are played to.
#[derive(Clone, Copy, Debug)]
pub struct Replay<C> {
    pub bridge: C,
}

/// The fields of a line that are still to be read.
struct Rest<'a> {
    parts: std::slice::Split<'a, u8, fn(&u8) -> bool>,
}

/// An output lent to a call.
struct Output {
    bytes: [u8; BYTES_MOST],
    length: usize,
}

impl<'a> Rest<'a> {
    /// Cuts a line at each space.
    fn of(line: &'a [u8]) -> Rest<'a> {
        Rest {
            parts: line.split(|letter| *letter == b' '),
        }
    }

    /// Gives the next field as it stands.
    fn part(&mut self) -> Option<&'a [u8]> {
        self.parts.next()
    }

    /// Gives the next field as a number.
    fn number(&mut self) -> Option<u64> {
        hex::number(self.part()?)
    }

    /// Gives the next field as a number below 256.
    fn byte(&mut self) -> Option<u8> {
        u8::try_from(self.number()?).ok()
    }

    /// Gives the next field as a number, or nothing where it is the given letter.
    fn number_unless(&mut self, letter: &[u8]) -> Option<Option<u64>> {
        let part = self.part()?;
        if part == letter {
            Some(None)
        } else {
            hex::number(part).map(Some)
        }
    }

    /// Gives the next field as a yes or no.
    fn flag(&mut self) -> Option<bool> {
        match self.part()? {
            b"0" => Some(false),
            b"1" => Some(true),
            _ => None,
        }
    }

    /// Gives the next field as bytes in a room, where a dash is for none.
    fn bytes<'r>(&mut self, room: &'r mut [u8; BYTES_MOST]) -> Option<&'r [u8]> {
        match self.part()? {
            b"-" => Some(&room[..0]),
            b"" => None,
            part => hex::bytes(part, room),
        }
    }

    /// Gives the next field as exactly so many bytes.
    fn exactly<const LEN: usize>(&mut self) -> Option<[u8; LEN]> {
        let mut room = [0; BYTES_MOST];
        self.bytes(&mut room)?.try_into().ok()
    }

    /// Gives the next field as a precedence.
    fn precedence(&mut self) -> Option<u128> {
        self.exactly::<PRECEDENCE_LEN>()
            .map(|bytes| frame::number(&bytes))
    }

    /// Gives the next field as leap seconds, which have a sign.
    fn leap_seconds(&mut self) -> Option<i16> {
        self.exactly().map(i16::from_be_bytes)
    }

    /// Gives the next field as the length of an output.
    fn output(&mut self) -> Option<Output> {
        let length = usize::try_from(self.number()?).ok()?;
        (length <= BYTES_MOST).then_some(Output {
            bytes: [FILLING; BYTES_MOST],
            length,
        })
    }

    /// Makes sure that no field is left.
    fn end(&mut self) -> Option<()> {
        match self.part() {
            None => Some(()),
            Some(_) => None,
        }
    }
}

impl Output {
    /// Lends the bytes to a call.
    fn lent(&mut self) -> &mut [u8] {
        &mut self.bytes[..self.length]
    }

    /// Prints an answer and the bytes.
    fn put(&self, answer: Answer, out: &mut Vec<u8>) {
        hex::put_byte(out, answer);
        out.push(b' ');
        hex::put_bytes(out, &self.bytes[..self.length]);
    }
}

impl<C: Calls> Program for Replay<C> {
    type Bridge = C;
    const LONGEST: usize = LINE_MOST;

    /// Starts with the bridge as it is.
    fn on(bridge: C) -> Self {
        Replay { bridge }
    }

    /// Plays one line and prints what it answers.
    fn answer(&mut self, line: &[u8], out: &mut Vec<u8>) {
        if self.play(line, out).is_none() {
            hex::put_byte(out, BAD_LINE);
        }
    }
}

impl<C: Calls> Replay<C> {
    /// Plays one line if it has the form, and nothing else.
    fn play(&mut self, line: &[u8], out: &mut Vec<u8>) -> Option<()> {
        if line.len() > LINE_MOST {
            return None;
        }
        let mut rest = Rest::of(line);
        match rest.part()? {
            b"S" | b"P" | b"V" => self.setup(line, out),
            b"L" => self.links(rest, out),
            b"O" => self.own_clock(rest, out),
            b"R" => self.receive(rest, out),
            b"A" => self.age(rest, out),
            b"C" => self.chosen(rest, out),
            b"K" => self.ranked(rest, out),
            b"T" => self.send(rest, out),
            b"D" => self.drift(rest, out),
            b"E" => self.stamp(rest, out),
            b"F" => read(rest, out),
            b"W" => write(rest, out),
            b"B" => better(rest, out),
            b"H" => passes_left(rest, out),
            b"X" => export(rest, out),
            b"I" => import(rest, out),
            b"G" => gps(rest, out),
            b"U" => by_leap_seconds(Scale::Utc, rest, out),
            b"N" => by_leap_seconds(Scale::Ntp, rest, out),
            _ => None,
        }
    }

    /// Plays a setup.
    fn setup(&mut self, line: &[u8], out: &mut Vec<u8>) -> Option<()> {
        let plan = plan_in(line)?;
        hex::put_byte(out, self.bridge.setup(&plan));
        Some(())
    }

    /// Plays a setting of links.
    fn links(&mut self, mut rest: Rest, out: &mut Vec<u8>) -> Option<()> {
        let mask = rest.byte()?;
        rest.end()?;
        match self.bridge.links(mask) {
            Ok(count) => put_two(out, DONE, count),
            Err(refusal) => hex::put_byte(out, refusal),
        }
        Some(())
    }

    /// Plays a reading of the own clock.
    fn own_clock(&mut self, mut rest: Rest, out: &mut Vec<u8>) -> Option<()> {
        let count = rest.byte()?;
        let seconds = rest.number()?;
        let fraction = rest.number()?;
        let now = rest.number()?;
        rest.end()?;
        let answer = self.bridge.own_clock(count, seconds, fraction, now);
        hex::put_byte(out, answer);
        Some(())
    }

    /// Plays the arrival of a frame.
    fn receive(&mut self, mut rest: Rest, out: &mut Vec<u8>) -> Option<()> {
        let mut room = [0; BYTES_MOST];
        let port = rest.byte()?;
        let arrival = rest.number()?;
        let bytes = rest.bytes(&mut room)?;
        rest.end()?;
        hex::put_byte(out, self.bridge.receive(port, bytes, arrival));
        Some(())
    }

    /// Plays ageing.
    fn age(&mut self, mut rest: Rest, out: &mut Vec<u8>) -> Option<()> {
        let now = rest.number()?;
        rest.end()?;
        hex::put_byte(out, self.bridge.age(now));
        Some(())
    }

    /// Prints the chosen clock.
    fn chosen(&mut self, mut rest: Rest, out: &mut Vec<u8>) -> Option<()> {
        rest.end()?;
        put_chosen(out, self.bridge.chosen());
        Some(())
    }

    /// Prints the candidate at a place of the ranking.
    fn ranked(&mut self, mut rest: Rest, out: &mut Vec<u8>) -> Option<()> {
        let place = rest.byte()?;
        rest.end()?;
        let ranked = self.bridge.ranked(place);
        put_chosen(out, ranked.map(|clock| (clock.port, clock.hop)));
        Some(())
    }

    /// Plays a send.
    fn send(&mut self, mut rest: Rest, out: &mut Vec<u8>) -> Option<()> {
        let port = rest.byte()?;
        let departure = rest.number()?;
        let mut output = rest.output()?;
        rest.end()?;
        let answer = self.bridge.send(port, departure, output.lent());
        output.put(answer, out);
        Some(())
    }

    /// Prints a drift.
    fn drift(&mut self, mut rest: Rest, out: &mut Vec<u8>) -> Option<()> {
        let port = rest.byte()?;
        rest.end()?;
        match self.bridge.drift(port) {
            Ok(None) => hex::put_byte(out, DONE),
            Ok(Some(reading)) => {
                hex::put_byte(out, DONE);
                out.push(b' ');
                hex::put_bytes(out, &reading.to_bits().to_be_bytes());
            }
            Err(refusal) => hex::put_byte(out, refusal),
        }
        Some(())
    }

    /// Prints the stamp of a latch.
    fn stamp(&mut self, mut rest: Rest, out: &mut Vec<u8>) -> Option<()> {
        let latch = rest.number()?;
        rest.end()?;
        match self.bridge.stamp(latch) {
            Ok(stamp) => put_done(out, &[(stamp, GRAND_DIGITS)]),
            Err(refusal) => hex::put_byte(out, refusal),
        }
        Some(())
    }
}

/// Gives the plan in a line that sets a station up: a full bridge, a listener, or one with every part said.
pub fn plan_in(line: &[u8]) -> Option<Plan> {
    let mut rest = Rest::of(line);
    let plan = match rest.part()? {
        b"S" => planned(Profile::Full, &mut rest)?,
        b"P" => planned(Profile::Listener, &mut rest)?,
        b"V" => planned_in_full(&mut rest)?,
        _ => return None,
    };
    rest.end()?;
    Some(plan)
}

/// Gives the plan of a setup that says the profile before all else and the versions after it.
fn planned_in_full(rest: &mut Rest) -> Option<Plan> {
    let profile = match rest.flag()? {
        false => Profile::Full,
        true => Profile::Listener,
    };
    let plan = planned(profile, rest)?;
    Some(Plan {
        versions: rest.exactly::<PORTS_MOST>()?.map(Version),
        ..plan
    })
}

/// Gives the plan of a setup as a profile, with version 1 at every port.
fn planned(profile: Profile, rest: &mut Rest) -> Option<Plan> {
    let mut plan = Plan {
        profile,
        ports: rest.byte()?,
        mac: rest.exactly::<MAC_LEN>()?,
        precedence: rest.precedence()?,
        capable: rest.flag()?,
        timeout: rest.number_unless(b"D")?,
        back: rest.number_unless(b"D")?,
        delays: [None; PORTS_MOST],
        versions: [Version::ONE; PORTS_MOST],
    };
    for delay in &mut plan.delays {
        *delay = rest.number_unless(b"M")?;
    }
    Some(plan)
}

/// Prints two bytes with a space between them.
fn put_two(out: &mut Vec<u8>, first: u8, second: u8) {
    hex::put_byte(out, first);
    out.push(b' ');
    hex::put_byte(out, second);
}

/// Prints that a call was done and the numbers that it gave, each in its full width.
fn put_done(out: &mut Vec<u8>, numbers: &[(u128, usize)]) {
    hex::put_byte(out, DONE);
    for (number, digits) in numbers {
        out.push(b' ');
        hex::put_number(out, *number, *digits);
    }
}

/// Prints port and held hop of a clock, or that there is none.
pub fn put_chosen(out: &mut Vec<u8>, chosen: Option<(u8, u8)>) {
    let (port, hop) = chosen.unwrap_or((NONE, NONE));
    put_two(out, port, hop);
}

/// Prints the fields of a frame.
fn read(mut rest: Rest, out: &mut Vec<u8>) -> Option<()> {
    let mut room = [0; BYTES_MOST];
    let bytes = rest.bytes(&mut room)?;
    rest.end()?;
    match frame::read(bytes) {
        Ok(fields) => put_fields(out, &fields),
        Err(refusal) => hex::put_byte(out, refusal),
    }
    Some(())
}

/// Prints fields, each in its full width.
fn put_fields(out: &mut Vec<u8>, fields: &Fields) {
    let numbers = [
        (frame::number(&fields.sa), 12),
        (fields.precedence, 26),
        (u128::from(fields.hop), 2),
        (u128::from(fields.count), 2),
        (fields.grand, GRAND_DIGITS),
        (u128::from(fields.local), LOCAL_DIGITS),
        (u128::from(fields.that_tx), LOCAL_DIGITS),
        (u128::from(fields.that_rx), LOCAL_DIGITS),
        (u128::from(fields.error as u32), 8),
        (u128::from(fields.version.0), 2),
    ];
    put_done(out, &numbers);
}

/// Plays a write of a frame.
fn write(mut rest: Rest, out: &mut Vec<u8>) -> Option<()> {
    let mut fields = Fields {
        sa: rest.exactly::<MAC_LEN>()?,
        precedence: rest.precedence()?,
        hop: rest.byte()?,
        count: rest.byte()?,
        ..Fields::default()
    };
    let time = grand(rest.number()?, rest.number()?);
    fields.local = rest.number()?;
    fields.that_tx = rest.number()?;
    fields.that_rx = rest.number()?;
    fields.error = i32::from_be_bytes(rest.exactly()?);
    fields.version = Version(rest.byte()?);
    let mut output = rest.output()?;
    rest.end()?;
    let answer = match time {
        Some(grand) => frame::write(&Fields { grand, ..fields }, output.lent()),
        None => OUT_OF_RANGE,
    };
    output.put(answer, out);
    Some(())
}

/// Prints the precedence of the better of two frames.
fn better(mut rest: Rest, out: &mut Vec<u8>) -> Option<()> {
    let (mut one, mut two) = ([0; BYTES_MOST], [0; BYTES_MOST]);
    let first = rest.bytes(&mut one)?;
    let second = rest.bytes(&mut two)?;
    rest.end()?;
    hex::put_bytes(out, frame::better(first, second));
    Some(())
}

/// Prints the passes left at a hop.
fn passes_left(mut rest: Rest, out: &mut Vec<u8>) -> Option<()> {
    let hop = rest.byte()?;
    rest.end()?;
    hex::put_byte(out, rules::passes_left(hop));
    Some(())
}

/// Prints the timestamp of a grand time.
fn export(mut rest: Rest, out: &mut Vec<u8>) -> Option<()> {
    let seconds = rest.number()?;
    let fraction = rest.number()?;
    rest.end()?;
    match ptp::export(seconds, fraction) {
        Ok(timestamp) => put_timestamp(out, &timestamp),
        Err(refusal) => hex::put_byte(out, refusal),
    }
    Some(())
}

/// Prints a timestamp.
fn put_timestamp(out: &mut Vec<u8>, timestamp: &Timestamp) {
    let numbers = [
        (u128::from(timestamp.seconds.count()), SECONDS_DIGITS),
        (u128::from(timestamp.nanoseconds), NANOSECONDS_DIGITS),
    ];
    put_done(out, &numbers);
}

/// Prints the grand time of a timestamp.
fn import(mut rest: Rest, out: &mut Vec<u8>) -> Option<()> {
    let seconds = rest.number()?;
    let nanoseconds = rest.number()?;
    rest.end()?;
    match ptp::import(seconds, nanoseconds) {
        Ok(grand) => put_done(out, &[(grand, GRAND_DIGITS)]),
        Err(refusal) => hex::put_byte(out, refusal),
    }
    Some(())
}

/// Prints PTP seconds as those of GPS.
fn gps(mut rest: Rest, out: &mut Vec<u8>) -> Option<()> {
    let seconds = rest.number()?;
    rest.end()?;
    put_on_scale(out, seconds, Scale::Gps);
    Some(())
}

/// Prints PTP seconds as those of a scale that needs the leap seconds.
fn by_leap_seconds(scale: fn(i16) -> Scale, mut rest: Rest, out: &mut Vec<u8>) -> Option<()> {
    let seconds = rest.number()?;
    let leap = rest.leap_seconds()?;
    rest.end()?;
    put_on_scale(out, seconds, scale(leap));
    Some(())
}

/// Prints PTP seconds as those of a scale, or the refusal.
fn put_on_scale(out: &mut Vec<u8>, seconds: u64, scale: Scale) {
    match ptp::on_scale(seconds, scale) {
        Ok(told) => put_done(out, &[(u128::from(told), SECONDS_DIGITS)]),
        Err(refusal) => hex::put_byte(out, refusal),
    }
}
