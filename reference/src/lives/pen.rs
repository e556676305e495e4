//! Writes lines, plays them to a bridge and hands them on.

use super::random::Random;
use super::spoil;
use super::Sink;
use crate::answer::{Answer, BAD_LINE};
use crate::bridge::{Bridge, Listed, Plan, Profile, PORTS_MOST};
use crate::frame::{self, Fields, Version, FRAME_LEN};
use crate::hex;
use crate::program::Program;
use crate::ptp::Scale;
use crate::replay::Replay;
use std::io;

/// In a thousand lines, how many are led by a spoiled copy.
const SPOILED: u64 = 8;
/// In a thousand setups, how many are led by a copy with one field changed.
const SPOILED_SETUPS: u64 = 500;
/// In a thousand setups with version 1 at every port, how many say every part.
const SAID_IN_FULL: u64 = 200;
/// In a thousand setups that say every part, how many are led by a copy with the versions or the profile changed.
const SPOILED_PARTS: u64 = 400;
/// In a thousand lines of timestamps and scales, how many more are led by a spoiled copy, since there are few of them.
const SPOILED_TIMESTAMPS: u64 = 60;
/// In a thousand lines with leap seconds, how many are led by a copy with these changed.
const SPOILED_LEAPS: u64 = 60;
/// In a thousand lines whose only field is a place or a hop, how many are led by a copy with it changed.
const SPOILED_BYTES: u64 = 30;
/// In a thousand numbers, how many are written with zeros before them.
const PADDED: u64 = 40;
/// In a thousand fields, how many are written with small letters.
const SMALL: u64 = 80;
/// How many frames are remembered for later use.
const REMEMBERED: usize = 8;

/// The writer of lines with the bridge that answers them.
pub struct Pen<'s> {
    pub random: Random,
    replay: Replay<Listed>,
    left: u64,
    line: Vec<u8>,
    reply: Vec<u8>,
    recent: Vec<[u8; FRAME_LEN]>,
    sink: Sink<'s>,
    failure: Option<io::Error>,
}

impl<'s> Pen<'s> {
    /// Starts with a bridge that was not set up.
    pub fn new(lines: u64, random: Random, sink: Sink<'s>) -> Pen<'s> {
        Pen {
            random,
            replay: Replay {
                bridge: Bridge::empty(),
            },
            left: lines,
            line: Vec::new(),
            reply: Vec::new(),
            recent: Vec::new(),
            sink,
            failure: None,
        }
    }

    /// Says whether all lines are written.
    pub fn done(&self) -> bool {
        self.left == 0
    }

    /// Says whether the sink took all lines.
    pub fn finish(self) -> io::Result<()> {
        self.failure.map_or(Ok(()), Err)
    }

    /// Gives the bridge as it stands after the last line.
    pub fn bridge(&self) -> &Listed {
        &self.replay.bridge
    }

    /// Starts a line with its letter.
    fn letter(&mut self, letter: u8) {
        self.line.clear();
        self.line.push(letter);
    }

    /// Appends a field as it stands.
    fn word(&mut self, word: &[u8]) {
        self.line.push(b' ');
        self.line.extend_from_slice(word);
    }

    /// Appends a yes or no.
    fn flag(&mut self, flag: bool) {
        self.word(if flag { b"1" } else { b"0" });
    }

    /// Appends a number, now and then with zeros before it.
    fn number(&mut self, number: u64) {
        let needed = hex::digits_of(number);
        let digits = if self.random.often(PADDED) {
            self.random.within(needed as u64, hex::NUMBER_DIGITS as u64) as usize
        } else {
            needed
        };
        let start = self.line.len() + 1;
        self.line.push(b' ');
        hex::put_number(&mut self.line, u128::from(number), digits);
        self.shrink(start);
    }

    /// Appends a number, or a letter where there is none.
    fn number_or(&mut self, number: Option<u64>, letter: &[u8]) {
        match number {
            Some(number) => self.number(number),
            None => self.word(letter),
        }
    }

    /// Appends bytes.
    fn bytes(&mut self, bytes: &[u8]) {
        let start = self.line.len() + 1;
        self.line.push(b' ');
        hex::put_bytes(&mut self.line, bytes);
        self.shrink(start);
    }

    /// Appends a precedence.
    fn precedence(&mut self, precedence: u128) {
        let mut bytes = [0; frame::PRECEDENCE_LEN];
        frame::put(&mut bytes, precedence);
        self.bytes(&bytes);
    }

    /// Makes some letters of the last field small now and then.
    fn shrink(&mut self, start: usize) {
        if !self.random.often(SMALL) {
            return;
        }
        let some = self.random.bits();
        for (place, letter) in self.line[start..].iter_mut().enumerate() {
            if some >> (place % 64) & 1 == 1 {
                letter.make_ascii_lowercase();
            }
        }
    }

    /// Plays the line, perhaps after a spoiled copy, and gives the answer's number.
    fn play(&mut self) -> Answer {
        if self.random.often(SPOILED) {
            self.lead(spoil::line);
        }
        self.hand_on()
    }

    /// Hands on a spoiled copy of the line.
    fn lead(&mut self, spoil: fn(&mut Random, &mut Vec<u8>)) {
        let whole = self.line.clone();
        spoil(&mut self.random, &mut self.line);
        self.hand_on();
        self.line = whole;
    }

    /// Plays the line as it stands and hands it on.
    fn hand_on(&mut self) -> Answer {
        if self.left == 0 {
            return BAD_LINE;
        }
        self.left -= 1;
        self.reply.clear();
        self.replay.answer(&self.line, &mut self.reply);
        if let Err(failure) = (self.sink)(&self.line, &self.reply, &self.replay.bridge) {
            self.failure = Some(failure);
            self.left = 0;
        }
        answer_of(&self.reply)
    }

    /// Remembers a frame for later use.
    fn remember(&mut self, bytes: &[u8]) {
        if let Ok(bytes) = bytes.try_into() {
            if self.recent.len() < REMEMBERED {
                self.recent.push(bytes);
            } else {
                let place = self.random.below(REMEMBERED as u64) as usize;
                self.recent[place] = bytes;
            }
        }
    }

    /// Gives a frame that was written before, or an empty one.
    pub fn remembered(&mut self) -> [u8; FRAME_LEN] {
        if self.recent.is_empty() {
            return frame::put_together(&Fields::default());
        }
        let place = self.random.below(self.recent.len() as u64) as usize;
        self.recent[place]
    }

    /// Writes any line.
    pub fn raw(&mut self, line: &[u8]) -> Answer {
        self.line.clear();
        self.line.extend_from_slice(line);
        self.hand_on()
    }

    /// Writes a setup, with every part said where a port has another version than 1, and at times where none has.
    pub fn setup(&mut self, plan: &Plan) -> Answer {
        let usual = plan.versions == [Version::ONE; PORTS_MOST];
        if usual && !self.random.often(SAID_IN_FULL) {
            self.letter(match plan.profile {
                Profile::Full => b'S',
                Profile::Listener => b'P',
            });
            self.planned(plan);
        } else {
            self.letter(b'V');
            self.flag(plan.profile == Profile::Listener);
            self.planned(plan);
            self.bytes(&plan.versions.map(|version| version.0));
            self.lead_parts();
        }
        if self.random.often(SPOILED_SETUPS) {
            self.lead(spoil::setup);
        }
        self.play()
    }

    /// Hands on copies of a setup that says every part, with its versions or its profile changed, now and then.
    fn lead_parts(&mut self) {
        if self.random.often(SPOILED_PARTS) {
            self.lead(spoil::versions_of_setup);
        }
        if self.random.often(SPOILED_PARTS) {
            self.lead(spoil::profile_of_setup);
        }
    }

    /// Appends the parts of a plan that every setup says.
    fn planned(&mut self, plan: &Plan) {
        self.number(u64::from(plan.ports));
        self.bytes(&plan.mac);
        self.precedence(plan.precedence);
        self.flag(plan.capable);
        self.number_or(plan.timeout, b"D");
        self.number_or(plan.back, b"D");
        for delay in plan.delays {
            self.number_or(delay, b"M");
        }
    }

    /// Writes a setting of links.
    pub fn links(&mut self, mask: u8) -> Answer {
        self.letter(b'L');
        self.number(u64::from(mask));
        self.play()
    }

    /// Writes a reading of the own clock.
    pub fn own_clock(&mut self, count: u8, seconds: u64, fraction: u64, now: u64) -> Answer {
        self.letter(b'O');
        self.number(u64::from(count));
        self.number(seconds);
        self.number(fraction);
        self.number(now);
        self.play()
    }

    /// Writes an arrival.
    pub fn receive(&mut self, port: u8, bytes: &[u8], arrival: u64) -> Answer {
        self.remember(bytes);
        self.letter(b'R');
        self.number(u64::from(port));
        self.number(arrival);
        self.bytes(bytes);
        self.play()
    }

    /// Writes ageing.
    pub fn age(&mut self, now: u64) -> Answer {
        self.letter(b'A');
        self.number(now);
        self.play()
    }

    /// Writes a question for the chosen clock.
    pub fn chosen(&mut self) -> Answer {
        self.letter(b'C');
        self.play()
    }

    /// Writes a question for the candidate at a place of the ranking.
    pub fn ranked(&mut self, place: u8) -> Answer {
        self.ask_byte(b'K', place)
    }

    /// Writes a question for the passes left at a hop.
    pub fn passes_left(&mut self, hop: u8) -> Answer {
        self.ask_byte(b'H', hop)
    }

    /// Writes a question whose only field is a byte, perhaps after a copy with it changed.
    fn ask_byte(&mut self, letter: u8, byte: u8) -> Answer {
        self.letter(letter);
        self.number(u64::from(byte));
        if self.random.often(SPOILED_BYTES) {
            self.lead(spoil::byte);
        }
        self.play()
    }

    /// Writes a send and gives the answer and the frame that came out.
    pub fn send(&mut self, port: u8, departure: u64, length: u64) -> (Answer, Option<Fields>) {
        self.letter(b'T');
        self.number(u64::from(port));
        self.number(departure);
        self.number(length);
        let answer = self.play();
        let sent = self.reply.get(3..3 + 2 * FRAME_LEN).and_then(|text| {
            let mut room = [0; FRAME_LEN];
            hex::bytes(text, &mut room)?;
            frame::read(&room).ok()
        });
        if let Some(fields) = sent {
            self.remember(&frame::put_together(&fields));
        }
        (answer, sent)
    }

    /// Writes a question for a drift.
    pub fn drift(&mut self, port: u8) -> Answer {
        self.letter(b'D');
        self.number(u64::from(port));
        self.play()
    }

    /// Writes a latch to be stamped.
    pub fn stamp(&mut self, latch: u64) -> Answer {
        self.letter(b'E');
        self.number(latch);
        self.play()
    }

    /// Writes a read of bytes.
    pub fn read(&mut self, bytes: &[u8]) -> Answer {
        self.letter(b'F');
        self.bytes(bytes);
        self.play()
    }

    /// Writes a write of fields, where the grand time comes in two parts.
    pub fn write(&mut self, fields: &Fields, seconds: u64, fraction: u64, length: u64) -> Answer {
        self.letter(b'W');
        self.bytes(&fields.sa);
        self.precedence(fields.precedence);
        self.number(u64::from(fields.hop));
        self.number(u64::from(fields.count));
        self.number(seconds);
        self.number(fraction);
        self.number(fields.local);
        self.number(fields.that_tx);
        self.number(fields.that_rx);
        self.bytes(&fields.error.to_be_bytes());
        self.number(u64::from(fields.version.0));
        self.number(length);
        self.play()
    }

    /// Writes a comparison of two frames.
    pub fn better(&mut self, first: &[u8], second: &[u8]) -> Answer {
        self.letter(b'B');
        self.bytes(first);
        self.bytes(second);
        self.play()
    }

    /// Writes an export of a grand time.
    pub fn export(&mut self, seconds: u64, fraction: u64) -> Answer {
        self.letter(b'X');
        self.number(seconds);
        self.number(fraction);
        self.play_timestamp()
    }

    /// Writes an import of a timestamp.
    pub fn import(&mut self, seconds: u64, nanoseconds: u64) -> Answer {
        self.letter(b'I');
        self.number(seconds);
        self.number(nanoseconds);
        self.play_timestamp()
    }

    /// Writes PTP seconds to be told on a scale.
    pub fn on_scale(&mut self, seconds: u64, scale: Scale) -> Answer {
        let (letter, leap) = match scale {
            Scale::Gps => (b'G', None),
            Scale::Utc(leap) => (b'U', Some(leap)),
            Scale::Ntp(leap) => (b'N', Some(leap)),
        };
        self.letter(letter);
        self.number(seconds);
        if let Some(leap) = leap {
            self.bytes(&leap.to_be_bytes());
            if self.random.often(SPOILED_LEAPS) {
                self.lead(spoil::leap_seconds);
            }
        }
        self.play_timestamp()
    }

    /// Plays a line of timestamps or scales, perhaps after a spoiled copy.
    fn play_timestamp(&mut self) -> Answer {
        if self.random.often(SPOILED_TIMESTAMPS) {
            self.lead(spoil::line);
        }
        self.play()
    }
}

/// Gives the number that a printed answer starts with.
pub fn answer_of(reply: &[u8]) -> Answer {
    reply.get(..2).and_then(hex::byte).unwrap_or(BAD_LINE)
}
