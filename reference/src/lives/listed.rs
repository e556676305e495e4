//! Lines for the listing program, made from the arrivals among other lines.

use super::random::Random;
use super::spoil;
use crate::frame::FRAME_LEN;
use crate::hex::{self, LOCAL_DIGITS};
use crate::listing::LINE_DIGITS;

/// In a thousand lines, how many are led by a spoiled copy.
const SPOILED: u64 = 20;
/// In a thousand lines, how many are written with small letters.
const SMALL: u64 = 100;
/// In a thousand lines for ports that the listing program has not, how many are kept.
const BEYOND: u64 = 80;
/// How many ports the listing program has.
const PORTS: u64 = 2;

/// A maker of lines for the listing program.
pub struct Lister {
    pub(super) random: Random,
}

impl Default for Lister {
    /// Starts with a seed of its own.
    fn default() -> Self {
        Lister::seeded(0)
    }
}

impl Lister {
    /// Starts with a seed.
    pub(super) fn seeded(seed: u64) -> Self {
        Lister {
            random: Random::new(seed),
        }
    }

    /// Appends what a line gives, each line with its newline.
    pub fn put(&mut self, line: &[u8], out: &mut Vec<u8>) {
        let Some((port, listed)) = arrival(line) else {
            return;
        };
        if port > PORTS && !self.random.often(BEYOND) {
            return;
        }
        self.put_digits(listed, out);
    }

    /// Appends a line of digits, at times with small letters and at times after a spoiled copy.
    pub(super) fn put_digits(&mut self, mut digits: Vec<u8>, out: &mut Vec<u8>) {
        if self.random.often(SMALL) {
            digits.make_ascii_lowercase();
        }
        if self.random.often(SPOILED) {
            let mut spoiled = digits.clone();
            self.spoil(&mut spoiled);
            put_line(&spoiled, out);
        }
        put_line(&digits, out);
    }

    /// Makes a line wrong in its length or in its digits.
    fn spoil(&mut self, line: &mut Vec<u8>) {
        let place = self.random.below(line.len() as u64) as usize;
        match self.random.below(8) {
            0 => line.clear(),
            1 => line.push(b'0'),
            2 => line.push(b'\r'),
            3 => line.truncate(place),
            4 => line[place] = self.random.pick(b"gG -\r\0/:@`\xFF"),
            5 => line.insert(place, b' '),
            6 => spoil::nonsense(&mut self.random, line),
            _ => line[place] = self.random.pick(b"0123456789abcdefABCDEF"),
        }
    }
}

/// Appends a line with its newline.
pub(super) fn put_line(line: &[u8], out: &mut Vec<u8>) {
    out.extend_from_slice(line);
    out.push(b'\n');
}

/// Gives the port and a line of port, arrival and frame for the line of an arrival whose parts fit.
fn arrival(line: &[u8]) -> Option<(u64, Vec<u8>)> {
    let mut parts = line.split(|letter| *letter == b' ');
    if parts.next()? != b"R" {
        return None;
    }
    let port = hex::number(parts.next()?)?;
    let arrival = hex::number(parts.next()?)?;
    let frame = parts.next()?;
    if frame.len() != 2 * FRAME_LEN || parts.next().is_some() {
        return None;
    }
    let mut listed = Vec::with_capacity(LINE_DIGITS);
    hex::put_number(&mut listed, u128::from(port), 2);
    hex::put_number(&mut listed, u128::from(arrival), LOCAL_DIGITS);
    listed.extend_from_slice(frame);
    Some((port, listed))
}
