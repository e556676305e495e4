//! Lines for the stamps program, made from the arrivals and the latches among other lines.

use super::census::StampCensus;
use super::latches;
use super::limits;
use super::listed::{put_line, Lister};
use crate::bridge::Listed;
use crate::hex::{self, LOCAL_DIGITS};
use crate::program::Program;
use crate::stamps::{latch_in, Stamps};

/// The seed of what happens to latches, so that the frames stay as they are without them.
const LATCH_SEED: u64 = 1;
/// In a thousand latches, how many are led by a copy with a digit too few, and by one with a digit too many.
const SPOILED: u64 = 20;
/// How many latches follow each frame as long as no clock is chosen, which is never again once one is.
const UNCHOSEN: usize = 100;

/// A maker of lines for the stamps program, with the bridge that this program then has.
pub struct Stamper {
    frames: Lister,
    latches: Lister,
    program: Stamps<Listed>,
    pub census: StampCensus,
}

impl Default for Stamper {
    /// Starts with the program's setup.
    fn default() -> Self {
        Stamper {
            frames: Lister::default(),
            latches: Lister::seeded(LATCH_SEED),
            program: Stamps::on(Listed::empty()),
            census: StampCensus::default(),
        }
    }
}

impl Stamper {
    /// Appends what a line gives: the listing's lines for an arrival, and for a latch itself and one aimed anew.
    pub fn put(&mut self, line: &[u8], out: &mut Vec<u8>) {
        if let Some(latch) = latches::called(line) {
            self.put_latch(latch, out);
            self.put_aimed(out);
            return;
        }
        let start = out.len();
        self.frames.put(line, out);
        self.play(&out[start..]);
        if out.len() > start && self.program.listing.bridge.best().is_none() {
            for _ in 0..UNCHOSEN {
                self.put_aimed(out);
            }
        }
    }

    /// Appends a latch that is aimed at the samples of the clock that the program then follows.
    fn put_aimed(&mut self, out: &mut Vec<u8>) {
        let samples = limits::followed(&self.program.listing.bridge);
        let latch = latches::aimed(&mut self.latches.random, &samples);
        self.put_latch(latch, out);
    }

    /// Appends a latch in its twelve digits, or in more where it is no local time, at times after spoiled copies.
    fn put_latch(&mut self, latch: u64, out: &mut Vec<u8>) {
        let start = out.len();
        let mut digits = Vec::new();
        hex::put_number(
            &mut digits,
            u128::from(latch),
            hex::digits_of(latch).max(LOCAL_DIGITS),
        );
        if self.latches.random.often(SPOILED) {
            put_line(&digits[1..], out);
        }
        if self.latches.random.often(SPOILED) {
            put_line(&[&digits[..], b"0"].concat(), out);
        }
        self.latches.put_digits(digits, out);
        self.play(&out[start..]);
    }

    /// Has the program answer lines and counts what it answers to latches.
    fn play(&mut self, lines: &[u8]) {
        let mut reply = Vec::new();
        for line in lines.split_inclusive(|letter| *letter == b'\n') {
            let line = &line[..line.len() - 1];
            reply.clear();
            self.program.answer(line, &mut reply);
            if let Some(latch) = latch_in(line) {
                let refusal = hex::byte(&reply);
                self.census
                    .count(latch, refusal, &self.program.listing.bridge);
            }
        }
    }
}
