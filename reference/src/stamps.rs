//! The listing's lines with latches among them, each latch answered with its stamp.

use crate::bridge::Calls;
use crate::hex::{self, GRAND_DIGITS, LOCAL_DIGITS};
use crate::listing::Listing;
use crate::program::Program;

/// The listing with its bridge that stamps latches too.
#[derive(Clone, Copy, Debug)]
pub struct Stamps<C> {
    pub listing: Listing<C>,
}

impl<C: Calls> Program for Stamps<C> {
    type Bridge = C;
    const LONGEST: usize = Listing::<C>::LONGEST;

    /// Sets a bridge up as the listing does.
    fn on(bridge: C) -> Self {
        Stamps {
            listing: Listing::on(bridge),
        }
    }

    /// Prints the stamp of a latch or its refusal, and for every other line what the listing prints.
    fn answer(&mut self, line: &[u8], out: &mut Vec<u8>) {
        match latch_in(line) {
            Some(latch) => self.put_stamp(latch, out),
            None => self.listing.answer(line, out),
        }
    }
}

impl<C: Calls> Stamps<C> {
    /// Prints the stamp of a latch or its refusal.
    fn put_stamp(&mut self, latch: u64, out: &mut Vec<u8>) {
        match self.listing.bridge.stamp(latch) {
            Ok(stamp) => hex::put_number(out, stamp, GRAND_DIGITS),
            Err(refusal) => hex::put_byte(out, refusal),
        }
    }
}

/// Gives the latch that a line is, where it is one.
pub fn latch_in(line: &[u8]) -> Option<u64> {
    if line.len() == LOCAL_DIGITS {
        hex::number(line)
    } else {
        None
    }
}
