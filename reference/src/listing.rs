//! Lines of a port, an arrival and a frame, each answered with the clock then chosen.

use crate::answer::{Answer, BAD_LINE};
use crate::bridge::{Calls, Plan};
use crate::frame::FRAME_LEN;
use crate::hex::{self, LOCAL_DIGITS};
use crate::program::Program;
use crate::replay::put_chosen;

/// The digits of a line: a port, an arrival and a frame.
pub const LINE_DIGITS: usize = PORT_DIGITS + LOCAL_DIGITS + 2 * FRAME_LEN;

const PORT_DIGITS: usize = 2;
const PORTS: u8 = 2;
const BOTH_LINKS: u8 = 3;
/// The back time of 10 ms that the listing gives.
const BACK: u64 = 10_995_116_278;

/// A bridge of two ports that lines are read to.
#[derive(Clone, Copy, Debug)]
pub struct Listing<C> {
    pub bridge: C,
}

impl<C: Calls> Program for Listing<C> {
    type Bridge = C;
    const LONGEST: usize = LINE_DIGITS;

    /// Sets a bridge up with two measured and linked ports.
    fn on(mut bridge: C) -> Self {
        let plan = Plan {
            ports: PORTS,
            back: Some(BACK),
            ..Plan::default()
        };
        bridge.setup(&plan);
        let _count = bridge.links(BOTH_LINKS);
        Listing { bridge }
    }

    /// Reads one line and prints its answer and the chosen clock.
    fn answer(&mut self, line: &[u8], out: &mut Vec<u8>) {
        let answer = self.receive(line).unwrap_or(BAD_LINE);
        hex::put_byte(out, answer);
        out.push(b' ');
        put_chosen(out, self.bridge.chosen());
    }
}

impl<C: Calls> Listing<C> {
    /// Hands a line's frame to the bridge where the line has the form.
    fn receive(&mut self, line: &[u8]) -> Option<Answer> {
        if line.len() != LINE_DIGITS {
            return None;
        }
        let (port, rest) = line.split_at(PORT_DIGITS);
        let (arrival, frame) = rest.split_at(LOCAL_DIGITS);
        let port = u8::try_from(hex::number(port)?).ok()?;
        let arrival = hex::number(arrival)?;
        let mut room = [0; FRAME_LEN];
        let bytes = hex::bytes(frame, &mut room)?;
        Some(self.bridge.receive(port, bytes, arrival))
    }
}
