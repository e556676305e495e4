//! One port and the rules that concern it alone.

use crate::answer::{Answer, BAD_DELAY, DONE, NO_LINK, OUT_OF_SEQUENCE, TOO_FAR};
use crate::frame::{self, Fields, Version};
use crate::rules::{self, DELAY_MOST, HOP_NONE};
use crate::samples::{Sample, Samples};
use crate::times::{moved, next_count, spread};

/// The count and the time that came with the last frame or call.
#[derive(Clone, Copy, Debug, PartialEq, Eq)]
pub struct Heard {
    pub count: u8,
    pub time: u64,
}

/// What a neighbour announces.
#[derive(Clone, Copy, Debug, PartialEq, Eq)]
pub struct Announcement {
    pub precedence: u128,
    pub hop: u8,
    pub heard_at: u64,
}

/// All that is remembered of a port while its link is up.
#[derive(Clone, Copy, Debug, Default, PartialEq, Eq)]
pub struct Record {
    pub last: Option<Heard>,
    pub pair: Option<(u64, u64)>,
    pub announcement: Option<Announcement>,
    pub samples: Samples,
    pub echo: Option<(u64, u64)>,
    pub next_count: u8,
}

/// A port, which has a fixed delay or else a measured one, and the version of the frames that it sends.
#[derive(Clone, Copy, Debug, Default, PartialEq, Eq)]
pub struct Port {
    pub fixed: Option<u64>,
    pub version: Version,
    pub linked: bool,
    pub record: Record,
}

impl Port {
    /// Makes a port without a link.
    pub fn new(fixed: Option<u64>, version: Version) -> Port {
        Port {
            fixed,
            version,
            ..Port::default()
        }
    }

    /// Says whether a fixed delay and the version are within their limits.
    pub fn can_be_set(&self) -> bool {
        self.fixed.is_none_or(|delay| delay <= DELAY_MOST) && self.version.is_known()
    }

    /// Sets the link and forgets the record where it goes down.
    pub fn set_link(&mut self, linked: bool) {
        if self.linked && !linked {
            self.record = Record::default();
        }
        self.linked = linked;
    }

    /// Takes a frame that arrived, with the chosen clock's hop of before.
    pub fn receive(&mut self, chosen_hop: u8, bytes: &[u8], arrival: u64) -> Answer {
        if !self.linked {
            return NO_LINK;
        }
        let fields = match frame::read(bytes) {
            Ok(fields) => fields,
            Err(refusal) => return refusal,
        };
        let heard = Heard {
            count: fields.count,
            time: arrival,
        };
        let before = self.record.last.replace(heard);
        match self.judge(&fields, before) {
            Ok((p, delay)) => {
                let hop = rules::held_hop(chosen_hop, fields.hop);
                self.record.store(&fields, hop, p, delay, arrival);
                DONE
            }
            Err(refusal) => refusal,
        }
    }

    /// Gives the arrival of the preceding frame and the delay, or refuses the frame.
    fn judge(&self, fields: &Fields, before: Option<Heard>) -> Result<(u64, u64), Answer> {
        if fields.hop == HOP_NONE {
            return Err(TOO_FAR);
        }
        let p = before
            .filter(|heard| fields.count == next_count(heard.count))
            .map(|heard| heard.time)
            .ok_or(OUT_OF_SEQUENCE)?;
        let delay = self.delay(fields, p).ok_or(BAD_DELAY)?;
        Ok((p, delay))
    }

    /// Gives the link's delay where it is believable.
    fn delay(&self, fields: &Fields, p: u64) -> Option<u64> {
        if self.fixed.is_some() {
            return self.fixed;
        }
        if fields.that_tx == 0 && fields.that_rx == 0 {
            return Some(0);
        }
        rules::measured_delay(
            rules::neighbour_rate(self.record.pair, (fields.local, p)),
            spread(p, fields.that_tx),
            spread(fields.local, fields.that_rx),
        )
    }

    /// Forgets announcement, samples and echo once the announcement is as old as the timeout.
    pub fn age(&mut self, now: u64, timeout: u64) {
        let record = &mut self.record;
        let stale = record
            .announcement
            .is_some_and(|held| spread(now, held.heard_at) >= timeout);
        if stale {
            record.announcement = None;
            record.samples = Samples::default();
            record.echo = None;
        }
    }

    /// Gives the count for a frame to be sent and uses it up.
    pub fn use_count(&mut self) -> u8 {
        let count = self.record.next_count;
        self.record.next_count = next_count(count);
        count
    }
}

impl Record {
    /// Stores what a taken frame brings.
    fn store(&mut self, fields: &Fields, hop: u8, p: u64, delay: u64, arrival: u64) {
        let same_clock = self
            .announcement
            .is_some_and(|held| held.precedence == fields.precedence);
        let sample = Sample {
            grand: fields.grand,
            local: moved(p, -i128::from(delay)),
            error: fields.error,
        };
        self.samples.take(sample, same_clock);
        self.announcement = Some(Announcement {
            precedence: fields.precedence,
            hop,
            heard_at: arrival,
        });
        self.pair = Some((fields.local, p));
        self.echo = Some((fields.local, p));
    }
}
