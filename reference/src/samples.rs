//! The samples that are kept of a clock, up to three.

use crate::rules;
use crate::times::spread;

#[cfg(test)]
mod tests;

/// The most samples that are kept of a clock.
pub const KEPT_MOST: usize = 3;

/// A grand time and the local time it belongs to.
#[derive(Clone, Copy, Debug, PartialEq, Eq)]
pub struct Sample {
    pub grand: u128,
    pub local: u64,
    pub error: i32,
}

impl Sample {
    /// Gives grand time and local time together.
    pub fn point(&self) -> (u128, u64) {
        (self.grand, self.local)
    }
}

/// What is kept of a clock, from the newest sample to the oldest, and none after that.
#[derive(Clone, Copy, Debug, Default, PartialEq, Eq)]
pub struct Samples {
    pub kept: [Option<Sample>; KEPT_MOST],
}

impl Samples {
    /// Takes a new sample, which stands alone unless it is of the same clock and within the limits from the newest and, where three would stand, from the oldest that stays.
    pub fn take(&mut self, sample: Sample, same_clock: bool) {
        let [newest, before, _] = self.kept;
        let mut stay = [newest, before].into_iter().flatten();
        self.kept = if same_clock && stay.all(|kept| joins(&kept, &sample)) {
            [Some(sample), newest, before]
        } else {
            [Some(sample), None, None]
        };
    }

    /// Gives the newest sample where there is one.
    pub fn newest(&self) -> Option<Sample> {
        self.kept[0]
    }

    /// Gives the sample before the newest, which is the oldest that stays where a new one comes.
    pub fn oldest_to_stay(&self) -> Option<Sample> {
        self.kept[1]
    }

    /// Says how many samples are kept.
    pub fn count(&self) -> usize {
        self.kept.iter().flatten().count()
    }

    /// Gives the oldest and the newest sample where there are at least two.
    pub fn ends(&self) -> Option<(Sample, Sample)> {
        let mut kept = self.kept.into_iter().flatten();
        let newest = kept.next()?;
        let oldest = kept.last()?;
        Some((oldest, newest))
    }

    /// Gives the rate from the oldest sample to the newest where there are at least two.
    pub fn rate(&self) -> Option<i128> {
        self.ends()
            .map(|(oldest, newest)| rules::sample_rate(oldest.point(), newest.point()))
    }
}

/// Says whether a new sample is within the limits of one that is kept.
pub fn joins(kept: &Sample, new: &Sample) -> bool {
    let difference = rules::sample_difference(kept.point(), new.point());
    rules::steady(difference, spread(new.local, kept.local))
}
