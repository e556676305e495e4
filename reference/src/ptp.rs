//! PTP timestamps, made of grand times and made into them, and PTP seconds on other scales.

use crate::answer::{Answer, BEYOND_RANGE, OUT_OF_RANGE};
use crate::times::{grand, FRACTION_BITS};

/// The first number that is no PTP seconds, and no seconds of another scale.
pub const SECONDS_END: u64 = 1 << 48;
/// How many nanoseconds a second has, and so the first number that is no nanoseconds of a timestamp.
pub const NANOSECONDS_END: u64 = 1_000_000_000;
/// How many seconds GPS is behind PTP.
pub const GPS_BEHIND: i128 = 315_964_819;
/// How many seconds NTP is ahead of UTC.
pub const NTP_AHEAD: i128 = 2_208_988_800;

/// Seconds that a PTP clock counts, below 2^48.
#[derive(Clone, Copy, Debug, PartialEq, Eq)]
pub struct PtpSeconds(u64);

/// A timestamp of IEEE 1588-2008, whose nanoseconds are below 10^9.
#[derive(Clone, Copy, Debug, PartialEq, Eq)]
pub struct Timestamp {
    pub seconds: PtpSeconds,
    pub nanoseconds: u32,
}

/// A scale that PTP seconds can be told on, with the leap seconds where it needs them.
#[derive(Clone, Copy, Debug, PartialEq, Eq)]
pub enum Scale {
    Gps,
    Utc(i16),
    Ntp(i16),
}

impl PtpSeconds {
    /// Takes a number as PTP seconds where it is in range.
    pub fn of(count: u64) -> Option<PtpSeconds> {
        (count < SECONDS_END).then_some(PtpSeconds(count))
    }

    /// Gives the seconds as a number.
    pub fn count(self) -> u64 {
        self.0
    }
}

impl Scale {
    /// Gives how many seconds the scale is ahead of PTP.
    pub fn ahead(self) -> i128 {
        match self {
            Scale::Gps => -GPS_BEHIND,
            Scale::Utc(leap) => -i128::from(leap),
            Scale::Ntp(leap) => NTP_AHEAD - i128::from(leap),
        }
    }
}

/// Gives the timestamp of a grand time, or refuses.
pub fn export(seconds: u64, fraction: u64) -> Result<Timestamp, Answer> {
    if grand(seconds, fraction).is_none() {
        return Err(OUT_OF_RANGE);
    }
    Ok(Timestamp {
        seconds: PtpSeconds(seconds),
        nanoseconds: nanoseconds_of(fraction),
    })
}

/// Gives the grand time of a timestamp, or refuses.
pub fn import(seconds: u64, nanoseconds: u64) -> Result<u128, Answer> {
    if nanoseconds >= NANOSECONDS_END {
        return Err(OUT_OF_RANGE);
    }
    grand(seconds, least_fraction(nanoseconds)).ok_or(OUT_OF_RANGE)
}

/// Gives the whole nanoseconds in a fraction of a second.
fn nanoseconds_of(fraction: u64) -> u32 {
    let nanoseconds = u128::from(fraction) * u128::from(NANOSECONDS_END) / (1 << FRACTION_BITS);
    nanoseconds as u32
}

/// Gives the least fraction of a second that has so many nanoseconds in it.
fn least_fraction(nanoseconds: u64) -> u64 {
    let fraction = (u128::from(nanoseconds) << FRACTION_BITS).div_ceil(u128::from(NANOSECONDS_END));
    fraction as u64
}

/// Gives PTP seconds as seconds of another scale, or refuses.
pub fn on_scale(seconds: u64, scale: Scale) -> Result<u64, Answer> {
    let seconds = PtpSeconds::of(seconds).ok_or(OUT_OF_RANGE)?;
    let told = i128::from(seconds.count()) + scale.ahead();
    if (0..i128::from(SECONDS_END)).contains(&told) {
        Ok(told as u64)
    } else {
        Err(BEYOND_RANGE)
    }
}
