//! Local times, grand times and frame counts.

/// The first number that is no local time.
pub const LOCAL_END: u64 = 1 << 48;
/// The first number that is no grand time.
pub const GRAND_END: u128 = 1 << 80;
/// The first number that is neither seconds nor fraction of a grand time.
pub const PART_END: u64 = 1 << 40;
/// The bits of a grand time's fraction.
pub const FRACTION_BITS: u32 = 40;

/// Says whether a number is a local time.
pub fn is_local(time: u64) -> bool {
    time < LOCAL_END
}

/// Gives the way from `b` up to `a` round the circle of local times.
pub fn spread(a: u64, b: u64) -> u64 {
    let way = (i128::from(a) - i128::from(b)).rem_euclid(i128::from(LOCAL_END));
    way as u64
}

/// Gives the nearer way from `b` to `a` round the circle of local times, below zero where it leads back.
pub fn distance(a: u64, b: u64) -> i128 {
    let (up, down) = (spread(a, b), spread(b, a));
    if up <= down {
        i128::from(up)
    } else {
        -i128::from(down)
    }
}

/// Moves a local time by a signed number round the circle.
pub fn moved(time: u64, by: i128) -> u64 {
    (i128::from(time) + by).rem_euclid(i128::from(LOCAL_END)) as u64
}

/// Joins seconds and fraction to a grand time where both are in range.
pub fn grand(seconds: u64, fraction: u64) -> Option<u128> {
    if seconds < PART_END && fraction < PART_END {
        Some((u128::from(seconds) << FRACTION_BITS) + u128::from(fraction))
    } else {
        None
    }
}

/// Parts a grand time into seconds and fraction.
pub fn parts(grand: u128) -> (u64, u64) {
    let fraction = grand % u128::from(PART_END);
    ((grand >> FRACTION_BITS) as u64, fraction as u64)
}

/// Gives the frame count that comes after another.
pub fn next_count(count: u8) -> u8 {
    ((u16::from(count) + 1) % 256) as u8
}
