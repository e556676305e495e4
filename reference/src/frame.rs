//! The 64 bytes of a frame.

use crate::answer::{Answer, BAD_LENGTH, BAD_VERSION, DONE, NOT_TIME_SYNC, OUT_OF_RANGE};
use crate::rules::HOP_NONE;
use crate::times::is_local;
use std::ops::Range;

/// How many bytes a frame has.
pub const FRAME_LEN: usize = 64;
/// How many bytes a precedence has.
pub const PRECEDENCE_LEN: usize = 13;
/// The worst precedence, of thirteen bytes FF.
pub const PRECEDENCE_WORST: u128 = (1 << (8 * PRECEDENCE_LEN)) - 1;
/// How many bytes a MAC address has.
pub const MAC_LEN: usize = 6;

/// The group address that every frame goes to.
pub const DA: [u8; MAC_LEN] = [0x01, 0x80, 0xC2, 0x00, 0x00, 0x0E];
/// The protocol type of every frame.
pub const PROTOCOL: [u8; 2] = [0x88, 0xB5];
/// The function of every frame.
pub const FUNCTION: u8 = 1;

/// Where the version stands.
pub const AT_VERSION: usize = 15;
/// Where the hop stands.
pub const AT_HOP: usize = 29;

const AT_DA: Range<usize> = 0..6;
const AT_SA: Range<usize> = 6..12;
const AT_PROTOCOL: Range<usize> = 12..14;
const AT_FUNCTION: usize = 14;
const AT_PRECEDENCE: Range<usize> = 16..29;
const AT_COUNT: usize = 30;
const AT_ZERO: usize = 31;
const AT_GRAND: Range<usize> = 32..42;
const AT_LOCAL: Range<usize> = 42..48;
const AT_THAT_TX: Range<usize> = 48..54;
const AT_THAT_RX: Range<usize> = 54..60;
const AT_ERROR: Range<usize> = 60..64;

/// A version as a frame, a port or a line gives it, which may be an unknown one.
#[derive(Clone, Copy, Debug, PartialEq, Eq)]
pub struct Version(pub u8);

impl Version {
    /// The version whose errorTime is the newest sample's.
    pub const ONE: Version = Version(1);
    /// The version whose errorTime has also what version 1 leaves out for the back time.
    pub const TWO: Version = Version(2);

    /// Says whether it is one of the two versions that there are.
    pub fn is_known(self) -> bool {
        self == Version::ONE || self == Version::TWO
    }
}

impl Default for Version {
    /// Gives version 1.
    fn default() -> Self {
        Version::ONE
    }
}

/// The fields of a frame that can differ.
#[derive(Clone, Copy, Debug, Default, PartialEq, Eq)]
pub struct Fields {
    pub version: Version,
    pub sa: [u8; MAC_LEN],
    pub precedence: u128,
    pub hop: u8,
    pub count: u8,
    pub grand: u128,
    pub local: u64,
    pub that_tx: u64,
    pub that_rx: u64,
    pub error: i32,
}

/// Reads bytes as one number, the greatest first.
pub fn number(bytes: &[u8]) -> u128 {
    bytes.iter().fold(0, |n, b| (n << 8) + u128::from(*b))
}

/// Writes a number over bytes, the greatest first.
pub fn put(bytes: &mut [u8], number: u128) {
    let mut rest = number;
    for byte in bytes.iter_mut().rev() {
        *byte = (rest % 256) as u8;
        rest /= 256;
    }
}

/// Gives the fields of a frame or the refusal that its bytes meet.
pub fn read(bytes: &[u8]) -> Result<Fields, Answer> {
    if bytes.len() != FRAME_LEN {
        return Err(BAD_LENGTH);
    }
    if !has_fixed_bytes(bytes) {
        return Err(NOT_TIME_SYNC);
    }
    if !Version(bytes[AT_VERSION]).is_known() {
        return Err(BAD_VERSION);
    }
    Ok(taken_apart(bytes))
}

/// Says whether address, protocol, function and the zero byte are right.
fn has_fixed_bytes(bytes: &[u8]) -> bool {
    bytes[AT_DA] == DA
        && bytes[AT_PROTOCOL] == PROTOCOL
        && bytes[AT_FUNCTION] == FUNCTION
        && bytes[AT_ZERO] == 0
}

/// Takes the fields out of 64 bytes.
fn taken_apart(bytes: &[u8]) -> Fields {
    let mut sa = [0; MAC_LEN];
    sa.copy_from_slice(&bytes[AT_SA]);
    Fields {
        version: Version(bytes[AT_VERSION]),
        sa,
        precedence: number(&bytes[AT_PRECEDENCE]),
        hop: bytes[AT_HOP],
        count: bytes[AT_COUNT],
        grand: number(&bytes[AT_GRAND]),
        local: number(&bytes[AT_LOCAL]) as u64,
        that_tx: number(&bytes[AT_THAT_TX]) as u64,
        that_rx: number(&bytes[AT_THAT_RX]) as u64,
        error: number(&bytes[AT_ERROR]) as u32 as i32,
    }
}

/// Writes a frame over the first 64 bytes of an output, or refuses and leaves it alone.
pub fn write(fields: &Fields, output: &mut [u8]) -> Answer {
    if ![fields.local, fields.that_tx, fields.that_rx]
        .into_iter()
        .all(is_local)
    {
        return OUT_OF_RANGE;
    }
    if output.len() < FRAME_LEN {
        return BAD_LENGTH;
    }
    if !fields.version.is_known() {
        return BAD_VERSION;
    }
    output[..FRAME_LEN].copy_from_slice(&put_together(fields));
    DONE
}

/// Gives the 64 bytes for fields whose times are in range, whatever the version.
pub fn put_together(fields: &Fields) -> [u8; FRAME_LEN] {
    let mut bytes = [0; FRAME_LEN];
    bytes[AT_DA].copy_from_slice(&DA);
    bytes[AT_SA].copy_from_slice(&fields.sa);
    bytes[AT_PROTOCOL].copy_from_slice(&PROTOCOL);
    bytes[AT_FUNCTION] = FUNCTION;
    bytes[AT_VERSION] = fields.version.0;
    put(&mut bytes[AT_PRECEDENCE], fields.precedence);
    bytes[AT_HOP] = fields.hop;
    bytes[AT_COUNT] = fields.count;
    put(&mut bytes[AT_GRAND], fields.grand);
    put(&mut bytes[AT_LOCAL], u128::from(fields.local));
    put(&mut bytes[AT_THAT_TX], u128::from(fields.that_tx));
    put(&mut bytes[AT_THAT_RX], u128::from(fields.that_rx));
    put(&mut bytes[AT_ERROR], u128::from(fields.error as u32));
    bytes
}

/// Gives the precedence bytes of the better of two frames, or an empty part of the first if neither counts.
pub fn better<'a>(first: &'a [u8], second: &'a [u8]) -> &'a [u8] {
    match (standing(first), standing(second)) {
        (Some(one), Some(two)) if two < one => &second[AT_PRECEDENCE],
        (Some(_), _) => &first[AT_PRECEDENCE],
        (None, Some(_)) => &second[AT_PRECEDENCE],
        (None, None) => &first[..0],
    }
}

/// Gives what a frame is compared by, where it counts at all.
fn standing(bytes: &[u8]) -> Option<(u128, u8)> {
    read(bytes)
        .ok()
        .filter(|fields| fields.hop != HOP_NONE)
        .map(|fields| (fields.precedence, fields.hop))
}
