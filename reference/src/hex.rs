//! Hexadecimal digits, read and written.

/// The most digits of a number in a line.
pub const NUMBER_DIGITS: usize = 16;
/// The digits of a local time where it has its full width.
pub const LOCAL_DIGITS: usize = 12;
/// The digits of a grand time where it has its full width.
pub const GRAND_DIGITS: usize = 20;
/// The digits of PTP seconds, and of seconds of another scale.
pub const SECONDS_DIGITS: usize = 12;
/// The digits of a timestamp's nanoseconds.
pub const NANOSECONDS_DIGITS: usize = 8;

const DIGITS: &[u8; 16] = b"0123456789ABCDEF";

/// Gives the value of a digit of either case.
pub fn digit(letter: u8) -> Option<u8> {
    match letter {
        b'0'..=b'9' => Some(letter - b'0'),
        b'A'..=b'F' => Some(letter - b'A' + 10),
        b'a'..=b'f' => Some(letter - b'a' + 10),
        _ => None,
    }
}

/// Reads 1 to 16 digits as a number.
pub fn number(text: &[u8]) -> Option<u64> {
    if text.is_empty() || text.len() > NUMBER_DIGITS {
        return None;
    }
    text.iter().try_fold(0, |n: u64, letter| {
        Some((n << 4) + u64::from(digit(*letter)?))
    })
}

/// Reads exactly two digits as a byte.
pub fn byte(text: &[u8]) -> Option<u8> {
    let [high, low] = text else {
        return None;
    };
    Some(16 * digit(*high)? + digit(*low)?)
}

/// Gives how many digits a number needs, at least one.
pub fn digits_of(number: u64) -> usize {
    (number.checked_ilog2().unwrap_or(0) / 4 + 1) as usize
}

/// Reads pairs of digits over the start of a room and gives the bytes, if they are digits and fit.
pub fn bytes<'a>(text: &[u8], room: &'a mut [u8]) -> Option<&'a [u8]> {
    let pairs = text.chunks_exact(2);
    if !pairs.remainder().is_empty() {
        return None;
    }
    let found = room.get_mut(..pairs.len())?;
    for (byte, pair) in found.iter_mut().zip(pairs) {
        *byte = self::byte(pair)?;
    }
    Some(found)
}

/// Appends a byte as two capital digits.
pub fn put_byte(out: &mut Vec<u8>, byte: u8) {
    out.push(DIGITS[usize::from(byte / 16)]);
    out.push(DIGITS[usize::from(byte % 16)]);
}

/// Appends bytes as capital digits, or a dash for none.
pub fn put_bytes(out: &mut Vec<u8>, bytes: &[u8]) {
    if bytes.is_empty() {
        out.push(b'-');
    }
    for byte in bytes {
        put_byte(out, *byte);
    }
}

/// Appends the lowest digits of a number, as many as are wanted.
pub fn put_number(out: &mut Vec<u8>, number: u128, digits: usize) {
    for place in (0..digits).rev() {
        out.push(DIGITS[(number >> (4 * place)) as usize % 16]);
    }
}
