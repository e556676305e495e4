//! Ways in which lines and frames go wrong.

use super::random::Random;
use super::versions;
use crate::frame::{AT_VERSION, FRAME_LEN};

/// The places of a frame's bytes that must have one value.
const FIXED_PLACES: [usize; 10] = [0, 1, 2, 3, 4, 5, 12, 13, 14, 31];
/// The fields of a setup with every part said that say whether it is a listener's, and its versions.
const PROFILE_FIELD: usize = 1;
const VERSIONS_FIELD: usize = 16;
/// How long the longest usual line of nonsense is.
const NONSENSE_MOST: u64 = 600;
/// How long a rare line of nonsense is.
const NONSENSE_LONG: u64 = 70_000;
/// What a line may wrongly contain.
const STRANGE: &[u8] = b"\0\t\r gGmM-dDxX0fF+.#\x0B\x7F\x80\xC3\xFF";
/// The letters of the calls and some others.
const LETTERS: &[u8] = b"SPVLORACTDFWBslpvxZEM1-XIGUNKkHh";

/// Spoils a line, though not always so that it loses its form.
pub fn line(random: &mut Random, line: &mut Vec<u8>) {
    let place = random.below(line.len() as u64) as usize;
    match random.below(20) {
        0 => line.clear(),
        1 => line.push(b' '),
        2 => line.insert(0, b' '),
        3 => line.push(b'\r'),
        4 => line.make_ascii_lowercase(),
        5 => doubled_space(line),
        6 => line.extend_from_slice(b" 0"),
        7 => {
            line.remove(place);
        }
        8 => line[place] = random.pick(STRANGE),
        9 => line.insert(place, random.pick(STRANGE)),
        10 => line.truncate(place),
        11 => line[0] = random.pick(LETTERS),
        12 => long_number(random, line),
        13 => long_bytes(random, line),
        14 => line.extend_from_slice(b"0"),
        15 => empty_field(random, line),
        16 => last_field(random, line),
        17 => spaced_otherwise(line),
        18 => nonsense(random, line),
        _ => edge_number(random, line),
    }
}

/// Changes one field of a setup.
pub fn setup(random: &mut Random, line: &mut Vec<u8>) {
    let words: [&[u8]; 20] = [
        b"0",
        b"1",
        b"01",
        b"00",
        b"2",
        b"8",
        b"9",
        b"D",
        b"d",
        b"DD",
        b"0D",
        b"M",
        b"m",
        b"MM",
        b"-",
        b"",
        b"FF",
        b"100",
        b"0000000000000001",
        b"00000000000000001",
    ];
    let place = random.pick(&[1, 2, 3, 4, 4, 4, 5, 5, 5, 6, 6, 7, 8, 11, 14, 14]);
    replace_field(line, place, random.pick(&words));
}

/// Changes the versions of a setup, often so that they are not eight bytes.
pub fn versions_of_setup(random: &mut Random, line: &mut Vec<u8>) {
    let words: [&[u8]; 18] = [
        b"",
        b"-",
        b"1",
        b"2",
        b"02",
        b"M",
        b"D",
        b"010101010101010",
        b"01010101010101",
        b"01010101010101010",
        b"010101010101010101",
        b"0g01010101010101",
        b"01010101 01010101",
        b"0202020202020202",
        b"0101010101010101",
        b"0000000000000000",
        b"0303030303030303",
        b"ffFFffFFffFFffFF",
    ];
    replace_field(line, VERSIONS_FIELD, random.pick(&words));
}

/// Changes what says whether a setup is a listener's.
pub fn profile_of_setup(random: &mut Random, line: &mut Vec<u8>) {
    let words: [&[u8]; 9] = [b"", b"-", b"0", b"1", b"2", b"00", b"01", b"D", b"M"];
    replace_field(line, PROFILE_FIELD, random.pick(&words));
}

/// Changes the leap seconds of a line, mostly so that they are not two bytes.
pub fn leap_seconds(random: &mut Random, line: &mut Vec<u8>) {
    let words: [&[u8]; 12] = [
        b"",
        b"-",
        b"0",
        b"25",
        b"025",
        b"0025",
        b"00025",
        b"000025",
        b"-025",
        b"00 25",
        b"002g",
        b"0000000000000025",
    ];
    replace_field(line, 2, random.pick(&words));
}

/// Changes the first field of a line, mostly so that it is no byte.
pub fn byte(random: &mut Random, line: &mut Vec<u8>) {
    let words: [&[u8]; 14] = [
        b"",
        b"-",
        b"-1",
        b"00",
        b"FF",
        b"100",
        b"101",
        b"0100",
        b"00000000000000fF",
        b"0000000000000100",
        b"00000000000000000",
        b"FFFFFFFFFFFFFFFF",
        b"0 0",
        b"g",
    ];
    replace_field(line, 1, random.pick(&words));
}

/// Doubles the first space of a line.
fn doubled_space(line: &mut Vec<u8>) {
    if let Some(place) = line.iter().position(|letter| *letter == b' ') {
        line.insert(place, b' ');
    }
}

/// Puts a tab where the first space is.
fn spaced_otherwise(line: &mut [u8]) {
    if let Some(space) = line.iter_mut().find(|letter| **letter == b' ') {
        *space = b'\t';
    }
}

/// Puts 15 to 18 digits in the place of the first field.
fn long_number(random: &mut Random, line: &mut Vec<u8>) {
    let digits = random.within(15, 18) as usize;
    let mut number = vec![b'0'; digits];
    number[digits - 1] = random.pick(b"0123456789abcdefABCDEF");
    replace_field(line, 1, &number);
}

/// Puts 250 to 262 digits or a dash in the place of a late field.
fn long_bytes(random: &mut Random, line: &mut Vec<u8>) {
    let place = random.within(1, 3) as usize;
    if random.often(200) {
        replace_field(
            line,
            place,
            random.pick(&[b"-" as &[u8], b"--", b"", b"0", b"00", b"-0"]),
        );
    } else {
        let digits = vec![b'0'; random.within(250, 262) as usize];
        replace_field(line, place, &digits);
    }
}

/// Leaves nothing of some field between its spaces.
fn empty_field(random: &mut Random, line: &mut Vec<u8>) {
    let fields = line.split(|letter| *letter == b' ').count();
    replace_field(line, random.below(fields as u64) as usize, b"");
}

/// Puts a number near a limit of the line's form in the place of any field.
fn edge_number(random: &mut Random, line: &mut Vec<u8>) {
    let place = random.within(1, 14) as usize;
    let numbers: [&[u8]; 12] = [
        b"FF",
        b"100",
        b"0000000000000100",
        b"00000000000000FF",
        b"80",
        b"81",
        b"0000000000000080",
        b"FFFFFFFFFFFFFFFF",
        b"0000000000000001",
        b"01",
        b"2",
        b"d",
    ];
    replace_field(line, place, random.pick(&numbers));
}

/// Takes the last field of a line away or doubles it.
fn last_field(random: &mut Random, line: &mut Vec<u8>) {
    if let Some(place) = line.iter().rposition(|letter| *letter == b' ') {
        if random.often(500) {
            line.truncate(place);
        } else {
            line.extend_from_within(place..);
        }
    }
}

/// Puts some text in the place of a field, counted from zero.
fn replace_field(line: &mut Vec<u8>, field: usize, text: &[u8]) {
    let mut fields: Vec<&[u8]> = line.split(|letter| *letter == b' ').collect();
    if let Some(place) = fields.get_mut(field) {
        *place = text;
    }
    *line = fields.join(&b' ');
}

/// Makes a line of bytes by chance, none of them a newline.
pub fn nonsense(random: &mut Random, line: &mut Vec<u8>) {
    let most = if random.often(5) {
        NONSENSE_LONG
    } else {
        NONSENSE_MOST
    };
    let length = random.sized(17).min(most);
    let only_digits = random.often(300);
    line.clear();
    for _ in 0..length {
        let byte = if only_digits {
            random.pick(b"0123456789abcdefABCDEF ")
        } else {
            random.bits() as u8
        };
        line.push(if byte == b'\n' { b' ' } else { byte });
    }
}

/// Spoils a frame, though not always so that it is refused.
pub fn frame(random: &mut Random, bytes: &[u8; FRAME_LEN]) -> Vec<u8> {
    let mut spoiled = bytes.to_vec();
    match random.below(12) {
        0 => spoiled.truncate(random.below(FRAME_LEN as u64) as usize),
        1 => spoiled.truncate(FRAME_LEN - 1),
        2 => spoiled.push(random.bits() as u8),
        3 => spoiled.resize(random.within(65, 128) as usize, 0),
        4 | 5 => {
            let place = random.pick(&FIXED_PLACES);
            spoiled[place] = changed(random, spoiled[place]);
        }
        6..=8 => spoiled[AT_VERSION] = versions::wrong(random).0,
        9 => {
            let place = random.pick(&FIXED_PLACES);
            spoiled[place] = changed(random, spoiled[place]);
            spoiled[AT_VERSION] = versions::wrong(random).0;
        }
        10 => spoiled[AT_VERSION] = changed(random, spoiled[AT_VERSION]),
        _ => {
            let place = random.below(FRAME_LEN as u64) as usize;
            spoiled[place] = changed(random, spoiled[place]);
        }
    }
    spoiled
}

/// Gives another byte, often one bit away.
fn changed(random: &mut Random, byte: u8) -> u8 {
    if random.often(700) {
        byte ^ (1 << random.below(8))
    } else {
        random.bits() as u8
    }
}
