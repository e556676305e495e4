//! The table of what became of rings.

use super::cabling::Ring;
use super::clock::{in_microseconds, in_seconds};
use super::course::{play, Outcome, Starter};
use super::row::Rows;
use std::io::{self, Write};
use std::ops::RangeInclusive;

/// How many stations the rings have.
const SIZES: RangeInclusive<usize> = 3..=8;
/// How many stations the ring with shorter timeouts has.
const SIZE_TIMED: usize = 5;
/// The shorter timeouts.
const TIMEOUTS: [u64; 3] = [1 << 38, 1 << 37, 1 << 36];
/// The draws with which each ring is played; they differ much, since the phases of its ports decide how its hops rise.
const DRAWS: RangeInclusive<u64> = 1..=5;
/// The names of the columns, and the line below them.
const HEAD: &str = "\
| Stations | Ring | Timeout, U | Announced, s: least, median, greatest | Frames taken: the same | With the premise | Longest row with it | Passes left | Longest row | 255 - hop | Most jumps in a row | Grand time off, µs: least, median, greatest |
|---|---|---|---|---|---|---|---|---|---|---|---|";

/// Plays every ring of the table with every draw, and prints a line for each ring.
pub fn print(start: Starter, to: &mut impl Write) -> io::Result<()> {
    writeln!(to, "{HEAD}")?;
    for ring in rings() {
        let played = DRAWS.map(|draw| play(&Ring { draw, ..ring }, start));
        let outcomes = played.collect::<io::Result<Vec<Outcome>>>()?;
        writeln!(to, "{}", line(&ring, &outcomes))?;
    }
    Ok(())
}

/// Gives the rings of the table: closed, open, and closed with shorter timeouts.
fn rings() -> Vec<Ring> {
    let closed = SIZES.map(|stations| Ring {
        stations,
        closed: true,
        timeout: None,
        draw: *DRAWS.start(),
    });
    let open = closed.clone().map(|ring| Ring {
        closed: false,
        ..ring
    });
    let sized = closed.clone().filter(|ring| ring.stations == SIZE_TIMED);
    let timed = sized.flat_map(|ring| {
        TIMEOUTS.map(|timeout| Ring {
            timeout: Some(timeout),
            ..ring
        })
    });
    closed.chain(open).chain(timed).collect()
}

/// Writes the line of a ring.
fn line(ring: &Ring, outcomes: &[Outcome]) -> String {
    let announced = three(outcomes, |outcome| outcome.announced).map(in_seconds);
    let taken = three(outcomes, |outcome| outcome.taken).map(|frames| frames.to_string());
    let off = three(outcomes, |outcome| outcome.off).map(in_microseconds);
    let rows = longest_rows(outcomes);
    format!(
        "| {} | {} | {} | {} | {} | {} % | {} | {} | {} | {} | {} | {} |",
        ring.stations,
        ring.form(),
        ring.timeout_as_power(),
        announced.join(", "),
        taken.join(", "),
        premised_in_hundred(outcomes),
        rows.premised.length,
        rows.premised_most(),
        rows.any.length,
        rows.any_most(),
        rows.jumps,
        off.join(", "),
    )
}

/// Gives the least, the median and the greatest figure of at least one outcome.
fn three(outcomes: &[Outcome], figure: fn(&Outcome) -> u64) -> [u64; 3] {
    let mut figures: Vec<u64> = outcomes.iter().map(figure).collect();
    figures.sort_unstable();
    let last = figures.len() - 1;
    [0, last / 2, last].map(|place| figures[place])
}

/// Gives the longest row of each kind.
fn longest_rows(outcomes: &[Outcome]) -> Rows {
    let rows = outcomes.iter().map(|outcome| outcome.longest);
    rows.fold(Rows::default(), Rows::or_longer)
}

/// Gives how many of a hundred frames were taken with the premise.
fn premised_in_hundred(outcomes: &[Outcome]) -> u64 {
    let taken: u64 = outcomes.iter().map(|outcome| outcome.taken).sum();
    let premised: u64 = outcomes.iter().map(|outcome| outcome.premised).sum();
    (100 * premised + taken / 2) / taken.max(1)
}

#[cfg(test)]
mod tests {
    use super::{line, rings, HEAD};
    use crate::ring::clock::SECOND;
    use crate::ring::course::Outcome;
    use crate::ring::row::Rows;

    /// Makes an outcome.
    fn outcome(taken: u64, premised: u64, announced: u64, longest: Rows) -> Outcome {
        Outcome {
            taken,
            premised,
            longest,
            announced,
            off: SECOND / 1_000_000,
            changes: Vec::new(),
        }
    }

    /// The table has each size closed and open, and one size with shorter timeouts.
    #[test]
    fn the_table_has_fifteen_rings() {
        let rings = rings();
        assert_eq!(rings.len(), 15);
        assert_eq!(rings.iter().filter(|ring| ring.closed).count(), 9);
        assert!(rings[12..].iter().all(|ring| ring.stations == 5));
        assert!(rings[12..].iter().all(|ring| ring.timeout.is_some()));
    }

    /// A line has three figures of all draws, the longest rows of any, and as many columns as the head.
    #[test]
    fn a_line_sums_up_all_draws() {
        let short = Rows::default().taken(128, true);
        let long = Rows::default().taken(3, false).taken(191, true);
        let outcomes = [
            outcome(100, 30, 2 * SECOND, short),
            outcome(50, 20, SECOND / 2, long),
            outcome(60, 20, SECOND, short),
        ];
        let text = line(&rings()[0], &outcomes);
        let wanted =
            "| 3 | closed | 2^39 | 0.50, 1.00, 2.00 | 50, 60, 100 | 33 % | 1 | 8 | 2 | 252 | 1 | 1.0, 1.0, 1.0 |";
        assert_eq!(text, wanted);
        let columns = |text: &str| text.matches('|').count();
        assert!(HEAD.lines().all(|head| columns(head) == columns(wanted)));
    }
}
