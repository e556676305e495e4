//! Rows of stations that took a frame one after another, and how long the theorems let them be.

use crate::rules::{passes_left, HOP_NONE};

/// The most passes that are left at any hop.
pub const PASSES_MOST: u32 = 9;

/// A row of stations: how many took the frame, and the hop that it had at the first of them.
#[derive(Clone, Copy, Debug, Default, PartialEq, Eq)]
pub struct Row {
    pub length: u32,
    pub first_hop: u8,
}

impl Row {
    /// Gives the row with one more station, which took the frame with this hop.
    fn longer(self, hop: u8) -> Row {
        Row {
            length: self.length + 1,
            first_hop: if self.length == 0 {
                hop
            } else {
                self.first_hop
            },
        }
    }

    /// Gives the most stations of the row at which the hop can jump: the passes left at its first hop.
    fn passes_most(self) -> u32 {
        u32::from(passes_left(self.first_hop)).min(PASSES_MOST)
    }

    /// Gives the longer of two rows, this one where they are as long.
    fn or_longer(self, other: Row) -> Row {
        if other.length > self.length {
            other
        } else {
            self
        }
    }
}

/// The two rows that a frame stands in: of stations whose chosen hop was below the frame's, and of any stations; and at how many of
/// the latter the chosen hop was below the frame's, so that the hop jumped.
#[derive(Clone, Copy, Debug, Default, PartialEq, Eq)]
pub struct Rows {
    pub premised: Row,
    pub any: Row,
    pub jumps: u32,
}

impl Rows {
    /// Gives the rows once a station has taken the frame, by the premise that its chosen hop was below the frame's or not.
    pub fn taken(self, hop: u8, premise: bool) -> Rows {
        Rows {
            premised: if premise {
                self.premised.longer(hop)
            } else {
                Row::default()
            },
            any: self.any.longer(hop),
            jumps: self.jumps + u32::from(premise),
        }
    }

    /// Gives the longer row of each kind, and the greater number of jumps in a row.
    pub fn or_longer(self, other: Rows) -> Rows {
        Rows {
            premised: self.premised.or_longer(other.premised),
            any: self.any.or_longer(other.any),
            jumps: self.jumps.max(other.jumps),
        }
    }

    /// Gives the most stations that the first theorem allows in the row with the premise.
    pub fn premised_most(self) -> u32 {
        self.premised.passes_most()
    }

    /// Gives the most stations that the second theorem allows in the row of any stations.
    pub fn any_most(self) -> u32 {
        u32::from(HOP_NONE - self.any.first_hop)
    }

    /// Says which row is longer than its theorem allows, or jumps more often, if one does.
    pub fn too_long(self) -> Option<String> {
        let (with, without) = ("stations with the premise", "stations without the premise");
        [
            (
                self.premised,
                self.premised.length,
                with,
                self.premised_most(),
            ),
            (self.any, self.any.length, without, self.any_most()),
            (self.any, self.jumps, "jumps", self.any.passes_most()),
        ]
        .into_iter()
        .find(|(_, count, _, most)| count > most)
        .map(|(row, count, what, most)| {
            let hop = row.first_hop;
            format!("a row of {count} {what} from hop {hop} on, where at most {most} are allowed")
        })
    }
}

#[cfg(test)]
mod tests {
    use super::{Row, Rows};
    use crate::rules::passes_left;

    /// Makes a row of so many stations with the premise and one of so many of any, both from a hop on.
    fn rows(premised: u32, any: u32, first_hop: u8) -> Rows {
        Rows {
            premised: Row {
                length: premised,
                first_hop,
            },
            any: Row {
                length: any,
                first_hop,
            },
            jumps: premised,
        }
    }

    /// A row with the premise ends where the premise does not hold, and the next one begins with the next station.
    #[test]
    fn the_premise_ends_a_row() {
        let first = Rows::default().taken(3, true).taken(129, true);
        assert_eq!(first, rows(2, 2, 3));
        let broken = first.taken(192, false);
        assert_eq!(broken.premised, Row::default());
        assert_eq!(broken.any, rows(0, 3, 3).any);
        let next = broken.taken(193, true);
        assert_eq!(next.premised, rows(1, 0, 193).premised);
        assert_eq!(next.any, rows(0, 4, 3).any);
        assert_eq!(next.jumps, 3);
    }

    /// The longer row of each kind is kept, and the first of two that are as long.
    #[test]
    fn the_longer_row_is_kept() {
        let kept = rows(2, 4, 5).or_longer(rows(3, 4, 9));
        assert_eq!(kept.premised, rows(3, 0, 9).premised);
        assert_eq!(kept.any, rows(0, 4, 5).any);
    }

    /// A row may be as long as its theorem allows and no longer.
    #[test]
    fn rows_are_held_to_the_theorems() {
        for hop in 0..255 {
            let most = u32::from(passes_left(hop));
            assert_eq!(rows(most, most, hop).too_long(), None);
            assert!(rows(most + 1, most, hop).too_long().is_some());
            let jumping = Rows {
                jumps: most + 1,
                ..rows(0, most, hop)
            };
            assert!(jumping.too_long().is_some());
            let any_most = 255 - u32::from(hop);
            assert_eq!(rows(0, any_most, hop).too_long(), None);
            assert!(rows(0, any_most + 1, hop).too_long().is_some());
        }
    }
}
