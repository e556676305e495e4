//! The points of the picture: the held hops of the chosen clocks of one ring's stations over time.

use super::cabling::Ring;
use super::clock::SECOND;
use super::course::{play, Change, Starter, SILENCE};
use std::io::{self, Write};

/// The ring that is drawn.
const DRAWN: Ring = Ring {
    stations: 3,
    closed: true,
    timeout: None,
    draw: 1,
};

/// Plays the ring, and prints a line for each change.
pub fn print(start: Starter, to: &mut impl Write) -> io::Result<()> {
    for change in play(&DRAWN, start)?.changes {
        writeln!(to, "{}", line(&change))?;
    }
    Ok(())
}

/// Writes the line of a change: the station, the seconds since the silence, and the held hop, or a dash where no clock is chosen.
fn line(change: &Change) -> String {
    let seconds = (change.time as f64 - SILENCE as f64) / SECOND as f64;
    let hop = change.hop.map_or("-".to_string(), |hop| hop.to_string());
    format!("{} {seconds:.4} {hop}", change.station + 1)
}

#[cfg(test)]
mod tests {
    use super::line;
    use crate::ring::clock::SECOND;
    use crate::ring::course::{Change, SILENCE};

    /// A line has the station's number, signed seconds, and the hop or a dash.
    #[test]
    fn changes_are_lines() {
        let mut change = Change {
            time: SILENCE + SECOND / 4,
            station: 2,
            hop: Some(129),
        };
        assert_eq!(line(&change), "3 0.2500 129");
        change.time = SILENCE - SECOND / 2;
        change.hop = None;
        assert_eq!(line(&change), "3 -0.5000 -");
    }
}
