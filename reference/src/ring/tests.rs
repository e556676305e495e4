//! Whole courses of a ring of three, whose stations are bridges within the test and not processes.

use super::cabling::Ring;
use super::course::{play, Outcome};
use super::program::Answers;
use crate::bridge::{Listed, TIMEOUT_DEFAULT};
use crate::frame::AT_HOP;
use crate::program::Program;
use crate::replay::Replay;
use std::io;

/// The ring that is played.
const THREE: Ring = Ring {
    stations: 3,
    closed: true,
    timeout: None,
    draw: 1,
};

/// What a stand-in does with a line.
enum Doing {
    Play(String),
    Answer(&'static str),
    End,
}

/// A stand-in for a program, which may do otherwise than a bridge does.
struct StandIn {
    replay: Replay<Listed>,
    doing: fn(&str) -> Doing,
}

impl StandIn {
    /// Answers one line.
    fn answer(&mut self, line: &str) -> io::Result<String> {
        match (self.doing)(line) {
            Doing::Play(line) => {
                let mut answer = Vec::new();
                self.replay.answer(line.as_bytes(), &mut answer);
                String::from_utf8(answer).map_err(io::Error::other)
            }
            Doing::Answer(answer) => Ok(answer.to_string()),
            Doing::End => Err(io::Error::other("ended")),
        }
    }
}

impl Answers for StandIn {
    /// Answers lines one after another.
    fn answers(&mut self, lines: &[&str]) -> io::Result<Vec<String>> {
        lines.iter().map(|line| self.answer(line)).collect()
    }

    /// Ends well.
    fn end(&mut self) -> io::Result<()> {
        Ok(())
    }
}

/// Plays the ring of three with stand-ins that all do the same.
fn play_three(doing: fn(&str) -> Doing) -> io::Result<Outcome> {
    play(&THREE, &mut || {
        Ok(Box::new(StandIn {
            replay: Replay {
                bridge: Listed::empty(),
            },
            doing,
        }))
    })
}

/// Gives what is said where the ring of three fails.
fn failure(doing: fn(&str) -> Doing) -> String {
    match play_three(doing) {
        Ok(outcome) => panic!("{outcome:?}"),
        Err(error) => error.to_string(),
    }
}

/// Plays every line as it is.
fn as_it_is(line: &str) -> Doing {
    Doing::Play(line.to_string())
}

/// Plays frames as if their hop were one less, so that a frame goes on with the hop that it came with.
fn with_hop_kept(line: &str) -> Doing {
    let Some(digits) = line.rfind(' ').filter(|_| line.starts_with('R')) else {
        return as_it_is(line);
    };
    let at = digits + 1 + 2 * AT_HOP;
    let hop = u8::from_str_radix(&line[at..at + 2], 16).unwrap_or(0);
    let less = format!("{:02X}", hop.saturating_sub(1));
    Doing::Play([&line[..at], &less, &line[at + 2..]].concat())
}

/// A ring outlives its grand master by more than a timeout and takes frames meanwhile, no row is too long, and every clock is given up.
#[test]
fn a_ring_outlives_its_grand_master() {
    let outcome = play_three(as_it_is).unwrap();
    assert!(outcome.announced > TIMEOUT_DEFAULT);
    assert!(outcome.taken > outcome.premised && outcome.premised > 0);
    assert_eq!(outcome.longest.too_long(), None);
    for station in 0..THREE.stations {
        let mut changes = outcome.changes.iter().rev();
        let last = changes.find(|change| change.station == station);
        assert_eq!(last.map(|change| change.hop), Some(None));
    }
}

/// The same ring has the same course each time.
#[test]
fn a_course_is_repeated() {
    assert_eq!(play_three(as_it_is).unwrap(), play_three(as_it_is).unwrap());
}

/// Stations that send a frame on with the hop that it came with make a row that is too long.
#[test]
fn a_row_that_is_too_long_is_found() {
    let said = failure(with_hop_kept);
    assert!(
        said.contains("a row of 256 stations without the premise"),
        "{said}"
    );
}

/// An answer that no frame of a station should get ends the course, and the line is told.
#[test]
fn a_frame_refused_by_its_bytes_is_found() {
    let said = failure(|line| match line.as_bytes()[0] {
        b'R' => Doing::Answer("05"),
        _ => as_it_is(line),
    });
    assert!(said.starts_with("3 stations, closed"), "{said}");
    assert!(said.contains(": R ") && said.ends_with(": 05"), "{said}");
}

/// A clock that is never chosen is found at the silence.
#[test]
fn a_clock_that_is_not_chosen_is_found() {
    let said = failure(|line| match line.as_bytes()[0] {
        b'R' => Doing::Answer("08"),
        _ => as_it_is(line),
    });
    assert!(
        said.ends_with("station 1 has not chosen the clock before the silence"),
        "{said}"
    );
}

/// A clock that no station gives up is found in the end.
#[test]
fn a_clock_that_is_never_given_up_is_found() {
    let said = failure(|line| match line.as_bytes()[0] {
        b'A' => Doing::Answer("00"),
        _ => as_it_is(line),
    });
    assert!(
        said.ends_with("still announced 60.00 s after the silence"),
        "{said}"
    );
}

/// A program that ends is told with its station.
#[test]
fn a_program_that_ends_is_found() {
    let said = failure(|line| match line.as_bytes()[0] {
        b'A' => Doing::End,
        _ => as_it_is(line),
    });
    assert!(
        said.contains("station ") && said.ends_with(": ended"),
        "{said}"
    );
}
