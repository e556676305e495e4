//! A station: its replay program, its local clock, and what its ports last did.

use super::clock::Clock;
use super::program::Answers;
use super::row::Rows;
use crate::answer::{
    Answer, BAD_DELAY, BEYOND_RANGE, DONE, NO_CLOCK, OUT_OF_REACH, OUT_OF_SEQUENCE, TOO_FAR,
    TOO_FEW_SAMPLES,
};
use crate::bridge::OWN;
use crate::frame::{self, Fields, FRAME_LEN};
use crate::hex;
use crate::replay::BYTES_MOST;
use crate::rules::HOP_NONE;
use crate::times::{next_count, parts};
use std::fmt;
use std::io;

/// What Own clock may answer: its first reading follows on none.
const OWN_CLOCK_ANSWERS: &[Answer] = &[DONE, OUT_OF_SEQUENCE];
/// What Receive may answer to a frame that a station sent.
const RECEIVE_ANSWERS: &[Answer] = &[DONE, TOO_FAR, OUT_OF_SEQUENCE, BAD_DELAY];
/// What Send may answer at a port with a link.
const SEND_ANSWERS: &[Answer] = &[DONE, NO_CLOCK, TOO_FEW_SAMPLES, OUT_OF_REACH, BEYOND_RANGE];
/// What is printed for no chosen clock.
const NONE_CHOSEN: &str = "FF FF";

/// The clock that a station has chosen.
#[derive(Clone, Copy, Debug, PartialEq, Eq)]
pub struct Chosen {
    pub port: u8,
    pub hop: u8,
}

/// A frame on its way, and the rows of stations that took it so far.
#[derive(Clone, Debug)]
pub struct Frame {
    digits: String,
    hop: u8,
    rows: Rows,
    /// The grand time that it says, and the true time of the departure that this belongs to.
    pub grand: u128,
    pub departed: u64,
}

/// What is known of a frame that a station took.
#[derive(Clone, Copy, Debug)]
pub struct Taken {
    /// Whether the chosen hop was below the frame's.
    pub premise: bool,
    pub rows: Rows,
}

/// When a frame left, in true time and on the station's clock.
#[derive(Clone, Copy, Debug)]
struct Departure {
    time: u64,
    local: u64,
}

/// A port's side of its cable.
#[derive(Clone, Copy, Debug, Default)]
struct Port {
    /// When the preceding frame left; none where none has since the link came up, or the last send was refused.
    departed: Option<Departure>,
    /// The rows of the last frame that was taken.
    rows: Rows,
}

/// How a station is set up.
#[derive(Clone, Copy, Debug)]
pub struct Setup {
    /// The station's number, from 1 on.
    pub number: usize,
    pub ports: u8,
    pub links: u8,
    pub capable: bool,
    pub timeout: Option<u64>,
}

/// The count of the own clock's next reading, and the grand time of the last, which is handed over with it.
#[derive(Clone, Copy, Debug, Default)]
struct OwnClock {
    count: u8,
    grand: u128,
}

/// A station.
pub struct Station {
    number: usize,
    program: Box<dyn Answers>,
    clock: Clock,
    ports: Vec<Port>,
    own: OwnClock,
    /// What Chosen answered after the last call, and so before the next.
    chosen: Option<Chosen>,
}

impl Station {
    /// Sets a station up on a program, and brings its links up.
    pub fn new(setup: &Setup, clock: Clock, program: Box<dyn Answers>) -> io::Result<Station> {
        let mut station = Station {
            number: setup.number,
            program,
            clock,
            ports: vec![Port::default(); usize::from(setup.ports)],
            own: OwnClock::default(),
            chosen: None,
        };
        station.call(&setup_line(setup), &[DONE])?;
        station.call(&format!("L {:X}", setup.links), &[DONE])?;
        Ok(station)
    }

    /// Gives the clock that is chosen now.
    pub fn chosen(&self) -> Option<Chosen> {
        self.chosen
    }

    /// Reads the own clock, which shows a grand time now, and hands over what it showed at the reading before.
    pub fn read_own_clock(&mut self, time: u64, grand: u128) -> io::Result<()> {
        let (seconds, fraction) = parts(self.own.grand);
        let now = self.clock.local(time);
        let line = format!("O {:X} {seconds:X} {fraction:X} {now:X}", self.own.count);
        self.call(&line, OWN_CLOCK_ANSWERS)?;
        self.own = OwnClock {
            count: next_count(self.own.count),
            grand,
        };
        Ok(())
    }

    /// Forgets what is older than the timeout.
    pub fn age(&mut self, time: u64) -> io::Result<()> {
        self.call(&format!("A {:X}", self.clock.local(time)), &[DONE])?;
        Ok(())
    }

    /// Receives a frame at a port, and tells of it if it is taken.
    pub fn receive(&mut self, port: u8, time: u64, frame: &Frame) -> io::Result<Option<Taken>> {
        let chosen_hop = self.chosen.map_or(HOP_NONE, |chosen| chosen.hop);
        let arrival = self.clock.local(time);
        let line = format!("R {port:X} {arrival:X} {}", frame.digits);
        let (answer, _) = self.call(&line, RECEIVE_ANSWERS)?;
        if answer != DONE {
            return Ok(None);
        }
        let premise = chosen_hop < frame.hop;
        let rows = frame.rows.taken(frame.hop, premise);
        self.port(port).rows = rows;
        Ok(Some(Taken { premise, rows }))
    }

    /// Sends at a port, and gives the frame that leaves, if one does.
    pub fn send(&mut self, port: u8, time: u64) -> io::Result<Option<Frame>> {
        let local = self.clock.local(time);
        let now = Departure { time, local };
        let departure = self.port(port).departed.unwrap_or(now);
        let line = format!("T {port:X} {:X} {FRAME_LEN:X}", departure.local);
        let (answer, output) = self.call(&line, SEND_ANSWERS)?;
        let sent = answer == DONE;
        self.port(port).departed = sent.then_some(now);
        if !sent {
            return Ok(None);
        }
        let frame = self.frame_of_chosen(output.clone(), departure.time);
        frame.map(Some).ok_or_else(|| self.failure(&line, &output))
    }

    /// Has the program end.
    pub fn end(&mut self) -> io::Result<()> {
        let ended = self.program.end();
        ended.map_err(|error| io::Error::other(format!("{self}: {error}")))
    }

    /// Gives a port by its number.
    fn port(&mut self, port: u8) -> &mut Port {
        &mut self.ports[usize::from(port) - 1]
    }

    /// Gives the frame that a send wrote, if it has the chosen clock's held hop; it goes on with the rows of the chosen port, or
    /// starts them where the clock is the own one.
    fn frame_of_chosen(&mut self, digits: String, departed: u64) -> Option<Frame> {
        let chosen = self.chosen?;
        let rows = match chosen.port {
            OWN => Rows::default(),
            port => self.port(port).rows,
        };
        let Fields { hop, grand, .. } = fields_in(&digits)?;
        (hop == chosen.hop).then_some(Frame {
            digits,
            hop,
            rows,
            grand,
            departed,
        })
    }

    /// Makes a call by its line, and asks for the clock that is chosen after it; gives the answer, which must be one of those
    /// wanted, and what stands behind it.
    fn call(&mut self, line: &str, wanted: &[Answer]) -> io::Result<(Answer, String)> {
        let played = self.program.answers(&[line, "C"]);
        let answers = played.map_err(|error| self.failure(line, &error.to_string()))?;
        let [reply, chosen] = &answers[..] else {
            return Err(self.failure(line, &answers.join(", ")));
        };
        self.chosen =
            chosen_in(chosen, self.ports.len()).ok_or_else(|| self.failure("C", chosen))?;
        let (answer, rest) = reply.split_once(' ').unwrap_or((reply, ""));
        hex::byte(answer.as_bytes())
            .filter(|number| wanted.contains(number))
            .map(|number| (number, rest.to_string()))
            .ok_or_else(|| self.failure(line, reply))
    }

    /// The failure of a line that is answered as it should not be.
    fn failure(&self, line: &str, answer: &str) -> io::Error {
        io::Error::other(format!("{self}: {line}: {answer}"))
    }
}

impl fmt::Display for Station {
    /// Names the station where something fails.
    fn fmt(&self, to: &mut fmt::Formatter) -> fmt::Result {
        write!(to, "station {}", self.number)
    }
}

/// Writes the line of a setup with the default backTime and measured delays.
fn setup_line(setup: &Setup) -> String {
    let number = setup.number;
    let capable = u8::from(setup.capable);
    let timeout = setup
        .timeout
        .map_or("D".to_string(), |timeout| format!("{timeout:X}"));
    format!(
        "S {:X} 0200000000{number:02X} 80204E5D800200000000FFFE{number:02X} {capable} {timeout} D M M M M M M M M",
        setup.ports
    )
}

/// Reads what Chosen printed at a station with so many ports: a clock, or none.
fn chosen_in(text: &str, ports: usize) -> Option<Option<Chosen>> {
    if text == NONE_CHOSEN {
        return Some(None);
    }
    let (port, hop) = text.split_once(' ')?;
    let chosen = Chosen {
        port: hex::byte(port.as_bytes())?,
        hop: hex::byte(hop.as_bytes())?,
    };
    (usize::from(chosen.port) <= ports).then_some(Some(chosen))
}

/// Reads the fields in the digits of a frame.
fn fields_in(digits: &str) -> Option<Fields> {
    let mut room = [0; BYTES_MOST];
    frame::read(hex::bytes(digits.as_bytes(), &mut room)?).ok()
}

#[cfg(test)]
mod tests {
    use super::{chosen_in, fields_in, setup_line, Chosen, Setup};

    /// A station is set up with the default times, or with the timeout that is given.
    #[test]
    fn setups_are_lines() {
        let mut setup = Setup {
            number: 2,
            ports: 3,
            links: 3,
            capable: false,
            timeout: None,
        };
        let line = "S 3 020000000002 80204E5D800200000000FFFE02 0 D D M M M M M M M M";
        assert_eq!(setup_line(&setup), line);
        setup.capable = true;
        setup.timeout = Some(1 << 36);
        let line = "S 3 020000000002 80204E5D800200000000FFFE02 1 1000000000 D M M M M M M M M";
        assert_eq!(setup_line(&setup), line);
    }

    /// A chosen clock, none, and what is neither are told apart.
    #[test]
    fn chosen_clocks_are_read() {
        let chosen = Chosen { port: 3, hop: 0x81 };
        assert_eq!(chosen_in("03 81", 3), Some(Some(chosen)));
        assert_eq!(chosen_in("FF FF", 3), Some(None));
        for text in ["", "02", "0E", "02 81 ", "2 81", "02 8G", "04 81"] {
            assert_eq!(chosen_in(text, 3), None, "{text}");
        }
    }

    /// Hop and grand time are read from the digits of a whole frame.
    #[test]
    fn frames_are_read() {
        let head = "0180C200000E02000000000188B50101";
        let digits = format!("{head}{}7F0000{:020X}{}", "0".repeat(26), 5, "0".repeat(44));
        let told = |digits: &str| fields_in(digits).map(|fields| (fields.hop, fields.grand));
        assert_eq!(told(&digits), Some((0x7F, 5)));
        assert_eq!(told(&digits[..126]), None);
        assert_eq!(told("A5"), None);
    }
}
