//! Plays rings of stations whose grand master falls silent, each station a program of its own: `ring table PROGRAM ..` prints what
//! became of each ring, `ring picture PROGRAM ..` the chosen held hops of one over time.

use reference::ring::program::{Answers, Process};
use reference::ring::{picture, table};
use std::io::{self, BufWriter, Write};
use std::process::ExitCode;

/// What the arguments are.
const USAGE: &str = "usage: ring table|picture PROGRAM ARGUMENT..";

/// Prints what is asked for, or says in a line why it can't.
fn main() -> ExitCode {
    match print() {
        Ok(()) => ExitCode::SUCCESS,
        Err(error) => {
            eprintln!("ring: {error}");
            ExitCode::FAILURE
        }
    }
}

/// Prints what the first argument asks for, with stations that are the program of the others.
fn print() -> io::Result<()> {
    let arguments: Vec<String> = std::env::args().skip(1).collect();
    let [what, program, words @ ..] = &arguments[..] else {
        return Err(io::Error::other(USAGE));
    };
    let mut start =
        || -> io::Result<Box<dyn Answers>> { Ok(Box::new(Process::start(program, words)?)) };
    let mut to = BufWriter::new(io::stdout().lock());
    match what.as_str() {
        "table" => table::print(&mut start, &mut to)?,
        "picture" => picture::print(&mut start, &mut to)?,
        _ => return Err(io::Error::other(USAGE)),
    }
    to.flush()
}
