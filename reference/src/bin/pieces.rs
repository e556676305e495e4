//! Has a program read standard input in pieces of given sizes, a piece a read: `pieces SIZES PROGRAM ..`, with sizes as `1,7,13`.
//!
//! Each piece is a datagram of a socket that is the program's standard input, so that no read gives more or less than one; the
//! empty one after the last is the end of the input. A pipe may join pieces, and a regular file has none.

use std::io::{self, Read};
use std::os::fd::OwnedFd;
use std::os::unix::net::UnixDatagram;
use std::process::{Command, ExitCode};

/// What the arguments are.
const USAGE: &str = "pieces SIZE,SIZE.. PROGRAM ARGUMENT.. < INPUT";

/// Plays standard input to the program, and ends as it does.
fn main() -> io::Result<ExitCode> {
    let arguments: Vec<String> = std::env::args().skip(1).collect();
    let [sizes, program, words @ ..] = &arguments[..] else {
        return Err(io::Error::other(USAGE));
    };
    let sizes = sizes_of(sizes)?;
    let mut input = Vec::new();
    io::stdin().read_to_end(&mut input)?;
    let (ours, theirs) = UnixDatagram::pair()?;
    let mut child = Command::new(program)
        .args(words)
        .stdin(OwnedFd::from(theirs))
        .spawn()?;
    let sent = send(&ours, &input, &sizes);
    let status = child.wait()?;
    sent?;
    let code = status.code().and_then(|code| u8::try_from(code).ok());
    Ok(ExitCode::from(code.unwrap_or(u8::MAX)))
}

/// Reads the sizes, none of which is 0.
fn sizes_of(word: &str) -> io::Result<Vec<usize>> {
    word.split(',')
        .map(|size| size.parse().ok().filter(|size| *size > 0))
        .collect::<Option<Vec<usize>>>()
        .ok_or_else(|| io::Error::other(USAGE))
}

/// Sends the input in pieces of the sizes, over and over, and then its end.
fn send(to: &UnixDatagram, input: &[u8], sizes: &[usize]) -> io::Result<()> {
    let mut rest = input;
    for size in sizes.iter().cycle() {
        let (piece, after) = rest.split_at(rest.len().min(*size));
        to.send(piece)?;
        if piece.is_empty() {
            break;
        }
        rest = after;
    }
    Ok(())
}
