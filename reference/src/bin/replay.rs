//! Plays lines from standard input to a bridge and prints one answer for each.

use reference::bridge::Listed;
use reference::byvalue::Handed;
use reference::program::run;
use reference::replay::Replay;
use std::io;

/// Runs with the state in the form that the first argument names.
fn main() -> io::Result<()> {
    run::<Replay<Listed>, Replay<Handed>>()
}
