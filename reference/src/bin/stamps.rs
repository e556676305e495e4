//! Reads frames and latches from lines of standard input and prints the clock chosen after each frame and the stamp of each latch.

use reference::bridge::Listed;
use reference::byvalue::Handed;
use reference::program::run;
use reference::stamps::Stamps;
use std::io;

/// Runs with the state in the form that the first argument names.
fn main() -> io::Result<()> {
    run::<Stamps<Listed>, Stamps<Handed>>()
}
