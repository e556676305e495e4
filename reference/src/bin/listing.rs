//! Reads frames from lines of standard input and prints the clock chosen after each.

use reference::bridge::Listed;
use reference::byvalue::Handed;
use reference::listing::Listing;
use reference::program::run;
use std::io;

/// Runs with the state in the form that the first argument names.
fn main() -> io::Result<()> {
    run::<Listing<Listed>, Listing<Handed>>()
}
