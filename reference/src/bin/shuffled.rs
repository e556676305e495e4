//! Answers lines as replay, listing or stamps do, and compares candidates in orders and groupings that a seed gives.

use reference::bridge::Bridge;
use reference::listing::Listing;
use reference::order::Shuffled;
use reference::port::Port;
use reference::program::answer_on;
use reference::replay::Replay;
use reference::stamps::Stamps;
use std::io;

/// A bridge whose every choice is made in another order.
type Mixed = Bridge<Vec<Port>, Shuffled>;

/// What the arguments can be.
const USAGE: &str = "shuffled replay SEED | shuffled listing SEED | shuffled stamps SEED";

/// Answers standard input as the program that is named, with the seed that is given.
fn main() -> io::Result<()> {
    let arguments: Vec<String> = std::env::args().skip(1).collect();
    let words: Vec<&str> = arguments.iter().map(String::as_str).collect();
    match words[..] {
        ["replay", seed] => answer_on::<Replay<Mixed>>(mixed(seed)?),
        ["listing", seed] => answer_on::<Listing<Mixed>>(mixed(seed)?),
        ["stamps", seed] => answer_on::<Stamps<Mixed>>(mixed(seed)?),
        _ => Err(io::Error::other(USAGE)),
    }
}

/// Makes a bridge from a seed.
fn mixed(seed: &str) -> io::Result<Mixed> {
    let seed = seed.parse().map_err(|_| io::Error::other(USAGE))?;
    Ok(Bridge::comparing(Shuffled::new(seed)))
}
