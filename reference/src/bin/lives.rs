//! Prints lines of many lives of a bridge, counts their answers, or turns their arrivals into lines for the listing program and, with their latches, for the stamps program.

use reference::input::next_line;
use reference::lives::census::Census;
use reference::lives::listed::Lister;
use reference::lives::lives;
use reference::lives::stamped::Stamper;
use reference::replay::LINE_MOST;
use std::io::{self, BufReader, BufWriter, Write};

/// How much is read or written at a time.
const CHUNK: usize = 1 << 16;
/// What the arguments can be.
const USAGE: &str =
    "lives N SEED | lives --census N SEED | lives --listing < lines | lives --stamps < lines";

/// Does what the arguments ask for.
fn main() -> io::Result<()> {
    let arguments: Vec<String> = std::env::args().skip(1).collect();
    let words: Vec<&str> = arguments.iter().map(String::as_str).collect();
    match words[..] {
        ["--census", lines, seed] => count(number(lines)?, number(seed)?),
        ["--listing"] => {
            let mut lister = Lister::default();
            turn(|line, out| lister.put(line, out))
        }
        ["--stamps"] => {
            let mut stamper = Stamper::default();
            turn(|line, out| stamper.put(line, out))
        }
        [lines, seed] => print(number(lines)?, number(seed)?),
        _ => Err(io::Error::other(USAGE)),
    }
}

/// Reads an argument as a decimal number.
fn number(word: &str) -> io::Result<u64> {
    word.parse().map_err(|_| io::Error::other(USAGE))
}

/// Prints lines.
fn print(count: u64, seed: u64) -> io::Result<()> {
    let mut to = BufWriter::with_capacity(CHUNK, io::stdout().lock());
    lives(count, seed, &mut |line, _, _| {
        to.write_all(line)?;
        to.write_all(b"\n")
    })?;
    to.flush()
}

/// Counts the answers to lines, and those of the stamps program to the latches made from them, and fails if one is missing.
fn count(lines: u64, seed: u64) -> io::Result<()> {
    let mut census = Census::default();
    let mut stamper = Stamper::default();
    let mut turned = Vec::new();
    lives(lines, seed, &mut |line, reply, bridge| {
        census.count(line, reply, bridge);
        turned.clear();
        stamper.put(line, &mut turned);
        Ok(())
    })?;
    print!("{census}the stamps program\n{}", stamper.census);
    if census.complete() && stamper.census.missing().is_empty() {
        Ok(())
    } else {
        Err(io::Error::other("an answer is missing"))
    }
}

/// Turns each line of standard input into the lines that it gives for another program.
fn turn(mut put: impl FnMut(&[u8], &mut Vec<u8>)) -> io::Result<()> {
    let mut from = BufReader::with_capacity(CHUNK, io::stdin().lock());
    let mut to = BufWriter::with_capacity(CHUNK, io::stdout().lock());
    let (mut line, mut turned) = (Vec::new(), Vec::new());
    while next_line(&mut from, LINE_MOST, &mut line)? {
        turned.clear();
        put(&line, &mut turned);
        to.write_all(&turned)?;
    }
    to.flush()
}
