//! Programs that answer lines of standard input, with their bridge in either form.

use crate::bridge::{Bridge, Listed};
use crate::byvalue::Handed;
use crate::input::answer_lines;
use std::io;

/// A bridge that lines are answered by, one after another.
pub trait Program {
    /// The form that the bridge has.
    type Bridge;
    /// The length of the longest line that can be more than a bad one.
    const LONGEST: usize;

    /// Starts on a bridge that was not set up.
    fn on(bridge: Self::Bridge) -> Self;
    /// Answers one line.
    fn answer(&mut self, line: &[u8], out: &mut Vec<u8>);
}

/// Answers standard input with the bridge in the form that the first argument names.
pub fn run<InPlace, ByValue>() -> io::Result<()>
where
    InPlace: Program<Bridge = Listed>,
    ByValue: Program<Bridge = Handed>,
{
    match std::env::args().nth(1).as_deref() {
        None => answer_on::<InPlace>(Listed::empty()),
        Some("byvalue") => answer_on::<ByValue>(Handed(Bridge::empty())),
        Some(_) => Err(io::Error::other("the only argument is byvalue")),
    }
}

/// Has a program answer standard input on a bridge that was not set up.
pub fn answer_on<P: Program>(bridge: P::Bridge) -> io::Result<()> {
    let mut program = P::on(bridge);
    let answer = |line: &[u8], out: &mut Vec<u8>| program.answer(line, out);
    answer_lines(io::stdin().lock(), io::stdout().lock(), P::LONGEST, answer)
}
