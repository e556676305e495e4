//! Lines in and lines out, in constant memory.

use std::io::{self, BufRead, BufReader, BufWriter, Read, Write};

/// How much is read or written at a time.
const CHUNK: usize = 1 << 16;

/// Reads the next line without its newline, keeping at most `most + 1` bytes of it, and says whether there was one.
pub fn next_line(from: &mut impl BufRead, most: usize, line: &mut Vec<u8>) -> io::Result<bool> {
    line.clear();
    let mut any = false;
    loop {
        let chunk = from.fill_buf()?;
        if chunk.is_empty() {
            return Ok(any);
        }
        any = true;
        let end = chunk.iter().position(|byte| *byte == b'\n');
        let piece = &chunk[..end.unwrap_or(chunk.len())];
        let room = (most + 1).saturating_sub(line.len());
        line.extend_from_slice(&piece[..piece.len().min(room)]);
        let used = piece.len() + usize::from(end.is_some());
        from.consume(used);
        if end.is_some() {
            return Ok(true);
        }
    }
}

/// Answers each line of an input with one line of an output.
pub fn answer_lines(
    from: impl Read,
    to: impl Write,
    most: usize,
    mut answer: impl FnMut(&[u8], &mut Vec<u8>),
) -> io::Result<()> {
    let mut from = BufReader::with_capacity(CHUNK, from);
    let mut to = BufWriter::with_capacity(CHUNK, to);
    let mut line = Vec::with_capacity(most + 1);
    let mut reply = Vec::new();
    loop {
        if from.buffer().is_empty() {
            to.flush()?;
        }
        if !next_line(&mut from, most, &mut line)? {
            return to.flush();
        }
        reply.clear();
        answer(&line, &mut reply);
        reply.push(b'\n');
        to.write_all(&reply)?;
    }
}
