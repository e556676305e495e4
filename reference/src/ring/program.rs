//! A replay program that is started as a process, and answers lines.

use std::io::{self, BufRead, BufReader, Write};
use std::process::{Child, ChildStdin, ChildStdout, Command, Stdio};

/// A program that answers each line with one line.
pub trait Answers {
    /// Plays lines to the program and gives its answers, one for each.
    fn answers(&mut self, lines: &[&str]) -> io::Result<Vec<String>>;
    /// Has the program end, and makes sure that it ends well.
    fn end(&mut self) -> io::Result<()>;
}

/// A program that runs as a process; what it says on standard error goes to that of this one.
pub struct Process {
    child: Child,
    input: Option<ChildStdin>,
    output: BufReader<ChildStdout>,
}

impl Process {
    /// Starts a program with its arguments.
    pub fn start(program: &str, arguments: &[String]) -> io::Result<Process> {
        let mut child = Command::new(program)
            .args(arguments)
            .stdin(Stdio::piped())
            .stdout(Stdio::piped())
            .spawn()?;
        let input = child.stdin.take();
        let output = child.stdout.take().ok_or_else(ended)?;
        Ok(Process {
            child,
            input,
            output: BufReader::new(output),
        })
    }

    /// Reads the next answer.
    fn answer(&mut self) -> io::Result<String> {
        let mut line = String::new();
        self.output.read_line(&mut line)?;
        match line.strip_suffix('\n') {
            Some(answer) => Ok(answer.to_string()),
            None => Err(ended()),
        }
    }
}

impl Answers for Process {
    /// Writes all lines at once, so that the program can read them at once.
    fn answers(&mut self, lines: &[&str]) -> io::Result<Vec<String>> {
        let mut text = lines.join("\n");
        text.push('\n');
        let input = self.input.as_mut().ok_or_else(ended)?;
        input.write_all(text.as_bytes()).map_err(|_| ended())?;
        lines.iter().map(|_| self.answer()).collect()
    }

    /// Ends the program's input, and waits for the program.
    fn end(&mut self) -> io::Result<()> {
        self.input = None;
        let status = self.child.wait()?;
        if status.success() {
            Ok(())
        } else {
            Err(io::Error::other(format!("the program ended: {status}")))
        }
    }
}

/// The failure of a program that ends before its input does.
fn ended() -> io::Error {
    io::Error::other("the program ended before its input did")
}
