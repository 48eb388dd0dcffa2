//! Runs a whole script: lines in, what the calls yield out.

use std::fmt;
use std::io::{self, BufRead, Read, Write};

use crate::line::{Call, Line};
use crate::outcome::Outcome;
use crate::parse::{LONGEST, parse};
use crate::performer::{Performer, Stop};

/// How a run ended.
#[derive(Clone, Debug, PartialEq, Eq)]
pub enum End {
    /// At the end of the input, with the book.
    Complete,
    /// At a malformed line.
    Malformed,
    /// At a line that leaves the domain.
    Outside,
    /// Past the domain, with a panic of the Rust.
    Panicked,
    /// At a disagreement that may not be: where, and which.
    Disagreement(String),
}

impl End {
    /// The exit status of a program that ran the script.
    pub fn status(&self) -> u8 {
        match self {
            End::Complete | End::Malformed | End::Panicked => 0,
            End::Outside => 3,
            End::Disagreement(_) => 4,
        }
    }
}

/// Where and why a run went no further.
#[derive(Clone, Debug, PartialEq, Eq)]
pub struct Halt {
    /// From 1.
    line: u64,
    why: Why,
}

#[derive(Clone, Debug, PartialEq, Eq)]
enum Why {
    Malformed,
    Stopped(Stop),
}

impl Halt {
    pub fn end(&self) -> End {
        match &self.why {
            Why::Malformed => End::Malformed,
            Why::Stopped(Stop::Outside(_)) => End::Outside,
            Why::Stopped(Stop::Panicked(_)) => End::Panicked,
            Why::Stopped(Stop::Disagreement(_)) => End::Disagreement(self.to_string()),
        }
    }
}

impl fmt::Display for Halt {
    fn fmt(&self, f: &mut fmt::Formatter) -> fmt::Result {
        let line = self.line;
        match &self.why {
            Why::Malformed => write!(f, "line {line} malformed"),
            Why::Stopped(Stop::Outside(reason)) => {
                write!(f, "line {line} outside the domain: {reason}")
            }
            Why::Stopped(Stop::Panicked(message)) => write!(f, "panic {message}"),
            Why::Stopped(Stop::Disagreement(said)) => write!(f, "line {line}: {said}"),
        }
    }
}

/// Runs the script on a performer that is at a script's beginning.
pub fn run(
    performer: &mut impl Performer,
    input: impl BufRead,
    output: &mut impl Write,
) -> io::Result<End> {
    let halt = perform(performer, input, |_, _, outcome| {
        write!(output, "{outcome}")
    })?;
    let Some(halt) = halt else {
        write!(output, "{}", performer.ending())?;
        return Ok(End::Complete);
    };
    let end = halt.end();
    if !matches!(end, End::Disagreement(_)) {
        writeln!(output, "{halt}")?;
    }
    Ok(end)
}

/// Performs a script's lines up to its end or to one that halts the run. `each` is shown
/// every call, what it yielded, and the performer after it.
pub fn perform<P: Performer>(
    performer: &mut P,
    mut input: impl BufRead,
    mut each: impl FnMut(&P, &Call, &Outcome) -> io::Result<()>,
) -> io::Result<Option<Halt>> {
    let mut text = Vec::with_capacity(LONGEST + 2);
    let mut number = 0u64;
    let halt = |line, why| Ok(Some(Halt { line, why }));
    while next_line(&mut input, &mut text)? {
        number += 1;
        let Some(line) = parse(&text) else {
            return halt(number, Why::Malformed);
        };
        let outcome = match performer.perform(&line) {
            Ok(outcome) => outcome,
            Err(stop) => return halt(number, Why::Stopped(stop)),
        };
        if let (Line::Call(call), Some(outcome)) = (&line, &outcome) {
            each(performer, call, outcome)?;
        }
    }
    Ok(None)
}

/// Reads a line without its line feed. One that is too long is cut off one byte past
/// the longest: it is malformed all the same.
fn next_line(input: &mut impl BufRead, text: &mut Vec<u8>) -> io::Result<bool> {
    text.clear();
    let most = LONGEST as u64 + 1;
    let count = input.by_ref().take(most).read_until(b'\n', text)?;
    if text.last() == Some(&b'\n') {
        text.pop();
    }
    Ok(count > 0)
}
