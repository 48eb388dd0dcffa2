//! Many control states in one script, with the Rust's answers to it.

use std::fmt::Write;

use crate::line::Line;
use crate::outcome::Outcome;
use crate::performer::Performer;
use crate::session::Session;

/// A script in parts, each of which takes one control state's next steps, and all that
/// the Rust yields for it.
#[derive(Default)]
pub struct Batch {
    pub lines: Vec<Line>,
    pub judge: String,
    /// Where each part begins: its first line, and its first byte of the output.
    parts: Vec<(usize, usize)>,
}

impl Batch {
    pub fn begin_part(&mut self) {
        self.parts.push((self.lines.len(), self.judge.len()));
    }

    pub fn add(&mut self, line: Line, outcome: Option<Outcome>) {
        self.lines.push(line);
        if let Some(outcome) = outcome {
            write!(self.judge, "{outcome}").expect("memory does not fail");
        }
    }

    /// The lines that end every run.
    pub fn close(&mut self, session: &Session) {
        write!(self.judge, "{}", session.ending()).expect("memory does not fail");
    }

    pub fn parts(&self) -> impl Iterator<Item = &[Line]> {
        (0..self.parts.len()).map(|part| self.part(part))
    }

    fn part(&self, part: usize) -> &[Line] {
        let begins = |part: usize| self.parts.get(part).map(|(line, _)| *line);
        let first = begins(part).unwrap_or(0);
        let end = begins(part + 1).unwrap_or(self.lines.len());
        &self.lines[first..end]
    }

    /// The part in which another output first differs from the Rust's.
    pub fn part_that_differs(&self, output: &[u8]) -> &[Line] {
        let pairs = self.judge.bytes().zip(output);
        let same = pairs.take_while(|(judge, other)| judge == *other).count();
        let after = self.parts.partition_point(|(_, byte)| *byte <= same);
        self.part(after.saturating_sub(1))
    }
}
