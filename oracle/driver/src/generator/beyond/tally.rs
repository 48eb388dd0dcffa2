//! Counts what the scripts have met: answers, receive buffers with the driver, receptions,
//! declined transfers.

use std::collections::BTreeMap;
use std::fmt;

use super::declines::Declines;
use super::receptions::Receptions;
use crate::line::Line;
use crate::model::driver::{Driver, MOST_RECEIVE};
use crate::outcome::Outcome;

#[derive(Default)]
pub struct Tally {
    calls: u64,
    answers: BTreeMap<u8, u64>,
    /// Calls by how many receive buffers the driver had before, the one under way counted.
    held: [u64; MOST_RECEIVE + 1],
    pub receptions: Receptions,
    pub declines: Declines,
}

impl Tally {
    /// Takes note of one line.
    pub fn note(&mut self, before: &Driver, line: &Line, outcome: Option<&Outcome>) {
        self.receptions.note(before, line, outcome);
        self.declines.note(before, line, outcome);
        let Some(outcome) = outcome else {
            return;
        };
        self.calls += 1;
        *self.answers.entry(outcome.answer as u8).or_default() += 1;
        self.held[before.receive_buffers()] += 1;
    }

    fn most_held(&self) -> usize {
        let held = self.held.iter().rposition(|calls| *calls > 0);
        held.unwrap_or(0)
    }
}

impl fmt::Display for Tally {
    fn fmt(&self, f: &mut fmt::Formatter) -> fmt::Result {
        write!(f, "{} calls; answers", self.calls)?;
        for (answer, count) in &self.answers {
            write!(f, " {answer} ({count})")?;
        }
        write!(
            f,
            "; at most {} receive buffers, calls with",
            self.most_held()
        )?;
        for (held, count) in self.held.iter().enumerate() {
            write!(f, " {held} ({count})")?;
        }
        write!(f, "; {}; {}", self.receptions, self.declines)
    }
}
