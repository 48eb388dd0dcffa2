//! Whoever performs scripts line by line: the Rust with its book and mark, or the model
//! with its.

use crate::line::Line;
use crate::outcome::{Ending, Outcome};

/// Why a line was not performed.
#[derive(Clone, Debug, PartialEq, Eq)]
pub enum Stop {
    /// The line leaves the domain of comparison.
    Outside(String),
    /// Past the domain: the Rust panics.
    Panicked(String),
    /// Inside the domain the Rust, document 01 and the book do not agree.
    Disagreement(String),
}

pub trait Performer {
    /// Goes to the beginning of another script.
    fn begin(&mut self);

    /// Performs one line; a call yields an outcome.
    fn perform(&mut self, line: &Line) -> Result<Option<Outcome>, Stop>;

    /// The lines at the end of a run.
    fn ending(&self) -> Ending<'_>;

    /// The driver's flags as a record of the trace has them, bit 0 first.
    fn flags(&self) -> [bool; 8];
}
