//! `beyond`: generated scripts that leave the domain of the comparison with the Rust,
//! through the model and through a command that should say the same, or leave the same
//! trace; the first difference is cut down and shown.

use std::process::ExitCode;

use oracle::command;
use oracle::comparison::{Comparison, Judge};
use oracle::generator::beyond::{Tally, script};
use oracle::line::Line;
use oracle::model::Session;

const USAGE: &str =
    "usage: beyond [--seeds N] [--first S] [--lines M] [--trace] [--keep FILE] COMMAND...
  COMMAND reads a script on its standard input and writes what the calls yield.
  --trace: COMMAND is given the argument `trace` and writes the calls' trace blocks.
  --keep FILE: the script that shows a difference is written there.";

/// The model, with what its scripts have met.
#[derive(Default)]
struct Model {
    session: Session,
    tally: Tally,
}

impl Judge for Model {
    type Performer = Session;
    const PROGRAM: &'static str = "beyond";
    const NAME: &'static str = "the model";

    fn script(&mut self, seed: u64, lines: usize) -> Result<Vec<Line>, String> {
        let tally = &mut self.tally;
        let note = |before: &_, line: &_, outcome: Option<&_>| tally.note(before, line, outcome);
        Ok(script(&mut self.session, seed, lines, note))
    }

    fn performer(&mut self) -> &mut Session {
        &mut self.session
    }

    fn summary(&self) -> String {
        self.tally.to_string()
    }
}

fn main() -> ExitCode {
    let comparison = Comparison::of_program(USAGE, |_, _| Ok(false));
    command::exit(
        "beyond",
        comparison.and_then(|comparison| comparison.same(&mut Model::default())),
    )
}
