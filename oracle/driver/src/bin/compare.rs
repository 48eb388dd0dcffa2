//! `compare`: generated scripts through the Rust and through a command that should say
//! the same, or leave the same trace; the first difference is cut down and shown.

use std::process::ExitCode;

use oracle::command;
use oracle::comparison::{Comparison, Judge};
use oracle::coverage::Coverage;
use oracle::generator::{Wish, script_with_pairs};
use oracle::line::Line;
use oracle::session::Session;

const USAGE: &str = "usage: compare [--seeds N] [--first S] [--lines M] [--without-lending]
               [--pairs N] [--trace] [--keep FILE] COMMAND...
  COMMAND reads a script on its standard input and writes what the calls yield.
  --pairs N: transfers are declined and resumed at once, at N in a hundred of the places
  where that may be.
  --trace: COMMAND is given the argument `trace` and writes the calls' trace blocks.
  --keep FILE: the script that shows a difference is written there.";

/// The Rust, with what its scripts have met.
struct Rust {
    session: Session,
    coverage: Coverage,
    without_lending: bool,
    /// How many times in a hundred a pair of `declined` and `resume` stands where it may, and
    /// how many there were.
    density: u64,
    pairs: u64,
}

impl Judge for Rust {
    type Performer = Session;
    const PROGRAM: &'static str = "compare";
    const NAME: &'static str = "the Rust";

    fn script(&mut self, seed: u64, lines: usize) -> Result<Vec<Line>, String> {
        let coverage = &mut self.coverage;
        let wish = Wish {
            seed,
            lines,
            without_lending: self.without_lending,
        };
        let note = |before: &_, line: &_, outcome: Option<&_>| coverage.note(before, line, outcome);
        let made = script_with_pairs(&mut self.session, wish, self.density, note);
        let (lines, pairs) = made.map_err(|stop| format!("seed {seed}: {stop:?}"))?;
        self.pairs += pairs;
        Ok(lines)
    }

    fn performer(&mut self) -> &mut Session {
        &mut self.session
    }

    fn summary(&self) -> String {
        let summary = self.coverage.summary();
        match self.density {
            0 => summary,
            density => format!("{summary}, {} pairs at {density}", self.pairs),
        }
    }
}

fn main() -> ExitCode {
    command::exit("compare", compared())
}

fn compared() -> Result<bool, String> {
    let mut without_lending = false;
    let mut density = 0;
    let comparison = Comparison::of_program(USAGE, |option, options| {
        match option {
            "--without-lending" => without_lending = true,
            "--pairs" => density = options.number(option)?,
            _ => return Ok(false),
        }
        Ok(true)
    })?;
    comparison.same(&mut Rust {
        session: Session::new(false),
        coverage: Coverage::new(without_lending),
        without_lending,
        density,
        pairs: 0,
    })
}
