//! `generate`: prints a script that stays inside the domain, or one that leaves it, or runs
//! many that stay inside and prints what they met.

use std::io::{self, Write};
use std::process::ExitCode;

use oracle::coverage::Coverage;
use oracle::generator::{Wish, beyond, script, script_with_pairs};
use oracle::line::text;
use oracle::model;
use oracle::options::Options;
use oracle::progress::Progress;
use oracle::session::Session;

const USAGE: &str = "usage: generate --seed S --lines N [--without-lending] [--pairs N]
       generate --seed S --lines N --beyond
       generate --coverage --seeds N --lines M [--without-lending]";

struct Arguments {
    coverage: bool,
    beyond: bool,
    seeds: u64,
    wish: Wish,
    /// How many times in a hundred a pair of `declined` and `resume` stands where it may.
    density: u64,
}

fn main() -> ExitCode {
    let done = arguments().and_then(|arguments| {
        if arguments.coverage {
            covered(&arguments)
        } else if arguments.beyond {
            printed_beyond(arguments.wish)
        } else {
            printed(arguments.wish, arguments.density)
        }
    });
    match done {
        Ok(()) => ExitCode::SUCCESS,
        Err(error) => {
            eprintln!("generate: {error}");
            ExitCode::FAILURE
        }
    }
}

fn arguments() -> Result<Arguments, String> {
    let mut options = Options::of_program();
    let mut arguments = Arguments {
        coverage: false,
        beyond: false,
        seeds: 200,
        wish: Wish {
            seed: 0,
            lines: 500,
            without_lending: false,
        },
        density: 0,
    };
    while let Some(option) = options.option() {
        match option.as_str() {
            "--coverage" => arguments.coverage = true,
            "--beyond" => arguments.beyond = true,
            "--without-lending" => arguments.wish.without_lending = true,
            "--pairs" => arguments.density = options.number(&option)?,
            "--seed" => arguments.wish.seed = options.number(&option)?,
            "--seeds" => arguments.seeds = options.number(&option)?,
            "--lines" => arguments.wish.lines = options.number(&option)? as usize,
            _ => return Err(format!("no option {option}\n{USAGE}")),
        }
    }
    match options.rest().as_slice() {
        [] => Ok(arguments),
        [word, ..] => Err(format!("no argument {word}\n{USAGE}")),
    }
}

fn printed(wish: Wish, density: u64) -> Result<(), String> {
    let mut session = Session::new(false);
    let made = script_with_pairs(&mut session, wish, density, |_, _, _| {});
    let (lines, _) = made.map_err(|stop| format!("seed {}: {stop:?}", wish.seed))?;
    shown(&text(&lines))
}

/// A script that leaves the domain, made along the model.
fn printed_beyond(wish: Wish) -> Result<(), String> {
    let mut session = model::Session::default();
    let lines = beyond::script(&mut session, wish.seed, wish.lines, |_, _, _| {});
    shown(&text(&lines))
}

fn shown(text: &str) -> Result<(), String> {
    let shown = io::stdout().write_all(text.as_bytes());
    shown.map_err(|error| error.to_string())
}

/// Runs the scripts of many seeds and prints what they met.
fn covered(arguments: &Arguments) -> Result<(), String> {
    let mut session = Session::new(false);
    let mut coverage = Coverage::new(arguments.wish.without_lending);
    let mut progress = Progress::new("generate");
    for seed in 0..arguments.seeds {
        let wish = Wish {
            seed,
            ..arguments.wish
        };
        let note = |before: &_, line: &_, outcome: Option<&_>| coverage.note(before, line, outcome);
        script(&mut session, wish, note).map_err(|stop| format!("seed {seed}: {stop:?}"))?;
        progress.say(|| format!("{} of {} seeds", seed + 1, arguments.seeds));
    }
    shown(&coverage.to_string())?;
    match coverage.surprises().is_empty() {
        true => Ok(()),
        false => Err("something was met that is ruled out".into()),
    }
}
