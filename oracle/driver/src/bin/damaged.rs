//! `damaged`: whole and damaged trace blocks through the oracle's own reader and through
//! a command that should list the same.

use std::fs;
use std::process::ExitCode;
use std::time::Instant;

use oracle::command::{self, Ran};
use oracle::damage::{Damage, Input, Judged, Tally};
use oracle::difference::Difference;
use oracle::options::Options;
use oracle::progress::Progress;
use oracle::shrink::cut;
use oracle::trace::reader::blocks;

const USAGE: &str = "usage: damaged [--blocks N] [--seed S] [--keep FILE] COMMAND...
  COMMAND reads trace blocks on its standard input and lists them, as tracelist does.
  --keep FILE: the blocks that show a difference are written there.";

struct Arguments {
    blocks: u64,
    seed: u64,
    keep: Option<String>,
    command: Vec<String>,
}

fn main() -> ExitCode {
    command::exit(
        "damaged",
        arguments().and_then(|arguments| compared(&arguments)),
    )
}

fn arguments() -> Result<Arguments, String> {
    let mut options = Options::of_program();
    let mut arguments = Arguments {
        blocks: 200_000,
        seed: 0,
        keep: None,
        command: Vec::new(),
    };
    while let Some(option) = options.option() {
        match option.as_str() {
            "--blocks" => arguments.blocks = options.number(&option)?,
            "--seed" => arguments.seed = options.number(&option)?,
            "--keep" => arguments.keep = Some(options.word(&option)?),
            _ => return Err(format!("no option {option}\n{USAGE}")),
        }
    }
    arguments.command = options.rest();
    match arguments.command.is_empty() {
        true => Err(format!("a command is needed\n{USAGE}")),
        false => Ok(arguments),
    }
}

/// Whether the command lists all inputs as the oracle's reader does.
fn compared(arguments: &Arguments) -> Result<bool, String> {
    let begun = Instant::now();
    let mut damage = Damage::new(arguments.seed, arguments.blocks)?;
    let mut tally = Tally::default();
    let mut progress = Progress::new("damaged");
    for input in damage.by_ref() {
        let judged = Judged::new(&input.bytes);
        let ran = match command::run(&arguments.command, &input.bytes, false) {
            Ok(ran) => ran,
            Err(failure) => {
                keep(arguments, &input.bytes)?;
                return Err(format!("{} {failure}", arguments.command[0]));
            }
        };
        if differs(&judged, &ran).is_some() {
            report(arguments, &input, &judged, &ran)?;
            return Ok(false);
        }
        tally.add(&input, &judged);
        progress.say(|| format!("{} of {} blocks", tally.blocks(), arguments.blocks));
    }
    let (made, total) = damage.every_byte();
    let seconds = begun.elapsed().as_secs();
    println!(
        "no difference: {tally}; {made} of {total} systematic record bytes, seed {}, {seconds} s",
        arguments.seed
    );
    Ok(true)
}

fn differs(judged: &Judged, ran: &Ran) -> Option<Difference> {
    Difference::between(judged.output.as_bytes(), ran)
}

fn keep(arguments: &Arguments, bytes: &[u8]) -> Result<(), String> {
    match &arguments.keep {
        None => Ok(()),
        Some(file) => fs::write(file, bytes).map_err(|error| format!("{file}: {error}")),
    }
}

/// Finds the smallest input that shows a difference, and shows the first line of both.
fn report(arguments: &Arguments, input: &Input, judged: &Judged, ran: &Ran) -> Result<(), String> {
    let pieces: Vec<&[u8]> = blocks(&input.bytes).collect();
    let mut difference = differs(judged, ran);
    let mut shows = |pieces: &[&[u8]]| match tried(arguments, &pieces.concat()) {
        Some(found) => {
            difference = Some(found);
            true
        }
        None => false,
    };
    let place = judged.block_that_differs(&ran.output);
    // One block is enough, unless what came before it matters too.
    let smallest = match place.map(|place| vec![pieces[place]]) {
        Some(block) if shows(&block) => block,
        _ => cut(pieces, shows),
    };
    keep(arguments, &smallest.concat())?;
    let name = place.map_or("no block", |place| input.kinds[place].name());
    println!("a difference, seed {}, at: {name}", arguments.seed);
    let (bytes, count) = (smallest.concat().len(), smallest.len());
    println!("the smallest input found that shows it has {bytes} bytes, blocks: {count}");
    if let Some(difference) = difference {
        print!("{}", difference.first());
    }
    Ok(())
}

/// The difference that an input shows.
fn tried(arguments: &Arguments, bytes: &[u8]) -> Option<Difference> {
    let ran = command::run(&arguments.command, bytes, true).ok()?;
    differs(&Judged::new(bytes), &ran)
}
