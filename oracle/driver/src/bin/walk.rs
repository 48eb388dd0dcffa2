//! `walk`: every next step from every reachable control state, through the Rust and
//! through a command that should say the same.

use std::process::ExitCode;
use std::thread::{self, JoinHandle};
use std::time::Instant;

use oracle::command::{self, Ran};
use oracle::difference::{Difference, judged};
use oracle::line::{Line, keep, text};
use oracle::options::Options;
use oracle::progress::Progress;
use oracle::session::Session;
use oracle::shrink::shrink;
use oracle::walk::{Batch, Bounds, Sample, Walk};

const USAGE: &str = "usage: walk [--limit N] [--few-listeners] [--without-read-out]
            [--all-pairs] [--pairs] [--keep FILE] [--sample N FILE] [COMMAND...]
  COMMAND reads a script on its standard input and writes what the calls yield; without
  one the walk is only counted.
  --limit N: at most N control states.
  --few-listeners: the listeners are all present or all absent.
  --without-read-out: no step is followed by what shows the driver's memory.
  --all-pairs: every status comes with every result, in all states.
  --pairs: every completion comes after its transfer was declined and resumed.
  --keep FILE: the script that shows a difference is written there.
  --sample N FILE: the next steps of one control state in N are written there, as a
  script.";

struct Arguments {
    bounds: Bounds,
    keep: Option<String>,
    sample: Option<(u64, String)>,
    command: Vec<String>,
}

/// A batch with what the command says to it.
type Answered = (Batch, Result<Ran, String>);

fn main() -> ExitCode {
    command::exit("walk", arguments().and_then(|arguments| walked(&arguments)))
}

fn arguments() -> Result<Arguments, String> {
    let mut options = Options::of_program();
    let mut keep = None;
    let mut sample = None;
    let mut bounds = Bounds {
        states: u64::MAX,
        few_listeners: false,
        without_read_out: false,
        all_pairs: false,
        pairs: false,
    };
    while let Some(option) = options.option() {
        match option.as_str() {
            "--limit" => bounds.states = options.number(&option)?,
            "--few-listeners" => bounds.few_listeners = true,
            "--without-read-out" => bounds.without_read_out = true,
            "--all-pairs" => bounds.all_pairs = true,
            "--pairs" => bounds.pairs = true,
            "--keep" => keep = Some(options.word(&option)?),
            "--sample" => sample = Some((options.number(&option)?, options.word(&option)?)),
            _ => return Err(format!("no option {option}\n{USAGE}")),
        }
    }
    let command = options.rest();
    Ok(Arguments {
        bounds,
        keep,
        sample,
        command,
    })
}

/// Whether the command says the same as the Rust to every step. While the command
/// answers one batch, the Rust makes the next.
fn walked(arguments: &Arguments) -> Result<bool, String> {
    let begun = Instant::now();
    let mut walk = Walk::new(arguments.bounds);
    let mut progress = Progress::new("walk");
    let mut sample = sample(arguments)?;
    let mut running: Option<JoinHandle<Answered>> = None;
    loop {
        let batch = walk.batch()?;
        if let Some(running) = running.take()
            && !same(arguments, running)?
        {
            return Ok(false);
        }
        let Some(batch) = batch else { break };
        if let Some(sample) = &mut sample {
            sample.take(&batch)?;
        }
        if !arguments.command.is_empty() {
            running = Some(started(&arguments.command, batch));
        }
        progress.say(|| figures(&walk, begun));
    }
    if let Some(sample) = sample {
        sample.finish()?;
    }
    let found = match arguments.command.as_slice() {
        [] => "counted",
        _ => "no difference",
    };
    println!("{found}: {}", figures(&walk, begun));
    Ok(true)
}

fn sample(arguments: &Arguments) -> Result<Option<Sample>, String> {
    let wished = arguments.sample.clone();
    wished
        .map(|(every, name)| Sample::new(every, name))
        .transpose()
}

fn figures(walk: &Walk, begun: Instant) -> String {
    let count = walk.count();
    format!(
        "{} control states ({} states), {} transitions, {} read-outs, {} lines, {} s; \
         {} steps outside the domain and {} control states not taken",
        count.states,
        count.driver_states,
        count.transitions,
        count.read_outs,
        count.lines,
        begun.elapsed().as_secs(),
        count.outside,
        walk.ahead()
    )
}

fn started(command: &[String], batch: Batch) -> JoinHandle<Answered> {
    let command = command.to_vec();
    thread::spawn(move || {
        let ran = command::run(&command, text(&batch.lines).as_bytes(), false);
        let ran = ran.map_err(|failure| format!("{} {failure}", command[0]));
        (batch, ran)
    })
}

/// Whether the command said the same to a batch; if not, what differs is shown.
fn same(arguments: &Arguments, running: JoinHandle<Answered>) -> Result<bool, String> {
    let answered = running.join();
    let (batch, ran) = answered.map_err(|_| "a thread panicked")?;
    let ran = match ran {
        Ok(ran) => ran,
        Err(error) => {
            keep(arguments.keep.as_deref(), &batch.lines)?;
            return Err(error);
        }
    };
    match Difference::between(batch.judge.as_bytes(), &ran) {
        None => Ok(true),
        Some(difference) => {
            report(arguments, &batch, &ran, difference)?;
            Ok(false)
        }
    }
}

/// Cuts the batch down to what shows the difference, and shows that with both outputs.
fn report(
    arguments: &Arguments,
    batch: &Batch,
    ran: &Ran,
    mut difference: Difference,
) -> Result<(), String> {
    eprintln!("walk: a difference; cutting the script down");
    let mut session = Session::new(false);
    let mut shows = |lines: &[Line]| match tried(&arguments.command, &mut session, lines) {
        Some(found) => {
            difference = found;
            true
        }
        None => false,
    };
    // One control state's part is enough, unless what came before it matters too.
    let part = batch.part_that_differs(&ran.output);
    let script = if shows(part) { part } else { &batch.lines };
    let smallest = shrink(script.to_vec(), shows);
    keep(arguments.keep.as_deref(), &smallest)?;
    let (whole, count) = (batch.lines.len(), smallest.len());
    println!("a difference; the script, cut down from {whole} lines to {count}:");
    print!("{}{}", text(&smallest), difference.shown("the Rust"));
    Ok(())
}

/// The difference that a script shows, if it stays inside the domain.
fn tried(command: &[String], session: &mut Session, lines: &[Line]) -> Option<Difference> {
    let script = text(lines);
    let judge = judged(session, &script)?;
    let ran = command::run(command, script.as_bytes(), true).ok()?;
    Difference::between(&judge, &ran)
}
