//! What the programs `oracle` and `model` share: a script on standard input, answered or
//! traced on standard output by the performer that each has.

use std::io::{self, BufWriter, Write};
use std::process::ExitCode;

use crate::performer::Performer;
use crate::run::{End, run};
use crate::trace;

/// What a program's arguments ask for, and the performer that does it.
pub enum Asked<P> {
    Answers(P),
    Trace(P),
}

/// Does what the arguments ask for; none where they are not the program's.
pub fn exit<P: Performer>(name: &str, usage: &str, asked: Option<Asked<P>>) -> ExitCode {
    let done = match asked {
        Some(Asked::Answers(performer)) => answered(name, performer),
        Some(Asked::Trace(performer)) => traced(name, performer),
        None => {
            eprintln!("{usage}");
            return ExitCode::from(2);
        }
    };
    match done {
        Ok(end) => ExitCode::from(end.status()),
        Err(error) => {
            eprintln!("{name}: {error}");
            ExitCode::from(2)
        }
    }
}

fn answered(name: &str, mut performer: impl Performer) -> io::Result<End> {
    let mut output = BufWriter::new(io::stdout().lock());
    let end = run(&mut performer, io::stdin().lock(), &mut output)?;
    output.flush()?;
    if let End::Disagreement(said) = &end {
        eprintln!("{name}: {said}");
    }
    Ok(end)
}

/// Standard output has nothing but blocks: why a run halts is said on standard error.
fn traced(name: &str, mut performer: impl Performer) -> io::Result<End> {
    let mut output = BufWriter::new(io::stdout().lock());
    let halt = trace::run::run(&mut performer, io::stdin().lock(), &mut output)?;
    output.flush()?;
    let Some(halt) = halt else {
        return Ok(End::Complete);
    };
    eprintln!("{name}: {halt}");
    Ok(halt.end())
}
