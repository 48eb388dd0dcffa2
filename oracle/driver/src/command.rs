//! Runs another implementation: a command that reads a script, or trace blocks, on its
//! standard input and writes what they yield.

use std::fmt;
use std::io::{Read, Write};
use std::process::{Child, Command, ExitCode, Stdio};
use std::sync::mpsc;
use std::thread;
use std::time::Duration;

/// How long a command may take for one input.
const LIMIT: Duration = Duration::from_secs(20);

/// What a command yielded.
#[derive(Clone, Debug, PartialEq, Eq)]
pub struct Ran {
    pub output: Vec<u8>,
    /// Said where the command did not end with status 0.
    pub status: Option<String>,
}

/// Why there is nothing to compare.
#[derive(Debug)]
pub enum Failure {
    NotStarted(std::io::Error),
    Nothing(String),
    TimedOut,
}

impl fmt::Display for Failure {
    fn fmt(&self, f: &mut fmt::Formatter) -> fmt::Result {
        match self {
            Failure::NotStarted(error) => write!(f, "cannot be run: {error}"),
            Failure::Nothing(status) => write!(f, "writes nothing ({status})"),
            Failure::TimedOut => write!(f, "takes longer than {} s", LIMIT.as_secs()),
        }
    }
}

/// Runs the command on an input. `quiet`: what it writes on standard error is not shown.
pub fn run(command: &[String], input: &[u8], quiet: bool) -> Result<Ran, Failure> {
    let errors = if quiet {
        Stdio::null()
    } else {
        Stdio::inherit()
    };
    let mut child = Command::new(&command[0])
        .args(&command[1..])
        .stdin(Stdio::piped())
        .stdout(Stdio::piped())
        .stderr(errors)
        .spawn()
        .map_err(Failure::NotStarted)?;
    feed(&mut child, input);
    let Some(output) = read(&mut child) else {
        // Whatever it is doing, it is not waited for.
        let _ = child.kill();
        let _ = child.wait();
        return Err(Failure::TimedOut);
    };
    let status = child.wait().map_err(Failure::NotStarted)?;
    if output.is_empty() {
        return Err(Failure::Nothing(status.to_string()));
    }
    let status = (!status.success()).then(|| status.to_string());
    Ok(Ran { output, status })
}

/// Writes the input to the command beside what else goes on: neither waits for the
/// other. A command that stops reading early shows in what it writes.
fn feed(child: &mut Child, input: &[u8]) {
    let stdin = child.stdin.take();
    let mut stdin = stdin.expect("standard input is a pipe");
    let input = input.to_vec();
    thread::spawn(move || {
        let _ = stdin.write_all(&input);
    });
}

/// All that the command writes, or nothing if it takes too long.
fn read(child: &mut Child) -> Option<Vec<u8>> {
    let stdout = child.stdout.take();
    let mut stdout = stdout.expect("standard output is a pipe");
    let (sender, receiver) = mpsc::channel();
    thread::spawn(move || {
        let mut output = Vec::new();
        let _ = stdout.read_to_end(&mut output);
        let _ = sender.send(output);
    });
    receiver.recv_timeout(LIMIT).ok()
}

/// The exit status of a program that compares: 0 no difference, 1 a difference, 2 the
/// program itself could not go on, with the reason on standard error.
pub fn exit(program: &str, same: Result<bool, String>) -> ExitCode {
    match same {
        Ok(true) => ExitCode::SUCCESS,
        Ok(false) => ExitCode::from(1),
        Err(error) => {
            eprintln!("{program}: {error}");
            ExitCode::from(2)
        }
    }
}
