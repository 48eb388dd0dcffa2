//! `oracle [--past-domain | --declining | trace] < script`: the Rust driver's answers to a script of
//! calls, or the trace blocks that the calls leave.

use std::process::ExitCode;

use oracle::program::{self, Asked};
use oracle::session::Session;

const USAGE: &str = "usage: oracle [--past-domain | --declining] < script
       oracle trace < script > blocks";

fn main() -> ExitCode {
    let arguments: Vec<String> = std::env::args().skip(1).collect();
    let arguments: Vec<&str> = arguments.iter().map(String::as_str).collect();
    let asked = match arguments.as_slice() {
        [] => Some(Asked::Answers(Session::new(false))),
        ["--past-domain"] => Some(Asked::Answers(Session::new(true))),
        ["--declining"] => Some(Asked::Answers(Session::declining())),
        ["trace"] => Some(Asked::Trace(Session::new(false))),
        _ => None,
    };
    program::exit("oracle", USAGE, asked)
}
