//! `model [trace] < script`: the model's answers to a script of calls, or the trace blocks
//! that the calls leave.

use std::process::ExitCode;

use oracle::model::Session;
use oracle::program::{self, Asked};

const USAGE: &str = "usage: model < script
       model trace < script > blocks";

fn main() -> ExitCode {
    let arguments: Vec<String> = std::env::args().skip(1).collect();
    let arguments: Vec<&str> = arguments.iter().map(String::as_str).collect();
    let asked = match arguments.as_slice() {
        [] => Some(Asked::Answers(Session::default())),
        ["trace"] => Some(Asked::Trace(Session::default())),
        _ => None,
    };
    program::exit("model", USAGE, asked)
}
