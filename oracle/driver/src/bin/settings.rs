//! `settings`: the list that the port's `settings` writes, by the Rust's own function.

use std::io::{self, Write};
use std::process::ExitCode;

use oracle::settings::listing;

const USAGE: &str = "usage: settings";

fn main() -> ExitCode {
    if std::env::args().len() > 1 {
        eprintln!("{USAGE}");
        return ExitCode::from(2);
    }
    match io::stdout().write_all(listing().as_bytes()) {
        Ok(()) => ExitCode::SUCCESS,
        Err(error) => {
            eprintln!("settings: {error}");
            ExitCode::from(2)
        }
    }
}
