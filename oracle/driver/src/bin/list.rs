//! `list < blocks`: the listing that the port's `tracelist` makes, by the oracle's own
//! reader.

use std::io::{self, BufReader, BufWriter};
use std::process::ExitCode;

use oracle::trace::listing::list;

const USAGE: &str = "usage: list < blocks";

fn main() -> ExitCode {
    if std::env::args().len() > 1 {
        eprintln!("{USAGE}");
        return ExitCode::from(2);
    }
    let input = BufReader::new(io::stdin().lock());
    let output = BufWriter::new(io::stdout().lock());
    match list(input, output) {
        Ok(()) => ExitCode::SUCCESS,
        Err(error) => {
            eprintln!("list: {error}");
            ExitCode::from(2)
        }
    }
}
