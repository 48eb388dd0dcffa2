//! The same events through the Rust driver and through the port, by turns in one process: steps per second of each and the
//! ratio. `driver-bench SCENARIO SIDE ROUNDS` runs one side alone, for callgrind.

#[allow(dead_code, clippy::all)]
#[path = "../../../docs/src/capsules/extra/src/rf233_const.rs"]
mod rf233_const;

#[allow(non_camel_case_types, dead_code, clippy::all)]
#[path = "../../../docs/src/capsules/extra/src/rf233.rs"]
mod rf233;

mod port;
mod rust;
mod scenario;
mod stand_ins;

use std::process::ExitCode;
use std::time::Instant;

use scenario::Scenario;

/// How often the two sides take turns.
const TURNS: usize = 9;

fn main() -> ExitCode {
    let words: Vec<String> = std::env::args().skip(1).collect();
    let words: Vec<&str> = words.iter().map(String::as_str).collect();
    let done = match words.as_slice() {
        [] => compared(),
        ["growth"] => growth(),
        [name, side, rounds] => alone(name, side, rounds),
        _ => Err("usage: driver-bench [growth | SCENARIO rust|port ROUNDS]".into()),
    };
    match done {
        Ok(()) => ExitCode::SUCCESS,
        Err(error) => {
            eprintln!("driver-bench: {error}");
            ExitCode::from(1)
        }
    }
}

/// A side's run of a scenario.
type Side = fn(&Scenario, u32) -> u64;

fn side(name: &str) -> Result<Side, String> {
    match name {
        "rust" => Ok(rust::run),
        "port" => Ok(port::run),
        _ => Err(format!("no side {name}")),
    }
}

fn alone(name: &str, of: &str, rounds: &str) -> Result<(), String> {
    let scenarios = Scenario::all();
    let scenario = scenarios.iter().find(|scenario| scenario.name == name);
    let scenario = scenario.ok_or_else(|| format!("no scenario {name}"))?;
    let rounds = rounds
        .parse()
        .map_err(|_| format!("{rounds} is no number"))?;
    let digest = side(of)?(scenario, rounds);
    println!(
        "{name} {of}: {} steps, digest {digest:016x}",
        scenario.steps(rounds)
    );
    Ok(())
}

/// Seconds that a run takes, and its digest.
fn timed(run: Side, scenario: &Scenario, rounds: u32) -> (f64, u64) {
    let begun = Instant::now();
    let digest = run(scenario, rounds);
    (begun.elapsed().as_secs_f64(), digest)
}

fn median(mut seconds: Vec<f64>) -> f64 {
    seconds.sort_by(f64::total_cmp);
    seconds[seconds.len() / 2]
}

/// Both sides of one scenario: millions of steps per second, medians of turns.
fn rates(scenario: &Scenario, rounds: u32) -> Result<(f64, f64), String> {
    let (mut rust, mut port) = (Vec::new(), Vec::new());
    for _ in 0..TURNS {
        let (seconds, theirs) = timed(rust::run, scenario, rounds);
        rust.push(seconds);
        let (seconds, ours) = timed(port::run, scenario, rounds);
        port.push(seconds);
        if theirs != ours {
            return Err(format!("{}: the digests differ", scenario.name));
        }
    }
    let steps = scenario.steps(rounds) as f64 / 1e6;
    Ok((steps / median(rust), steps / median(port)))
}

fn compared() -> Result<(), String> {
    println!("million steps a second, medians of {TURNS} turns; the digests are equal");
    for scenario in Scenario::all() {
        let (rust, port) = rates(&scenario, 1000)?;
        let ratio = rust / port;
        println!(
            "{:16} rust {rust:8.2}   port {port:8.2}   port takes {ratio:.2} times as long",
            scenario.name
        );
    }
    Ok(())
}

/// How the cost behaves with the number of calls.
fn growth() -> Result<(), String> {
    println!("nanoseconds a step");
    for scenario in Scenario::all() {
        for calls in [1_000, 10_000, 100_000, 1_000_000, 10_000_000] {
            let rounds = (calls / scenario.steps(1)).max(1) as u32;
            let (seconds, _) = timed(port::run, &scenario, rounds);
            let each = seconds * 1e9 / scenario.steps(rounds) as f64;
            println!("{:16} {calls:9} calls: {each:8.1}", scenario.name);
        }
    }
    Ok(())
}
