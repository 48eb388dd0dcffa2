//! Generated scripts: they stay inside the domain, they are the same for the same seed,
//! and `mark` and `back` return to exactly the same driver.

use oracle::generator::{Wish, script};
use oracle::line::{Call, Line, text};
use oracle::performer::Performer;
use oracle::run::{End, run};
use oracle::session::Session;

fn wish(seed: u64, without_lending: bool) -> Wish {
    Wish {
        seed,
        lines: 300,
        without_lending,
    }
}

fn generated(session: &mut Session, wish: Wish) -> Vec<Line> {
    let lines = script(session, wish, |_, _, _| {});
    lines.unwrap_or_else(|stop| panic!("seed {}: {stop:?}", wish.seed))
}

fn answered(session: &mut Session, script: &str) -> (End, String) {
    session.begin();
    let mut output = Vec::new();
    let end = run(session, script.as_bytes(), &mut output).expect("memory does not fail");
    (end, String::from_utf8(output).expect("the output is ASCII"))
}

#[test]
fn two_hundred_seeds_stay_inside_the_domain() {
    let mut session = Session::new(false);
    for seed in 0..200 {
        for without_lending in [false, true] {
            let lines = generated(&mut session, wish(seed, without_lending));
            assert_eq!(lines.len(), 300);
            let (end, output) = answered(&mut session, &text(&lines));
            assert_eq!(end, End::Complete, "seed {seed}: {output}");
        }
    }
}

#[test]
fn a_seed_gives_the_same_script_each_time() {
    let mut session = Session::new(false);
    let first = generated(&mut session, wish(5, false));
    generated(&mut session, wish(6, false));
    assert_eq!(first, generated(&mut session, wish(5, false)));
}

#[test]
fn without_lending_nothing_is_lent() {
    let mut session = Session::new(false);
    for seed in 0..50 {
        let lines = generated(&mut session, wish(seed, true));
        let lends = |line: &Line| {
            let call = |call: &Call| matches!(call.name(), "transmit" | "set_receive_buffer");
            matches!(line, Line::Call(made) if call(made))
        };
        assert!(!lines.iter().any(lends), "seed {seed}");
    }
}

#[test]
fn after_back_everything_is_as_it_was() {
    let mut session = Session::new(false);
    let mut compared = 0;
    for seed in 0..100 {
        let mut lines = generated(&mut session, wish(seed, false));
        lines.retain(|line| !matches!(line, Line::Mark | Line::Back));
        let (start, rest) = lines.split_at(150);
        let (start, rest) = (text(start), text(rest));
        // Without its marks a script may leave the domain; it is the same line each time.
        let once = answered(&mut session, &format!("{start}{rest}"));
        let twice = answered(&mut session, &format!("{start}mark\n{rest}back\n{rest}"));
        if once.0 != End::Complete {
            continue;
        }
        compared += 1;
        assert_eq!(twice.0, End::Complete, "seed {seed}");
        let head = answered(&mut session, &start).1;
        let (calls, rest) = (calls(&head), &once.1[body(&head)..]);
        assert_eq!(renumbered(&twice.1, calls, &once.1), rest, "seed {seed}");
    }
    assert!(
        compared >= 20,
        "only {compared} scripts stayed inside the domain"
    );
}

/// How many calls an output tells of.
fn calls(output: &str) -> u64 {
    let numbered = |line: &&str| line.starts_with(|c: char| c.is_ascii_digit());
    output.lines().filter(numbered).count() as u64
}

/// Where the three lines at the end begin.
fn body(output: &str) -> usize {
    output.rfind("book ").expect("a whole run has a book")
}

/// The second telling of the rest, with the places of the first.
fn renumbered(twice: &str, first: u64, once: &str) -> String {
    let told = body(once);
    let shift = calls(once) - first;
    let renumber = |line: &str| match line.split_once(' ') {
        Some((place, rest)) if place.parse::<u64>().is_ok() => {
            let place: u64 = place.parse().expect("it was a number");
            format!("{} {rest}\n", place - shift)
        }
        _ => format!("{line}\n"),
    };
    twice[told..].lines().map(renumber).collect()
}
