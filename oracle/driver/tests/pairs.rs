//! Pairs of `declined` and `resume` next to each other (request 2026-05): they alter nothing
//! else, on the Rust and on the model; where they stand; what leaves the domain.

use std::collections::BTreeSet;

use oracle::generator::{Wish, script_with_pairs};
use oracle::line::{Call, Line, text};
use oracle::model;
use oracle::performer::Performer;
use oracle::run::{End, run};
use oracle::session::Session;

/// A generated script, with pairs at this density.
fn generated(seed: u64, density: u64) -> (Vec<Line>, u64) {
    let wish = Wish {
        seed,
        lines: 300,
        without_lending: false,
    };
    let made = script_with_pairs(&mut Session::new(false), wish, density, |_, _, _| {});
    made.unwrap_or_else(|stop| panic!("seed {seed}: {stop:?}"))
}

fn answered(performer: &mut impl Performer, script: &str) -> (End, String) {
    performer.begin();
    let mut output = Vec::new();
    let end = run(performer, script.as_bytes(), &mut output).expect("memory does not fail");
    (end, String::from_utf8(output).expect("the output is ASCII"))
}

/// What each call yields, without its place, and the three lines at the end.
fn by_call(output: &str) -> Vec<String> {
    let mut calls: Vec<String> = Vec::new();
    for line in output.lines() {
        match line.split_once(' ') {
            Some((place, rest)) if place.parse::<u64>().is_ok() => calls.push(rest.to_string()),
            Some(("book", _)) => calls.push(line.to_string()),
            _ => {
                let call = calls.last_mut().expect("a call comes first");
                *call += "\n";
                *call += line;
            }
        }
    }
    calls
}

/// What the calls of a script yield that are no part of a pair.
fn without_pairs(lines: &[Line], output: &str) -> Vec<String> {
    let mut yielded = by_call(output);
    let end = yielded.pop().expect("three lines at the end");
    let calls = lines.iter().filter_map(|line| match line {
        Line::Call(call) => Some(call),
        _ => None,
    });
    let others = calls.zip(yielded).filter_map(|(call, yielded)| {
        (!matches!(call, Call::Declined | Call::Resume)).then_some(yielded)
    });
    others.chain([end]).collect()
}

fn alter_nothing_else(performer: &mut impl Performer) {
    let mut put_in = 0;
    for seed in 0..40 {
        let (plain, none) = generated(seed, 0);
        let (end, expected) = answered(performer, &text(&plain));
        assert_eq!((end, none), (End::Complete, 0));
        for density in [5, 30, 100] {
            let (lines, pairs) = generated(seed, density);
            assert_eq!(lines.len() as u64, plain.len() as u64 + 2 * pairs);
            let (end, output) = answered(performer, &text(&lines));
            assert_eq!(end, End::Complete, "seed {seed}: {output}");
            assert_eq!(
                without_pairs(&lines, &output),
                by_call(&expected),
                "seed {seed}"
            );
            put_in += pairs;
        }
    }
    assert!(put_in > 10_000, "only {put_in} pairs");
}

#[test]
fn pairs_alter_nothing_else_on_the_rust() {
    alter_nothing_else(&mut Session::new(false));
}

#[test]
fn pairs_alter_nothing_else_on_the_model() {
    alter_nothing_else(&mut model::Session::default());
}

#[test]
fn at_100_a_pair_stands_wherever_a_transfer_is_under_way() {
    let (lines, _) = generated(1, 100);
    let completion = |line: &Line| matches!(line, Line::Call(Call::ReadWriteDone(_)));
    let places = (0..lines.len()).filter(|place| completion(&lines[*place]));
    let mut completions = 0;
    for place in places {
        assert_eq!(lines[place - 1], Line::Call(Call::Resume), "line {place}");
        completions += 1;
    }
    assert!(completions > 100, "only {completions} completions");
}

/// The last line of a run of the Rust.
fn last(script: &str) -> String {
    let (_, output) = answered(&mut Session::new(false), script);
    output.lines().last().expect("a line").to_string()
}

#[test]
fn a_declined_transfer_that_is_not_resumed_at_once_leaves_the_domain() {
    for line in [
        "start",
        "stop",
        "config_commit",
        "fired",
        "transmit 1 160 5",
        "set_receive_buffer 1 160",
        "reset 1",
        "new 129 26",
        "set_pan 1",
        "set_power_client 1",
        "busy",
        "pool 0 1",
        "pool 2560 1",
        "pool 0",
        "pool_length 3040",
        "mark",
        "back",
    ] {
        let said = last(&format!("start\ndeclined\n{line}\n"));
        let reason = "line 3 outside the domain: a declined transfer waits";
        assert_eq!(said, reason, "{line}");
    }
    for (script, name) in [
        ("declined", "11 IDLE"),
        ("resume", "22 NOTHING"),
        ("start\nresume", "22 NOTHING"),
        ("start\ndeclined\ndeclined", "11 IDLE"),
        ("start\ndeclined\nread_write_done 0 0", "11 IDLE"),
        ("start\ndeclined\nresume\nresume", "22 NOTHING"),
        ("start\npool_length 3039\ndeclined", "12 POOL"),
        ("pool_length 3039\nresume", "12 POOL"),
    ] {
        let line = script.lines().count();
        let expected = format!("line {line} outside the domain: {name} is an added refusal");
        assert_eq!(last(&format!("{script}\n")), expected, "{script}");
    }
}

#[test]
fn remarks_may_stand_in_a_pair_and_a_script_may_end_in_one() {
    let script = "start\ndeclined\n\n# a remark\nresume\ndeclined\n";
    let (end, output) = answered(&mut Session::new(false), script);
    let home = "0 0 0 0 0 0 0 0 0 0 0 0 0 0 0 0 1 1 1\n";
    assert_eq!(end, End::Complete);
    assert!(
        output.ends_with(&format!("\nplaces {home}record {home}")),
        "{output}"
    );
    assert_eq!(output, answered(&mut model::Session::default(), script).1);
}

#[test]
fn the_bytes_of_a_buffer_that_waits_or_is_resumed_are_the_drivers() {
    let write = "fired\nread_write_done 0 12\nread_write_done 0 0\ntransmit 3 150 5\n\
                 read_write_done 22 0\ndeclined\nresume\n";
    for at in [480, 481, 629, 2880] {
        let said = last(&format!("{write}pool {at} 1\n"));
        assert!(
            said.contains("outside the domain: the driver has buffer"),
            "{said}"
        );
    }
    for at in [479, 630] {
        let said = last(&format!("{write}pool {at} 1\ndeclined\nresume\n"));
        assert!(said.starts_with("record"), "{said}");
    }
}

#[test]
fn pairs_stand_in_every_state_and_with_every_kind() {
    let mut session = Session::new(false);
    let (mut states, mut kinds) = (BTreeSet::new(), BTreeSet::new());
    for seed in 0..100 {
        let (lines, _) = generated(seed, 30);
        session.begin();
        for line in lines {
            if line == Line::Call(Call::Declined) {
                let kind = session.view().kind().expect("a transfer is under way");
                states.insert(session.view().state());
                kinds.insert(kind as u8);
            }
            session.perform(&line).expect("inside the domain");
        }
    }
    // All in which a transfer can be under way.
    let all = (0..69).filter(|state| ![59, 62, 66].contains(state));
    assert_eq!(states, all.collect());
    assert_eq!(kinds, (1..=4).collect());
}
