//! The walk: its scripts stay inside the domain, the Rust answers them as the walk says,
//! and a part that differs is found.

use oracle::difference::judged;
use oracle::line::{Line, text};
use oracle::session::Session;
use oracle::walk::{Batch, Bounds, Walk};

fn batches(states: u64, pairs: bool) -> Vec<Batch> {
    let mut walk = Walk::new(Bounds {
        states,
        few_listeners: false,
        without_read_out: false,
        all_pairs: false,
        pairs,
    });
    let next = || walk.batch().expect("the walk stays inside the domain");
    std::iter::from_fn(next).collect()
}

#[test]
fn the_scripts_are_answered_as_the_walk_says() {
    let mut session = Session::new(false);
    let (plain, with_pairs) = (batches(600, false), batches(600, true));
    assert!(plain.len() > 1 && with_pairs.len() > 1);
    for batch in plain.into_iter().chain(with_pairs) {
        let judge = judged(&mut session, &text(&batch.lines));
        assert!(judge.as_deref() == Some(batch.judge.as_bytes()));
    }
}

#[test]
fn a_part_that_differs_is_found() {
    let batches = batches(5, false);
    let batch = &batches[0];
    let new = batch.lines[0].to_string();
    for at in [0, batch.judge.len() / 2, batch.judge.len() - 1] {
        let mut output = batch.judge.clone().into_bytes();
        output[at] = b'?';
        let part = batch.part_that_differs(&output);
        let marks = part.iter().filter(|line| **line == Line::Mark);
        assert_eq!((part[0].to_string(), marks.count()), (new.clone(), 1));
    }
}

#[test]
fn the_number_of_control_states_is_bounded() {
    let mut walk = Walk::new(Bounds {
        states: 40,
        few_listeners: true,
        without_read_out: true,
        all_pairs: true,
        pairs: false,
    });
    while walk.batch().expect("the walk goes on").is_some() {}
    assert_eq!(walk.count().states, 40);
    assert!(walk.ahead() > 0 && walk.count().read_outs == 0);
}

#[test]
fn with_pairs_each_completion_comes_after_one() {
    let pair = ["declined", "resume"];
    let mut completions = 0;
    for batch in batches(100, true) {
        let lines: Vec<String> = batch.lines.iter().map(Line::to_string).collect();
        for (place, line) in lines.iter().enumerate() {
            if line.starts_with("read_write_done") {
                assert_eq!(lines[place - 2..place], pair);
                completions += 1;
            }
        }
    }
    assert!(completions > 1000, "only {completions} completions");
}
