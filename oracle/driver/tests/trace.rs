//! Traces of whole runs: document 01's example, records worked out by hand, and for every
//! case the records that its expected output asks for.

use std::fs;
use std::path::Path;

use oracle::action::Action;
use oracle::generator::{Wish, script};
use oracle::line::text;
use oracle::model;
use oracle::session::Session;
use oracle::trace::listing::listed;
use oracle::trace::reader::{blocks, read};
use oracle::trace::record::notice;
use oracle::trace::run::{run, traced};
use oracle::trace::{BLOCK, Record};

/// Up to READY with the radio on, with a short startup.
fn ready() -> String {
    let startup = "start\n".to_string() + &"read_write_done 8 0\n".repeat(27);
    startup + "fired\nread_write_done 8 1\nread_write_done 8 0\n"
}

/// The trace of a script, with why the run halts.
fn trace(script: &str) -> (Vec<u8>, Option<String>) {
    let mut output = Vec::new();
    let halt = run(&mut Session::new(false), script.as_bytes(), &mut output);
    let halt = halt.expect("memory does not fail");
    (output, halt.map(|halt| halt.to_string()))
}

/// All records of a trace that is accepted, with the blocks numbered from 0 and full but
/// for the last.
fn records(trace: &[u8]) -> Vec<Record> {
    let last = trace.len().saturating_sub(1) / BLOCK;
    let mut all = Vec::new();
    for (number, block) in blocks(trace).enumerate() {
        let records = read(block).expect("the block is accepted");
        assert_eq!(block[..4], (number as u32).to_le_bytes());
        assert!(!records.is_empty() && (number == last || records.len() == 31));
        all.extend_from_slice(records);
    }
    all
}

/// The last records of a script that runs to its end.
fn last<const COUNT: usize>(script: &str) -> [Record; COUNT] {
    let (trace, halt) = trace(script);
    assert_eq!(halt, None);
    let records = records(&trace);
    let last = records.last_chunk().expect("so many records");
    *last
}

#[test]
fn the_example_of_document_01() {
    let (trace, _) = trace("start\nread_write_done 8 0\n");
    assert_eq!(
        records(&trace),
        [
            [2, 0, 0, 0, 0, 0, 1, 0x9C, 0, 2, 2, 0, 0, 0, 0x08, 0],
            [1, 0, 1, 0, 8, 0, 1, 0x8F, 0, 2, 2, 0, 0, 0, 0x08, 0],
        ]
    );
    assert_eq!(trace.len(), BLOCK);
    let expected = "rec event from to answer\n0 2 0 0 0\n1 1 0 1 0\n";
    assert_eq!(listed(&trace), expected);
}

#[test]
fn flags_are_those_after_the_call() {
    let waiting = "stop\nstart\nconfig_commit\nfired\nread_write_done 9 7\n";
    let refused = "transmit 1 160 5\nreset 0\nset_receive_buffer 2 160\nis_on\n";
    assert_eq!(
        last(&format!("start\n{waiting}{refused}")),
        [
            [3, 0, 0, 0, 0, 0, 0, 0, 0, 0, 0, 0, 0, 0, 0x88, 0],
            [2, 0, 0, 0, 0, 0, 0, 0, 0, 0, 0, 0, 0, 0, 0x08, 0],
            [4, 0, 0, 0, 0, 0, 0, 0, 0, 0, 0, 0, 0, 0, 0x48, 0],
            [7, 0, 0, 0, 0, 0, 0, 0, 0, 0, 0, 0, 0, 0, 0x68, 0],
            [1, 0, 0, 0, 9, 7, 1, 0x8F, 0, 2, 2, 0, 0, 0, 0x58, 0],
            [5, 0, 0, 1, 0, 0, 0, 0, 0, 0, 0, 0, 0, 0, 0x58, 0],
            [8, 0, 0, 14, 0, 0, 0, 0, 0, 0, 0, 0, 0, 0, 0x58, 0],
            [6, 0, 0, 0, 0, 0, 0, 0, 0, 0, 0, 0, 0, 0, 0x58, 0],
        ]
    );
}

#[test]
fn a_send_leaves_these_records() {
    let sending = "transmit 3 160 5\nread_write_done 22 0\nstop\nreset 1\n";
    assert_eq!(
        last(&format!("set_power_client 1\n{}{sending}", ready())),
        [
            [1, 29, 29, 0, 8, 0, 0, 0, 0, 0, 0, 1, 1, 0, 0x01, 0],
            [5, 29, 33, 0, 0, 0, 1, 0x81, 0, 2, 2, 0, 0, 0, 0x0B, 0],
            [1, 33, 34, 0, 22, 0, 4, 0x60, 7, 9, 129, 0, 0, 0, 0x0B, 0],
            [3, 34, 34, 0, 0, 0, 0, 0, 0, 0, 0, 0, 0, 0, 0x8B, 0],
            [8, 34, 34, 0, 0, 0, 0, 0, 0, 0, 0, 0, 0, 0, 0x89, 0],
        ]
    );
}

#[test]
fn a_commit_called_during_a_transfer_leaves_these_records() {
    // Request 2026-02: the call only leaves the commit waiting, and both bytes of the
    // address are written.
    let commit = "fired\nconfig_commit\nread_write_done 22 0\nread_write_done 22 0\n";
    assert_eq!(
        last(&format!("set_address 43981\n{}{commit}", ready())),
        [
            [7, 29, 29, 0, 0, 0, 1, 0x8F, 0, 2, 2, 0, 0, 0, 0x19, 0],
            [4, 29, 29, 0, 0, 0, 0, 0, 0, 0, 0, 0, 0, 0, 0x59, 0],
            [1, 29, 45, 0, 22, 0, 2, 0xE0, 0xCD, 2, 2, 0, 0, 0, 0x49, 0],
            [1, 45, 46, 0, 22, 0, 2, 0xE1, 0xAB, 2, 2, 0, 0, 0, 0x49, 0],
        ]
    );
}

#[test]
fn a_reception_leaves_these_records() {
    let lent = "set_receive_client 1\nset_receive_buffer 2 160\n";
    let interrupt = "fired\nread_write_done 0 4\nfired\nread_write_done 0 0\n";
    let frame = "read_write_done 0 8\nread_write_done 0 20\nread_write_done 0 20\n";
    let end = "read_write_done 0 128\nread_write_done 0 0\n";
    assert_eq!(
        last(&format!("{}{lent}{interrupt}{frame}{end}", ready())),
        [
            [6, 29, 29, 0, 0, 0, 0, 0, 0, 0, 0, 0, 0, 0, 0x01, 0],
            [7, 29, 29, 0, 0, 0, 1, 0x8F, 0, 2, 2, 0, 0, 0, 0x19, 0],
            [1, 29, 59, 0, 0, 4, 0, 0, 0, 0, 0, 0, 0, 0, 0x05, 0],
            [7, 59, 60, 0, 0, 0, 2, 0xC2, 9, 2, 2, 0, 0, 0, 0x0D, 0],
            [1, 60, 61, 0, 0, 0, 1, 0x8F, 0, 2, 2, 0, 0, 0, 0x1D, 0],
            [1, 61, 63, 0, 0, 8, 3, 0x20, 0, 2, 160, 0, 0, 0, 0x09, 0],
            [1, 63, 65, 0, 0, 20, 3, 0x20, 20, 22, 160, 0, 0, 0, 0x09, 0],
            [1, 65, 67, 0, 0, 20, 1, 0x86, 0, 2, 2, 0, 0, 0, 0x09, 0],
            [1, 67, 68, 0, 0, 128, 2, 0xC2, 22, 2, 2, 0, 0, 0, 0x09, 0],
            [1, 68, 29, 0, 0, 0, 1, 0x81, 0, 2, 2, 3, 18, 1, 0x09, 0],
        ]
    );
}

#[test]
fn what_comes_before_a_halt_is_written() {
    let nothing = "new 129 26\nset_pan 1\nset_power_client 1\nbusy\npool 0 1\nmark\nback\n";
    assert_eq!(trace(nothing), (Vec::new(), None));
    let (malformed, halt) = trace(&format!("{nothing}start\nstart \nstart\n"));
    assert_eq!(halt.as_deref(), Some("line 9 malformed"));
    assert_eq!(records(&malformed).len(), 1);
    let (outside, halt) = trace("fired\nstart\nread_write_done 0\n");
    let reason = "line 3 outside the domain: 13 ARRIVED is an added refusal";
    assert_eq!(halt.as_deref(), Some(reason));
    assert_eq!(records(&outside).len(), 2);
    // `back` returns the driver to the mark, and the trace goes on.
    let (back, _) = trace("start\nback\nstart\n");
    let start = [2, 0, 0, 0, 0, 0, 1, 0x9C, 0, 2, 2, 0, 0, 0, 0x08, 0];
    assert_eq!(records(&back), [start, start]);
}

#[test]
fn a_step_gives_at_most_one_notice_and_every_trace_is_accepted() {
    let mut session = Session::new(false);
    for seed in 0..60 {
        let wish = Wish {
            seed,
            lines: 300,
            without_lending: false,
        };
        let lines = script(&mut session, wish, |before, _, outcome| {
            // The flag that says so and the transfer itself are one.
            assert_eq!(before.image.flags.spi_busy, before.under_way.is_some());
            let actions = outcome.map_or(&[] as &[Action], |outcome| &outcome.actions);
            assert!(actions.iter().filter_map(notice).count() <= 1);
        });
        let lines = lines.unwrap_or_else(|stop| panic!("seed {seed}: {stop:?}"));
        let trace = traced(&mut session, &text(&lines)).expect("inside the domain");
        assert!(records(&trace).len() > 100);
    }
}

#[test]
fn every_case_leaves_the_records_that_its_expected_output_asks_for() {
    let folder = Path::new(concat!(env!("CARGO_MANIFEST_DIR"), "/../cases"));
    let files = fs::read_dir(folder).expect("the cases");
    let files = files.map(|file| file.expect("a case").path());
    let scripts = files.filter(|file| file.extension().is_some_and(|end| end == "script"));
    let mut compared = 0;
    for path in scripts {
        let script = fs::read_to_string(&path).expect("a script");
        if script.starts_with("# options") {
            continue;
        }
        let expected = expected(&script, &path.with_extension("expected"));
        let mut records = match script.starts_with("# beyond the domain") {
            false => records(&trace(&script).0),
            true => records(&traced(&mut model::Session::default(), &script).expect("a case")),
        };
        records.iter_mut().for_each(|record| record[14] = 0);
        assert_eq!(records, expected, "{}", path.display());
        compared += records.len();
    }
    assert!(compared > 1000, "only {compared} records");
}

/// The records, without their flags, of a script's calls by its expected output.
fn expected(script: &str, output: &Path) -> Vec<Record> {
    let calls = script.lines().filter(|line| is_call(line));
    let output = fs::read_to_string(output).expect("what a script yields");
    let mut records: Vec<Record> = Vec::new();
    for line in output.lines() {
        let words: Vec<&str> = line.split(' ').collect();
        match words[0].parse() {
            Ok(place) => {
                let call = calls.clone().nth(place).expect("a call for each line");
                records.push(begun(call, &numbers(&words[1..])));
            }
            Err(_) if ["book", "line"].contains(&words[0]) => break,
            Err(_) => {
                let record = records.last_mut().expect("a call comes first");
                added(record, words[0], &words[1..]);
            }
        }
    }
    records.retain(|record| record[0] != 0);
    records
}

fn is_call(line: &str) -> bool {
    let word = line.split(' ').next().unwrap_or_default();
    !line.is_empty()
        && !line.starts_with('#')
        && !["pool", "pool_length", "mark", "back"].contains(&word)
}

fn numbers(words: &[&str]) -> Vec<u8> {
    let number = |word: &&str| word.parse().expect("a number of one byte");
    words.iter().map(number).collect()
}

/// A record with its event, states, answer and arrived bytes; event 0 for no event.
fn begun(call: &str, answer: &[u8]) -> Record {
    let words: Vec<&str> = call.split(' ').collect();
    let names = "- read_write_done start stop config_commit transmit set_receive_buffer fired reset \
         declined resume";
    let event = names.split(' ').position(|name| name == words[0]);
    let mut record = [0; 16];
    record[0] = event.unwrap_or(0) as u8;
    record[1..4].copy_from_slice(&[answer[1], answer[2], answer[0]]);
    if record[0] == 1 {
        let bytes = numbers(&words[1..]);
        record[4..6].copy_from_slice(&bytes[..2]);
    }
    record
}

/// Adds what a line under a call says.
fn added(record: &mut Record, name: &str, words: &[&str]) {
    match name {
        "transfer" => {
            let n = numbers(words);
            let (kind, write, read, first) = (n[0], n[1], n[2], n[3]);
            let value = if kind > 2 { write - 2 } else { n[4] };
            record[6..11].copy_from_slice(&[kind, first, value, write, read]);
        }
        "power" => record[11..13].copy_from_slice(&[1, numbers(words)[0]]),
        "sent" => record[11..14].copy_from_slice(&[2, numbers(words)[1], numbers(words)[2]]),
        "received" => record[11..14].copy_from_slice(&[3, numbers(words)[1], numbers(words)[2]]),
        "config_done" => record[11] = 4,
        "dropped" => record[11..13].copy_from_slice(&[5, numbers(words)[0]]),
        _ => {}
    }
}
