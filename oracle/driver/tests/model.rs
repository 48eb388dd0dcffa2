//! The model by itself: along scripts inside the domain every refused call is tried at every
//! line; the edges of the refusals; the line of receive buffers of request 2026-07; the
//! received length of request 2026-13; the declined transfers of request 2026-05; and what
//! holds of every run, however far it leaves the domain.

#[path = "model/declined.rs"]
mod declined;
#[path = "model/every_notice.rs"]
mod every_notice;
#[path = "model/every_resume.rs"]
mod every_resume;
#[path = "model/received_length.rs"]
mod received_length;

use oracle::answer::Answer;
use oracle::domain;
use oracle::generator::{self, Wish, beyond, pairs};
use oracle::line::{Call, Line};
use oracle::model::{self, Standing, described};
use oracle::performer::Performer;
use oracle::run::{End, run};
use oracle::session::Session;
use oracle::view::View;

const BUFFERS: [u64; 12] = [0, 1, 2, 3, 9, 14, 15, 16, 18, 256, 1 << 32, u64::MAX];
const LENGTHS: [u64; 12] = [
    0,
    4,
    5,
    128,
    129,
    130,
    160,
    161,
    256 + 140,
    (1 << 32) + 140,
    1 << 63,
    u64::MAX,
];
const FRAMES: [u64; 13] = [
    0,
    1,
    124,
    125,
    126,
    127,
    155,
    156,
    300,
    u64::MAX - 4,
    u64::MAX - 3,
    u64::MAX - 1,
    u64::MAX,
];
/// The answers that a call may get, and numbers that are none.
const ANSWERS: usize = Answer::Nothing as usize + 1;
/// Lengths of the pool with which eight calls are refused.
const WRONG_POOLS: [usize; 4] = [0, 3039, 3041, 4096];

/// Every call that is refused somewhere, with what decides about it at its borders.
fn candidates(standing: &Standing) -> Vec<Call> {
    let mut calls = vec![
        Call::Start,
        Call::Stop,
        Call::ConfigCommit,
        Call::Fired,
        Call::Declined,
        Call::Resume,
        Call::Reset { configured: false },
    ];
    calls.extend([0, 10, 27, 255].map(Call::SetChannel));
    calls.extend([-128, -18, 5, 127].map(Call::SetTxPower));
    calls.extend(transmits());
    for buffer in 0..19 {
        let (length, n) = (160, 20);
        calls.push(Call::Transmit { buffer, length, n });
        calls.push(Call::SetReceiveBuffer { buffer, length });
    }
    for length in LENGTHS {
        calls.extend(BUFFERS.map(|buffer| Call::SetReceiveBuffer { buffer, length }));
    }
    let under_way = standing.driver.under_way.as_ref();
    let most = under_way.map_or(2, |under_way| under_way.shorter_length());
    let counts = [0, 1, 2, most, most + 1, 160];
    calls.extend(counts.map(|count| Call::ReadWriteDone(vec![0; count])));
    calls
}

fn transmits() -> Vec<Call> {
    let mut calls = Vec::new();
    for n in FRAMES {
        calls.extend(LENGTHS.map(|length| Call::Transmit {
            buffer: 3,
            length,
            n,
        }));
        calls.extend(BUFFERS.map(|buffer| Call::Transmit {
            buffer,
            length: 160,
            n,
        }));
    }
    calls
}

/// Tries one call on the model, which must answer it so, start nothing, do nothing, and be
/// as it was, except that a `start` withdraws a waiting stop.
fn refused(model: &mut model::Session, call: &Call, answer: Answer) {
    let before = model.now().clone();
    let outcome = model.perform(&Line::Call(call.clone()));
    let outcome = outcome.expect("the model goes on").expect("a call");
    assert_eq!(outcome.answer, answer, "{call} on {:?}", before.driver);
    assert_eq!(
        (outcome.from, outcome.to),
        (before.driver.state, before.driver.state)
    );
    assert!(
        outcome.transfer.is_none() && outcome.actions.is_empty(),
        "{call}"
    );
    assert!(outcome.value.is_none() && !outcome.fault, "{call}");
    let mut expected = before;
    if answer == Answer::Already && *call == Call::Start {
        expected.driver.flags.sleep_pending = false;
    }
    assert!(*model.now() == expected, "{call} alters what it may not");
}

/// Tries every such call that document 01 refuses where the Rust stands so.
fn refused_here(model: &model::Session, view: &View, counts: &mut [u64; ANSWERS]) {
    let mut tried = model.clone();
    for call in candidates(model.now()) {
        let answer = domain::answer(view, &call);
        if answer == Answer::Done {
            continue;
        }
        counts[answer as usize] += 1;
        refused(&mut tried, &call, answer);
        if call == Call::Start {
            tried = model.clone();
        }
    }
}

/// The same where the transfer under way was declined.
fn refused_while_it_waits(model: &model::Session, view: &View, counts: &mut [u64; ANSWERS]) {
    let mut waits = model.clone();
    let declined = Line::Call(Call::Declined);
    waits.perform(&declined).expect("the model goes on");
    let mut view = view.clone();
    view.waits = true;
    refused_here(&waits, &view, counts);
}

#[test]
fn every_refused_call_is_refused_and_changes_nothing() {
    let mut session = Session::new(false);
    let mut model = model::Session::default();
    let mut counts = [0; ANSWERS];
    for seed in 0..8 {
        let wish = Wish {
            seed,
            lines: 250,
            without_lending: false,
        };
        model.begin();
        let lines = generator::script(&mut session, wish, |view, line, _| {
            refused_here(&model, view, &mut counts);
            if pairs::may_stand(view) {
                refused_while_it_waits(&model, view, &mut counts);
            }
            for length in WRONG_POOLS {
                let mut other = model.clone();
                let shorter = Line::PoolLength(length);
                other.perform(&shorter).expect("the model goes on");
                let mut wrong = view.clone();
                wrong.pool_length = length;
                refused_here(&other, &wrong, &mut counts);
            }
            model.perform(line).expect("the model goes on");
        });
        lines.unwrap_or_else(|stop| panic!("seed {seed}: {stop:?}"));
    }
    // All but FULL, which the Rust's one receive place never gives, and NEW; 16 to 21 are no
    // answers of calls.
    for (answer, count) in counts.iter().enumerate() {
        assert_eq!(
            *count > 0,
            !matches!(answer, 0 | 10 | 15..=21),
            "{answer}: {count}"
        );
    }
}

/// The numbers that a script's calls answer, and the whole output.
fn answered(script: &str) -> (Vec<u8>, String) {
    let mut output = Vec::new();
    let end = run(
        &mut model::Session::default(),
        script.as_bytes(),
        &mut output,
    );
    assert_eq!(
        end.expect("memory does not fail"),
        End::Complete,
        "{script}"
    );
    let output = String::from_utf8(output).expect("the output is ASCII");
    let calls = output
        .lines()
        .filter(|line| line.starts_with(|c: char| c.is_ascii_digit()));
    let answer = |line: &str| line.split(' ').nth(1).expect("an answer").parse();
    (
        calls.map(|line| answer(line).expect("a number")).collect(),
        output,
    )
}

/// What the calls of a script yield after those before it, each line as `short` has it.
fn yielded(before: &str, script: &str, short: fn(&str) -> String) -> Vec<String> {
    let (answers, _) = answered(before);
    let (_, output) = answered(&format!("{before}{script}"));
    let first = format!("{} ", answers.len());
    let lines = output.lines().skip_while(|line| !line.starts_with(&first));
    let lines = lines.take_while(|line| !line.starts_with("book"));
    lines.map(short).collect()
}

/// The answer to the last call of a script.
fn last(script: &str) -> u8 {
    let (answers, _) = answered(script);
    *answers.last().expect("a call")
}

/// READY with the radio on and no transfer under way, by the short way.
const READY: &str = "fired\nread_write_done 0 12\nread_write_done 0 0\n";

/// Calls in READY, and their answers: each number at its border, and where a narrower type
/// would cut it to a small one.
const EDGES: [(&str, u8); 41] = [
    ("transmit 0 160 18446744073709551615", 3),
    ("transmit 0 160 18446744073709551612", 3),
    ("transmit 0 160 18446744073709551611", 3),
    ("transmit 0 160 4294967296", 3),
    ("transmit 0 160 256", 3),
    ("transmit 0 160 156", 3),
    ("transmit 0 160 155", 4),
    ("transmit 0 160 126", 4),
    ("transmit 0 160 125", 0),
    ("transmit 0 129 125", 3),
    ("transmit 0 130 125", 0),
    ("transmit 0 4 0", 3),
    ("transmit 0 5 0", 0),
    ("transmit 15 160 5", 0),
    ("transmit 16 160 5", 7),
    ("transmit 256 160 5", 7),
    ("transmit 4294967296 160 5", 7),
    ("transmit 18446744073709551615 160 5", 7),
    ("transmit 0 161 5", 7),
    ("transmit 0 4294967436 5", 7),
    ("transmit 16 161 18446744073709551615", 7),
    ("set_receive_buffer 15 129", 0),
    ("set_receive_buffer 0 160", 0),
    ("set_receive_buffer 0 128", 9),
    ("set_receive_buffer 0 161", 7),
    ("set_receive_buffer 0 4294967436", 7),
    ("set_receive_buffer 0 18446744073709551615", 7),
    ("set_receive_buffer 16 128", 7),
    ("set_receive_buffer 18446744073709551615 129", 7),
    ("new 18446744073709551615 26", 15),
    ("new 4294967436 26", 15),
    ("new 385 26", 15),
    ("new 128 26", 15),
    ("new 161 26", 15),
    ("new 160 10", 15),
    ("new 160 27", 15),
    ("new 160 11", 0),
    ("set_channel 10", 5),
    ("set_channel 27", 5),
    ("set_tx_power 5", 5),
    ("set_tx_power -18", 5),
];

#[test]
fn numbers_are_not_cut_before_they_are_compared() {
    for (call, answer) in EDGES {
        assert_eq!(last(&format!("{READY}{call}\n")), answer, "{call}");
    }
}

#[test]
fn the_pools_length_guards_eight_calls_and_comes_first() {
    for length in [0, 1, 3039, 3041, 4096] {
        for call in [
            "transmit 99 999 18446744073709551615",
            "read_write_done",
            "start",
            "stop",
            "config_commit",
            "fired",
            "declined",
            "resume",
        ] {
            let script = format!("{READY}stop\npool_length {length}\n{call}\n");
            assert_eq!(last(&script), 12, "{call}");
        }
        for (call, answer) in [
            ("set_receive_buffer 1 129", 0),
            ("set_receive_buffer 16 129", 7),
            ("reset 1", 0),
            ("reset 0", 14),
            ("set_channel 27", 5),
            ("set_receive_client 1", 0),
            ("busy", 0),
            ("new 129 26", 0),
            ("new 128 26", 15),
        ] {
            let script = format!("{READY}pool_length {length}\n{call}\n");
            assert_eq!(last(&script), answer, "{call}");
        }
    }
    // A `start` refused by 12 leaves a waiting stop; a firing is not remembered.
    let script =
        "start\nstop\nread_write_done 0 0\npool_length 0\nstart\nfired\npool_length 3040\n";
    let mut session = model::Session::default();
    run(&mut session, script.as_bytes(), &mut Vec::new()).expect("memory does not fail");
    let flags = &session.now().driver.flags;
    assert!(flags.sleep_pending && !flags.interrupt_pending);
}

#[test]
fn a_refused_new_leaves_a_driver() {
    let (answers, output) =
        answered("set_receive_buffer 3 140\nnew 160 20\nnew 128 20\nget_channel\n");
    assert_eq!(answers, [0, 0, 15, 0]);
    assert!(output.contains("value 26\nbook 0 0 0 0\n"), "{output}");
}

#[test]
fn a_transmit_during_a_frame_write_is_busy() {
    let write = format!("{READY}transmit 3 160 5\nread_write_done 22 0\nreset 1\n");
    assert_eq!(last(&format!("{write}transmit 4 160 5\n")), 2);
    // HANDLE comes before BUSY, BUSY before HELD.
    assert_eq!(last(&format!("{write}transmit 16 160 5\n")), 7);
    assert_eq!(last(&format!("{write}transmit 3 160 5\n")), 2);
}

/// A frame from READY to READY again, with these two length bytes.
fn frame(first: u8, second: u8) -> String {
    let interrupts =
        "fired\nread_write_done 0 4\nfired\nread_write_done 0 0\nread_write_done 0 8\n";
    let bytes = format!("read_write_done 0 {first}\nread_write_done 0 {second}\n");
    format!("{interrupts}{bytes}read_write_done 0 128\nread_write_done 0 0\nread_write_done 22 0\n")
}

fn lent(buffers: &[u8]) -> String {
    let lend = |buffer| format!("set_receive_buffer {buffer} 160\n");
    buffers.iter().map(lend).collect()
}

/// The `received` lines of a script that begins in READY with the listener present.
fn received(script: &str) -> Vec<String> {
    let (_, output) = answered(&format!("{READY}set_receive_client 1\n{script}"));
    assert!(!output.contains("fault"), "{output}");
    let received = output.lines().filter(|line| line.starts_with("received"));
    received.map(str::to_string).collect()
}

#[test]
fn up_to_four_are_lent_and_used_oldest_first() {
    let frames = [20, 21, 22, 23]
        .map(|length| frame(length, length))
        .concat();
    assert_eq!(
        received(&(lent(&[7, 3, 9, 5]) + &frames)),
        [
            "received 7 18 1",
            "received 3 19 1",
            "received 9 20 1",
            "received 5 21 1"
        ]
    );
    // One handed back may be lent again; it goes to the end.
    let again = lent(&[7, 3]) + &frame(20, 20) + &lent(&[7]) + &frames;
    assert_eq!(
        received(&again),
        ["received 7 18 1", "received 3 18 1", "received 7 19 1"]
    );
}

#[test]
fn full_is_for_four_and_comes_before_held() {
    let four = format!("{READY}{}", lent(&[0, 1, 2, 3]));
    for (call, answer) in [
        ("set_receive_buffer 4 160", 10),
        ("set_receive_buffer 0 160", 10),
        ("set_receive_buffer 4 128", 9),
        ("set_receive_buffer 0 128", 9),
        ("set_receive_buffer 16 128", 7),
        ("transmit 3 160 5", 8),
        ("transmit 4 160 5", 0),
    ] {
        assert_eq!(last(&format!("{four}{call}\n")), answer, "{call}");
    }
    let (_, output) = answered(&(four + &lent(&[4])));
    assert!(output.ends_with(
        "book 4 0 0 4\nplaces 3 3 3 3 0 0 0 0 0 0 0 0 0 0 0 0 1 1 1\n\
         record 3 3 3 3 0 0 0 0 0 0 0 0 0 0 0 0 1 1 1\n"
    ));
}

#[test]
fn the_one_under_way_counts() {
    let reading = "fired\nread_write_done 0 12\n";
    let three = format!("{READY}{}{reading}", lent(&[0, 1, 2]));
    let (answers, output) = answered(&(three.clone() + &lent(&[0, 1, 5, 6, 0])));
    assert_eq!(answers[answers.len() - 5..], [8, 8, 0, 10, 10]);
    assert!(
        output.ends_with("record 4 3 3 0 0 3 0 0 0 0 0 0 0 0 0 0 1 1 4\n"),
        "{output}"
    );
    assert_eq!(last(&(three + "transmit 0 160 5\n")), 8);
    // What is lent meanwhile goes to the end; the one under way returns to the front.
    let rest = "read_write_done 0 20\nread_write_done 0 20\nread_write_done 0 128\n\
                read_write_done 0 0\nread_write_done 22 0\n";
    let more = [21, 22].map(|length| frame(length, length)).concat();
    assert_eq!(
        received(&(lent(&[4, 6]) + reading + &lent(&[5]) + rest + &more)),
        ["received 4 18 1", "received 6 19 1", "received 5 20 1"]
    );
}

#[test]
fn held_is_for_any_buffer_of_the_driver() {
    let sending = format!("{READY}transmit 3 160 5\n");
    assert_eq!(last(&(sending.clone() + &lent(&[3]))), 8);
    let writing = sending + "read_write_done 22 0\n";
    assert_eq!(last(&(writing + &lent(&[3]))), 8);
    assert_eq!(last(&format!("{READY}{}", lent(&[3, 3]))), 8);
    assert_eq!(last(&format!("{}transmit 3 160 5\n", lent(&[3]))), 1);
}

#[test]
fn without_a_listener_the_front_goes_to_the_end() {
    let absent = "set_receive_client 0\n";
    let present = "set_receive_client 1\n";
    let frames = [20, 21, 22].map(|length| frame(length, length)).concat();
    assert_eq!(
        received(&(lent(&[7, 3, 9]) + absent + &frame(30, 30) + present + &frames)),
        ["received 3 18 1", "received 9 19 1", "received 7 20 1"]
    );
    // A line of one turns to itself.
    assert_eq!(
        received(&(lent(&[7]) + absent + &frame(30, 30) + present + &frames)),
        ["received 7 18 1"]
    );
}

#[test]
fn a_frame_not_announced_for_another_reason_leaves_the_front() {
    let one = frame(20, 20);
    let to_64 = "fired\nread_write_done 0 12\nfired\nread_write_done 0 20\n";
    let to_68 = "fired\nread_write_done 0 12\nread_write_done 0 30\nread_write_done 0 30\n\
                 read_write_done 0 128\nfired\nread_write_done 0 0\n";
    // An interrupt in 64 or in 68 that shows bit 2, and then a frame that is not read out;
    // a length byte outside 11 to 127.
    let again = "read_write_done 0 4\nfired\nread_write_done 0 0\nread_write_done 0 8\n\
                 read_write_done 0 10\nread_write_done 22 0\n";
    for before in [
        format!("{to_64}{again}"),
        format!("{to_68}{again}"),
        frame(10, 30).replace(
            "read_write_done 0 30\nread_write_done 0 128\nread_write_done 0 0\n",
            "",
        ),
    ] {
        let said = received(&(lent(&[7, 3]) + &before + &one + &one));
        assert_eq!(said, ["received 7 18 1", "received 3 18 1"], "{before}");
    }
}

#[test]
fn pool_bytes_from_outside_are_the_pools_bytes() {
    // Byte 1 of a frame write is the pool's; its length and n stay the driver's.
    let send = format!("{READY}transmit 3 160 1\npool 481 99 8\nread_write_done 22 0\n");
    let (_, output) = answered(&send);
    assert!(
        output.contains("transfer 4 5 129 96 99 8 0 0\n"),
        "{output}"
    );
}

#[test]
fn what_holds_of_every_run_beyond_the_domain() {
    let mut session = model::Session::default();
    for seed in 0..60 {
        let mut held = 0;
        beyond::script(&mut session, seed, 500, |driver, line, outcome| {
            assert!(!described(driver), "seed {seed}: {driver:?}");
            let fault = outcome.is_some_and(|outcome| outcome.fault);
            assert!(!fault, "seed {seed}: {line}");
            held = held.max(driver.receive_buffers());
        });
        assert!(held > 1, "seed {seed}");
        let (book, driver) = (&session.now().book, &session.now().driver);
        let with = driver.with_driver() as u64;
        assert_eq!(book.places, driver.record(), "seed {seed}");
        assert_eq!(
            book.accepted,
            book.handed + book.dropped + with,
            "seed {seed}"
        );
        let waits = driver.waiting.as_ref().map(|waiting| waiting.kind);
        let kinds = (book.transfer.map(|(kind, _, _)| kind), book.waiting);
        assert_eq!(kinds, (driver.kind(), waits), "seed {seed}");
    }
}
