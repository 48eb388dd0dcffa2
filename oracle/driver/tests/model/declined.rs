//! Request 2026-05: the SPI layer declines a transfer, which waits until it is resumed: steps
//! worked out by hand.

use oracle::model::Session;
use oracle::run::run;
use oracle::trace::reader::{blocks, read};
use oracle::trace::run::traced;

use super::{READY, answered, last, lent, yielded};

/// What the calls of a script yield after those before it, without their places.
fn told(before: &str, script: &str) -> Vec<String> {
    yielded(before, script, without_place)
}

fn without_place(line: &str) -> String {
    match line.starts_with(|c: char| c.is_ascii_digit()) {
        true => line.split_once(' ').expect("an answer").1.to_string(),
        false => line.to_string(),
    }
}

/// The last two lines that a script ends with: the book's places and the driver's record.
fn places(script: &str) -> [String; 2] {
    let (_, output) = answered(script);
    let mut lines = output.lines().rev();
    let mut next = || lines.next().expect("three lines at the end").to_string();
    let record = next();
    [next(), record]
}

/// The places as both lines have them.
fn both(places: &str) -> [String; 2] {
    ["places", "record"].map(|name| format!("{name} {places}"))
}

/// From READY: the read of IRQ_STATUS is declined.
const DECLINED: &str = "fired\ndeclined\n";
/// From READY with a receive buffer: the length read is declined.
const LENGTH_READ: &str = "fired\nread_write_done 0 12\ndeclined\n";
/// From READY with the radio on: the write of a frame of 3 bytes is declined.
const FRAME_WRITE: &str = "transmit 3 160 1\nread_write_done 22 0\ndeclined\n";

#[test]
fn the_example_of_the_readings() {
    let script =
        "start\ndeclined\nread_write_done 0 0\nfired\nresume\nresume\nread_write_done 0 0\n";
    let (_, output) = answered(script);
    let places = "0 0 0 0 0 0 0 0 0 0 0 0 0 0 0 0 4 4 1";
    let expected = "0 0 0 0\ntransfer 1 2 2 156 0\n1 0 0 0\n2 11 0 0\n3 0 0 0\n4 0 0 0\n\
                    transfer 1 2 2 156 0\n5 22 0 0\n6 0 0 0\ntransfer 1 2 2 143 0\nbook 0 0 0 0\n";
    assert_eq!(
        output,
        format!("{expected}places {places}\nrecord {places}\n")
    );
}

#[test]
fn each_kind_waits_with_its_buffers_in_their_places() {
    let home = "0 0 0 0 0 0 0 0 0 0 0 0 0 0 0 0 1 1 1";
    assert_eq!(places(&format!("{READY}{DECLINED}")), both(home));
    assert_eq!(places("start\nread_write_done 0 0\ndeclined\n"), both(home));
    let line = "0 0 3 0 0 3 0 0 0 0 0 0 0 0 0 0 1 1 1";
    let reading = format!("{READY}{}{LENGTH_READ}", lent(&[2, 5]));
    assert_eq!(places(&reading), both(line));
    let resumed = "0 0 4 0 0 3 0 0 0 0 0 0 0 0 0 0 1 1 4";
    assert_eq!(places(&(reading + "resume\n")), both(resumed));
    let sent = "0 0 0 2 0 0 0 0 0 0 0 0 0 0 0 0 1 1 1";
    let writing = format!("{READY}{FRAME_WRITE}");
    assert_eq!(places(&writing), both(sent));
    let resumed = "0 0 0 4 0 0 0 0 0 0 0 0 0 0 0 0 1 1 4";
    assert_eq!(places(&(writing + "resume\n")), both(resumed));
}

#[test]
fn a_register_transfers_bytes_are_those_first_offered() {
    // Buffer 16 begins at 2560, buffer 17 at 2720.
    let altered = "pool 2560 1 2 3\npool 2720 4 5\n";
    let again = format!("{altered}resume\n{altered}declined\n{altered}resume\n");
    let read = ["0 29 29", "transfer 1 2 2 143 0"];
    let said = told(&format!("{READY}{DECLINED}"), &again);
    assert_eq!(said, [&read[..], &["0 29 29"], &read].concat());
    // A write: READY's OFF.
    let write = ["0 30 30", "transfer 2 2 2 194 8"];
    let said = told(&format!("{READY}stop\ndeclined\n"), &again);
    assert_eq!(said, [&write[..], &["0 30 30"], &write].concat());
}

#[test]
fn a_frame_reads_first_byte_is_written_anew() {
    // Buffer 18 begins at 2880. Other bytes are the pool's at the resume.
    let before = format!("{READY}{}{LENGTH_READ}", lent(&[2]));
    let said = told(&before, "pool 2880 7 9\nresume\n");
    assert_eq!(said, ["0 63 63", "transfer 3 2 160 32 9"]);
    let read_out = "resume\nread_write_done 0 11\ndeclined\npool 2880 1 2 3 4\nresume\n";
    let said = told(&before, read_out);
    let bytes = "0 0 0 0 0 0 0 0 0 0 0";
    assert_eq!(
        said[2..4],
        ["0 63 65", &format!("transfer 3 13 160 32 0 {bytes}")]
    );
    let bytes = "3 4 0 0 0 0 0 0 0 0 0";
    assert_eq!(
        said[4..],
        [
            "0 65 65",
            "0 65 65",
            &format!("transfer 3 13 160 32 2 {bytes}")
        ]
    );
}

#[test]
fn a_frame_writes_first_two_bytes_are_written_anew() {
    // Buffer 3 begins at 480. The first offer sends byte 1 as it stands.
    let altered = format!("{READY}transmit 3 160 1\npool 480 1 99 8\nread_write_done 22 0\n");
    let said = told(&altered, "declined\nresume\n");
    assert_eq!(said[1..], ["0 34 34", "transfer 4 5 129 96 3 8 0 0"]);
    let first = told(
        &format!("{READY}transmit 3 160 1\npool 480 1 99 8\n"),
        "read_write_done 22 0\n",
    );
    assert_eq!(first, ["0 33 34", "transfer 4 5 129 96 99 8 0 0"]);
    let said = told(
        &format!("{READY}{FRAME_WRITE}"),
        "pool 480 1 2 6 7 8\nresume\n",
    );
    assert_eq!(said, ["0 34 34", "transfer 4 5 129 96 3 6 7 8"]);
}

#[test]
fn a_frame_writes_read_length_is_kept() {
    // After a length read it is 2, and so it is at the resume.
    let length = "fired\nread_write_done 0 12\nread_write_done 0 10\nread_write_done 22 0\n";
    let before = format!("{READY}{}{length}{FRAME_WRITE}", lent(&[2]));
    assert_eq!(
        told(&before, "resume\n"),
        ["0 34 34", "transfer 4 5 2 96 3 0 0 0"]
    );
    assert_eq!(
        last(&format!("{before}resume\nread_write_done 0 0 0\n")),
        13
    );
}

#[test]
fn the_orders_of_the_three_calls() {
    let waits = format!("{READY}{DECLINED}");
    let under_way = format!("{READY}fired\n");
    let shorter = "pool_length 3039\n";
    for (before, call, answer) in [
        (READY, "declined", 11),
        (READY, "resume", 22),
        (&under_way, "declined", 0),
        (&under_way, "resume", 22),
        (&waits, "declined", 11),
        (&waits, "resume", 0),
        (&waits, "read_write_done", 11),
        (&waits, "read_write_done 0 0", 11),
        (&waits, "read_write_done 0 0 0", 11),
        (&under_way, "read_write_done 0 0 0", 13),
    ] {
        assert_eq!(last(&format!("{before}{call}\n")), answer, "{before}{call}");
        assert_eq!(last(&format!("{before}{shorter}{call}\n")), 12, "{call}");
    }
}

#[test]
fn an_interrupt_is_remembered_while_a_transfer_waits() {
    let said = told(
        &format!("{READY}{DECLINED}"),
        "fired\nresume\nread_write_done 0 0\nread_write_done 0 0\n",
    );
    let read = "transfer 1 2 2 143 0";
    assert_eq!(
        said,
        ["0 29 29", "0 29 29", read, "0 29 29", read, "0 29 29"]
    );
    // In RX no transfer can wait; in 60 the write of PLL_ON can.
    let rx = format!("{READY}fired\nread_write_done 0 4\nfired\ndeclined\n");
    assert_eq!(
        told(&rx, "fired\nresume\n"),
        ["0 60 60", "0 60 60", "transfer 2 2 2 194 9"]
    );
}

#[test]
fn calls_change_the_state_and_the_resumed_transfer_completes_as_the_new_ones() {
    let waits = format!("{READY}{DECLINED}");
    let read = "transfer 1 2 2 143 0";
    // `stop` in 29: the OFF is never sent.
    let said = told(&waits, "stop\nresume\nread_write_done 0 0\n");
    let sleeps = ["0 30 31", "sleep set", "irq disable_interrupts"];
    assert_eq!(said, [&["0 29 30", "0 30 30", read], &sleeps[..]].concat());
    // `transmit` in 29: TRX_STATUS is never read.
    let said = told(&waits, "transmit 3 160 1\nresume\nread_write_done 22 0\n");
    let write = "transfer 4 5 129 96 3 0 0 0";
    assert_eq!(said, ["0 29 33", "0 33 33", read, "0 33 34", write]);
    // A commit waits, and begins whole when READY completes.
    let said = told(
        &waits,
        "config_commit\nconfig_commit\nresume\nread_write_done 0 0\n",
    );
    assert_eq!(said[..2], ["0 29 29", "0 29 29"]);
    assert_eq!(
        said[2..],
        ["0 29 29", read, "0 29 45", "transfer 2 2 2 224 0"]
    );
    // `start` in 31: TRX_STATUS is never read.
    let asleep = format!("{READY}stop\nread_write_done 0 0\n{DECLINED}");
    let said = told(&asleep, "start\nresume\nread_write_done 0 0\n");
    let wakes = ["sleep clear", "irq enable_interrupts"];
    let expected = [
        "0 31 32",
        "0 32 32",
        read,
        "0 32 29",
        "transfer 2 2 2 194 22",
    ];
    assert_eq!(said, [&expected[..], &wakes].concat());
    // `stop` in 27: the radio wakes again.
    let startup = "start\n".to_string() + &"read_write_done 8 0\n".repeat(26) + "declined\n";
    let said = told(&startup, "stop\nresume\nread_write_done 0 0\n");
    let on = "transfer 2 2 2 194 9";
    let wakes = ["0 30 32", "transfer 1 2 2 129 0", "sleep set"];
    assert_eq!(said, [&["0 27 30", "0 30 30", on], &wakes[..]].concat());
}

#[test]
fn calls_that_start_transfers_elsewhere_begin_none() {
    // A new driver, PART_NUM declined: `start` again sends nothing.
    let said = told("start\ndeclined\n", "start\nstop\nstart\nresume\n");
    assert_eq!(
        said,
        ["0 0 0", "0 0 0", "0 0 0", "0 0 0", "transfer 1 2 2 156 0"]
    );
    // `start` in another state is 6 and withdraws a waiting stop.
    let startup = "start\nread_write_done 0 0\ndeclined\nstop\nstart\n";
    assert_eq!(last(startup), 6);
}

#[test]
fn a_send_while_a_transfer_waits() {
    let write = format!("{READY}{FRAME_WRITE}");
    for reset in ["", "reset 1\n"] {
        // 7 comes before 2, and 2 before 3, 4 and 8.
        for (call, answer) in [
            ("transmit 4 160 5", 2),
            ("transmit 3 160 5", 2),
            ("transmit 4 4 5", 2),
            ("transmit 4 160 126", 2),
            ("transmit 16 160 5", 7),
        ] {
            let script = format!("{write}{reset}{call}\n");
            assert_eq!(last(&script), answer, "{call}");
            let script = format!("{write}{reset}pool_length 0\n{call}\n");
            assert_eq!(last(&script), 12, "{call}");
        }
    }
    // While another transfer waits, the conditions of document 01 alone decide.
    let register = format!("{READY}{DECLINED}");
    assert_eq!(last(&format!("{register}transmit 4 160 5\n")), 0);
    let reading = format!("{READY}{}{LENGTH_READ}", lent(&[2]));
    assert_eq!(last(&format!("{reading}transmit 4 160 5\n")), 0);
    assert_eq!(last(&format!("{reading}transmit 2 160 5\n")), 8);
    assert_eq!(last("start\ndeclined\ntransmit 4 160 5\n"), 1);
}

#[test]
fn lending_while_a_transfer_waits() {
    let reading = format!("{READY}{}{LENGTH_READ}", lent(&[2, 5]));
    let (answers, output) = answered(&(reading.clone() + &lent(&[2, 5, 6, 7, 8, 2])));
    assert_eq!(answers[answers.len() - 6..], [8, 8, 0, 0, 10, 10]);
    assert!(output.ends_with("record 0 0 3 0 0 3 3 3 0 0 0 0 0 0 0 0 1 1 1\n"));
    assert_eq!(last(&format!("{reading}set_receive_buffer 2 128\n")), 9);
    // What is lent meanwhile goes to the end: the front is still the one that is read into.
    let frame =
        "read_write_done 0 20\nread_write_done 0 20\nread_write_done 0 128\nread_write_done 0 0\n";
    let rest = format!("{}resume\n{frame}", lent(&[6]));
    let said = told(&format!("set_receive_client 1\n{reading}"), &rest);
    assert_eq!(said.last().expect("a notice"), "received 2 18 1");
    let writing = format!("{READY}{FRAME_WRITE}");
    assert_eq!(last(&(writing.clone() + &lent(&[3]))), 8);
    assert_eq!(last(&(writing + &lent(&[2]))), 0);
}

#[test]
fn the_held_length_and_a_spoiled_reception_are_kept() {
    let twice = "declined\nresume\ndeclined\nresume\n";
    for (second, notice) in [(20, Some("received 2 18 1")), (21, None)] {
        let bytes = [
            "0 20".to_string(),
            format!("0 {second}"),
            "0 128".to_string(),
            "0 0".to_string(),
        ];
        let ends = bytes.map(|bytes| format!("{twice}read_write_done {bytes}\n"));
        let before = format!("set_receive_client 1\n{READY}{}", lent(&[2]));
        let said = told(
            &before,
            &format!("fired\nread_write_done 0 12\n{}", ends.concat()),
        );
        let received = said.iter().find(|line| line.starts_with("received"));
        assert_eq!(received.map(String::as_str), notice, "{second}");
    }
    // Over a detour in 64 too, whose IRQ_STATUS read is declined.
    let detour = format!(
        "{READY}{}fired\nread_write_done 0 12\nfired\nread_write_done 0 20\n",
        lent(&[2])
    );
    let said = told(&detour, "declined\nresume\nread_write_done 0 64\n");
    assert_eq!(said[..3], ["0 64 64", "0 64 64", "transfer 1 2 2 143 0"]);
    assert!(said[4].starts_with("transfer 3 22 160 32 "), "{said:?}");
}

#[test]
fn a_new_driver_has_nothing_that_waits() {
    let (answers, _) = answered(&format!(
        "{READY}{DECLINED}new 129 26\nresume\ndeclined\nstart\n"
    ));
    assert_eq!(answers[answers.len() - 4..], [0, 22, 11, 0]);
    // `back` to a mark that was made while one waited: it waits again.
    let back = format!("{READY}{DECLINED}mark\nresume\nread_write_done 0 0\nback\nresume\n");
    assert_eq!(last(&back), 0);
}

#[test]
fn the_records() {
    let script = format!(
        "{READY}{}{LENGTH_READ}fired\nresume\nresume\ndeclined\ndeclined\n",
        lent(&[2])
    );
    let trace = traced(&mut Session::default(), &script).expect("the model goes on");
    let records: Vec<_> = blocks(&trace)
        .flat_map(|block| read(block).expect("the block is accepted"))
        .copied()
        .collect();
    let last: &[_; 7] = records.last_chunk().expect("so many records");
    assert_eq!(
        *last,
        [
            [1, 29, 63, 0, 0, 12, 3, 0x20, 0, 2, 160, 0, 0, 0, 0x09, 0],
            [9, 63, 63, 0, 0, 0, 0, 0, 0, 0, 0, 0, 0, 0, 0x09, 0],
            [7, 63, 63, 0, 0, 0, 0, 0, 0, 0, 0, 0, 0, 0, 0x29, 0],
            [10, 63, 63, 0, 0, 0, 3, 0x20, 0, 2, 160, 0, 0, 0, 0x29, 0],
            [10, 63, 63, 22, 0, 0, 0, 0, 0, 0, 0, 0, 0, 0, 0x29, 0],
            [9, 63, 63, 0, 0, 0, 0, 0, 0, 0, 0, 0, 0, 0, 0x29, 0],
            [9, 63, 63, 11, 0, 0, 0, 0, 0, 0, 0, 0, 0, 0, 0x29, 0],
        ]
    );
    let none = "declined\nresume\n";
    let trace = traced(&mut Session::default(), none).expect("the model goes on");
    let records = read(&trace).expect("the block is accepted");
    assert_eq!(records[0][..4], [9, 0, 0, 11]);
    assert_eq!(records[1][..4], [10, 0, 0, 22]);
}

#[test]
fn nothing_else_is_altered() {
    let script = format!("{READY}{}{LENGTH_READ}", lent(&[2]));
    let mut session = Session::default();
    let cut = script.trim_end_matches("declined\n");
    run(&mut session, cut.as_bytes(), &mut Vec::new()).expect("memory does not fail");
    let before = session.now().clone();
    run(&mut session, &b"declined\n"[..], &mut Vec::new()).expect("memory does not fail");
    let waits = session.now().clone();
    assert_eq!(
        (waits.driver.state, &waits.driver.flags),
        (before.driver.state, &before.driver.flags)
    );
    assert_eq!(waits.driver.spi_buf, before.driver.spi_buf);
    assert!(waits.area == before.area && waits.driver.under_way.is_none());
    run(&mut session, &b"resume\n"[..], &mut Vec::new()).expect("memory does not fail");
    assert!(*session.now() == before);
}
