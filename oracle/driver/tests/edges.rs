//! The domain's edges: which lines leave it, what is said there, and what lies past it.

use oracle::run::{End, run};
use oracle::session::Session;

/// Up to READY with the radio on, with a short startup.
fn ready() -> String {
    let startup = "start\n".to_string() + &"read_write_done 8 0\n".repeat(27);
    startup + "fired\nread_write_done 8 1\nread_write_done 8 0\n"
}

fn answered(script: &str, past_domain: bool) -> (End, String) {
    let mut session = Session::new(past_domain);
    let mut output = Vec::new();
    let end = run(&mut session, script.as_bytes(), &mut output).expect("memory does not fail");
    (end, String::from_utf8(output).expect("the output is ASCII"))
}

/// The last line of a run that leaves the domain, without its line number.
fn reason(script: &str) -> String {
    let (end, output) = answered(script, false);
    assert_eq!(end, End::Outside, "{script}{output}");
    let last = output.lines().last().expect("a reason");
    let number = script.lines().count();
    let start = format!("line {number} outside the domain: ");
    last.strip_prefix(&start).expect(last).to_string()
}

#[test]
fn added_refusals_leave_the_domain() {
    let ready = ready();
    for (script, name) in [
        ("new 128 26", "15 NEW"),
        ("new 129 27", "15 NEW"),
        ("set_channel 10", "5 INVAL"),
        ("transmit 16 160 1", "7 HANDLE"),
        ("transmit 0 161 1", "7 HANDLE"),
        ("transmit 0 160 126", "4 LONG"),
        ("set_receive_buffer 1 129\ntransmit 1 160 1", "8 HELD"),
        ("set_receive_buffer 1 128", "9 SHORT"),
        (
            "set_receive_buffer 1 129\nset_receive_buffer 1 129",
            "8 HELD",
        ),
        (
            "set_receive_buffer 1 129\nset_receive_buffer 2 128",
            "9 SHORT",
        ),
        (
            "set_receive_buffer 1 129\nset_receive_buffer 16 129",
            "7 HANDLE",
        ),
        ("transmit 1 160 1\nset_receive_buffer 1 129", "8 HELD"),
        ("read_write_done 0 0", "11 IDLE"),
        ("fired\nread_write_done 0", "13 ARRIVED"),
        ("fired\nread_write_done 0 0 0", "13 ARRIVED"),
        ("pool_length 3039\nstart", "12 POOL"),
    ] {
        let said = reason(&format!("{ready}{script}\n"));
        assert_eq!(said, format!("{name} is an added refusal"), "{script}");
    }
}

#[test]
fn a_refusal_that_comes_first_stays_inside() {
    let ready = ready();
    for (script, answer) in [
        ("transmit 0 160 126".to_string(), 1),
        (format!("{ready}transmit 1 160 1\ntransmit 1 160 126"), 2),
        (format!("{ready}transmit 1 129 125"), 3),
        (format!("{ready}transmit 1 160 18446744073709551611"), 3),
        ("set_tx_power 5".to_string(), 5),
        (format!("{ready}start"), 6),
        ("reset 0".to_string(), 14),
        ("pool_length 0\nreset 1".to_string(), 0),
    ] {
        let (end, output) = answered(&script, false);
        assert_eq!(end, End::Complete, "{script}");
        let mut calls = output
            .lines()
            .filter(|line| line.starts_with(|c: char| c.is_ascii_digit()));
        let last = calls.next_back().expect("a call");
        let said = last.split(' ').nth(1).expect("an answer");
        assert_eq!(said, answer.to_string(), "{script}");
    }
}

#[test]
fn no_byte_that_the_driver_has_is_written_from_outside() {
    let lent = "set_receive_buffer 2 150\n";
    for (at, buffer) in [(320, 2), (469, 2), (2561, 16), (2720, 17), (3008, 18)] {
        let said = reason(&format!("{lent}pool {at} 0\n"));
        assert_eq!(said, format!("the driver has buffer {buffer}"));
    }
    for at in [319, 470, 2562, 2879, 3009, 4095] {
        assert_eq!(
            answered(&format!("{lent}pool {at} 0\n"), false).0,
            End::Complete
        );
    }
}

#[test]
fn a_second_receive_buffer_leaves_the_domain() {
    let ready = ready();
    let reading = "set_receive_buffer 2 160\nfired\nread_write_done 0 12\n";
    for script in ["set_receive_buffer 2 160\n", reading] {
        let script = format!("{ready}{script}set_receive_buffer 3 129\n");
        let said = reason(&script);
        assert_eq!(said, "a receive buffer is lent while the driver has one");
    }
}

/// Up to a frame write from buffer 3.
fn frame_write() -> String {
    ready() + "transmit 3 160 5\nread_write_done 22 0\n"
}

#[test]
fn a_transmit_during_a_frame_write_loses_a_buffer() {
    let script = frame_write() + "reset 1\ntransmit 4 160 5\n";
    assert_eq!(reason(&script), "transmit while a frame write is under way");
    let (end, output) = answered(&(script + "read_write_done 22 0\n"), true);
    assert_eq!(end, End::Complete);
    assert!(output.contains("\nlost 4\n"), "{output}");
}

#[test]
fn a_transmit_length_must_fit_with_four_more() {
    let script = "transmit 0 160 18446744073709551612\n";
    let said = reason(script);
    assert_eq!(said, "the transmit length plus 4 does not fit 64 bits");
}

/// Up to the length read, whose end is next.
fn length_read() -> String {
    let start = ready() + "set_receive_client 1\nset_receive_buffer 2 160\nfired\n";
    start + "read_write_done 0 4\nfired\nread_write_done 0 0\nread_write_done 0 8\n"
}

#[test]
fn an_interrupts_detour_in_64_leaves_the_domain_as_it_ends() {
    let detour = length_read() + "fired\nread_write_done 0 20\n";
    // Up to there, and with any call but its end, the domain goes on.
    for call in [
        "",
        "fired\n",
        "start\n",
        "transmit 3 160 5\n",
        "new 129 26\n",
    ] {
        let (end, output) = answered(&(detour.clone() + call), false);
        assert_eq!(end, End::Complete, "{call}{output}");
    }
    for shown in [0, 4, 8, 12, 20, 64, 255] {
        let script = format!("{detour}read_write_done 0 {shown}\n");
        assert_eq!(reason(&script), "an interrupt's detour in state 64");
    }
    // The added refusals come first.
    let said = reason(&(detour.clone() + "read_write_done 0\n"));
    assert_eq!(said, "13 ARRIVED is an added refusal");
    // Past it, the Rust takes the value for the length.
    let (end, output) = answered(&(detour + "read_write_done 0 64\n"), true);
    assert_eq!(end, End::Complete);
    assert!(
        output.contains(" 0 64 65\ntransfer 3 66 160 32 "),
        "{output}"
    );
}

/// Up to the frame read of 20 bytes, whose end is next.
fn frame_read() -> String {
    length_read() + "read_write_done 0 20\n"
}

const TO_THE_NOTICE: &str = "read_write_done 0 128\nread_write_done 0 0\n";

#[test]
fn a_second_length_byte_that_differs_leaves_the_domain_as_it_arrives() {
    for second in (0..=255).filter(|second| *second != 20) {
        for listener in ["", "set_receive_client 0\n"] {
            let script = format!("{}{listener}read_write_done 0 {second}\n", frame_read());
            let said = reason(&script);
            assert_eq!(said, "the second length byte differs from the first");
        }
    }
    let whole = frame_read() + "read_write_done 0 20\n" + TO_THE_NOTICE;
    let (end, output) = answered(&whole, false);
    assert_eq!(end, End::Complete);
    assert!(output.contains("\nreceived 2 18 1\n"), "{output}");
    // The added refusals come first.
    let said = reason(&(frame_read() + "read_write_done 0\n"));
    assert_eq!(said, "13 ARRIVED is an added refusal");
}

#[test]
fn past_it_the_rust_announces_the_second_length_byte() {
    let announced = |second: u8| {
        let frame = frame_read() + &format!("read_write_done 0 {second}\n");
        answered(&(frame + TO_THE_NOTICE), true)
    };
    for second in [2, 19, 21, 255] {
        let (end, output) = announced(second);
        assert_eq!(end, End::Complete);
        let notice = format!("\nreceived 2 {} 1\n", second - 2);
        assert!(output.contains(&notice), "{output}");
    }
    for second in [0, 1] {
        let (end, output) = announced(second);
        assert_eq!(end, End::Panicked);
        assert!(output.ends_with("\npanic attempt to subtract with overflow\n"));
    }
}

/// What a run yields whose SPI layer may decline.
fn declining(script: &str) -> (End, String) {
    let mut output = Vec::new();
    let end = run(&mut Session::declining(), script.as_bytes(), &mut output);
    let output = String::from_utf8(output).expect("the output is ASCII");
    (end.expect("memory does not fail"), output)
}

#[test]
fn the_rust_loses_both_buffers_of_a_declined_transfer_and_never_goes_on() {
    let reading = length_read();
    let writing = frame_write();
    let stop = ready() + "stop\n";
    for (script, lost, state) in [
        ("start\n", "lost 16\nlost 17\n", 0),
        (&stop, "lost 16\nlost 17\n", 30),
        (&reading, "lost 2\nlost 18\n", 63),
        (&writing, "lost 3\nlost 18\n", 34),
    ] {
        let declined = format!("{script}declined\n");
        let (end, output) = declining(&declined);
        assert_eq!(end, End::Complete);
        let said = format!(" 0 {state} {state}\n{lost}book ");
        assert!(output.contains(&said), "{output}");
        // Whatever is called, no transfer is offered any more, and none can end.
        let calls = "fired\nstart\nstop\nconfig_commit\nreset 1\ntransmit 5 160 5\nfired\n";
        let (end, longer) = declining(&(declined.clone() + calls));
        assert_eq!(end, End::Complete);
        let transfers = |output: &str| output.matches("\ntransfer ").count();
        assert_eq!(transfers(&longer), transfers(&output), "{longer}");
        let (end, _) = declining(&(declined.clone() + "read_write_done 0 0\n"));
        assert_eq!(end, End::Outside);
        let (end, _) = declining(&(declined + "resume\n"));
        assert_eq!(end, End::Outside);
    }
}

#[test]
fn the_rust_is_told_of_a_decline_only_as_it_offers_the_transfer() {
    for script in [
        "declined\n",
        "start\nfired\ndeclined\n",
        "start\nback\ndeclined\n",
        "start\npool 0 1\ndeclined\n",
    ] {
        let (end, output) = declining(script);
        assert_eq!(end, End::Outside);
        let said =
            "outside the domain: the Rust is told of a decline only as it offers the transfer\n";
        assert!(output.ends_with(said), "{output}");
    }
    // Where nothing is declined, such a run is as any other.
    let script = length_read() + "mark\nread_write_done 0 20\nback\nread_write_done 0 11\n";
    assert_eq!(declining(&script), answered(&script, true));
}
