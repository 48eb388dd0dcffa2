//! Request 2026-13: the length is held from the length read over any interrupt, and a second
//! length byte that differs spoils the reception: steps worked out by hand.

use oracle::model::Session;
use oracle::run::run;
use oracle::trace::reader::{blocks, read};
use oracle::trace::run::traced;

use super::{READY, answered, frame, lent, received, yielded};

/// From READY to the length read, whose end is next.
const READING: &str = "fired\nread_write_done 0 12\n";
/// From the frame read's end to READY: PHY_RSSI with a valid CRC, RX_AACK_ON, TRX_STATUS.
const REST: &str = "read_write_done 0 128\nread_write_done 0 0\nread_write_done 22 0\n";
const ABSENT: &str = "set_receive_client 0\n";
const PRESENT: &str = "set_receive_client 1\n";

/// From READY to the frame read of a length, whose end is next.
fn reading_out(length: u8) -> String {
    format!("{READING}read_write_done 0 {length}\n")
}

/// What the calls of a script yield after those before it: answer and states, the transfer
/// up to its first byte, the actions.
fn told(before: &str, script: &str) -> Vec<String> {
    yielded(before, script, shortened)
}

fn shortened(line: &str) -> String {
    let mut words: Vec<&str> = line.split(' ').collect();
    if line.starts_with("transfer") {
        words.truncate(5);
    } else if line.starts_with(|c: char| c.is_ascii_digit()) {
        words.remove(0);
    }
    words.join(" ")
}

/// READY with these receive buffers, of 160 bytes each, and the listener present.
fn ready(buffers: &[u8]) -> String {
    format!("{READY}{PRESENT}{}", lent(buffers))
}

/// What follows the end of the length read, or of its detour, from this state.
fn read_out(state: u8, length: u8) -> [String; 2] {
    match length {
        11..=127 => [
            format!("0 {state} 65"),
            format!("transfer 3 {} 160 32", u16::from(length) + 2),
        ],
        _ => [format!("0 {state} 29"), "transfer 1 2 2 129".to_string()],
    }
}

#[test]
fn the_length_read_decides_without_a_detour() {
    let before = ready(&[7]) + READING;
    for length in [0, 1, 10, 11, 12, 126, 127, 128, 255] {
        let said = told(&before, &format!("read_write_done 0 {length}\n"));
        assert_eq!(said, read_out(63, length), "{length}");
    }
}

/// What IRQ_STATUS may show without bit 2; 11, 16, 64, 96 and 123 would be lengths.
const WITHOUT_BIT_2: [u8; 12] = [0, 1, 8, 9, 10, 11, 16, 64, 96, 123, 128, 251];

#[test]
fn the_length_read_decides_over_a_detour() {
    for length in [0, 10, 11, 20, 127, 128, 255] {
        let first = format!("fired\nread_write_done 0 {length}\n");
        let before = ready(&[7]) + READING;
        let detour = ["0 63 63", "0 63 64", "transfer 1 2 2 143"];
        assert_eq!(told(&before, &first), detour, "{length}");
        for shown in WITHOUT_BIT_2 {
            let said = told(
                &(before.clone() + &first),
                &format!("read_write_done 0 {shown}\n"),
            );
            assert_eq!(said, read_out(64, length), "{length}, {shown}");
        }
    }
}

#[test]
fn the_length_read_decides_over_two_detours() {
    let before = ready(&[7]) + READING + "fired\nread_write_done 0 20\nfired\n";
    let said = told(&before, "read_write_done 0 64\nread_write_done 0 11\n");
    assert_eq!(
        said,
        [
            "0 64 64",
            "transfer 1 2 2 143",
            "0 64 65",
            "transfer 3 22 160 32"
        ]
    );
}

#[test]
fn a_detour_that_shows_bit_2_leads_to_another_frame() {
    for length in [10, 20] {
        let first = format!("fired\nread_write_done 0 {length}\n");
        let before = ready(&[7]) + READING + &first;
        // 20 and 119 would be lengths.
        for shown in [4, 5, 20, 119] {
            let said = told(&before, &format!("read_write_done 0 {shown}\n"));
            assert_eq!(said, ["0 64 59"], "{length}, {shown}");
        }
        // With bit 3 too the length is read anew, and held in place of the other.
        for shown in [12, 13, 127, 255] {
            let script = format!("read_write_done 0 {shown}\nread_write_done 0 30\n");
            let said = told(&before, &script);
            let anew = [
                "0 64 63",
                "transfer 3 2 160 32",
                "0 63 65",
                "transfer 3 32 160 32",
            ];
            assert_eq!(said, anew, "{length}, {shown}");
        }
    }
}

#[test]
fn the_notice_gives_the_held_length_less_2() {
    for (length, said) in [
        (11, "received 7 9 1"),
        (20, "received 7 18 1"),
        (127, "received 7 125 1"),
    ] {
        assert_eq!(received(&(lent(&[7]) + &frame(length, length))), [said]);
        // Over a detour whose value would be a length, and which is none of the bytes.
        let detour = format!("{READING}fired\nread_write_done 0 {length}\nread_write_done 0 64\n");
        let second = format!("read_write_done 0 {length}\n");
        assert_eq!(received(&(lent(&[7]) + &detour + &second + REST)), [said]);
    }
    // The CRC is as the radio said.
    let wrong = frame(20, 20).replace("0 128\n", "0 127\n");
    assert_eq!(received(&(lent(&[7]) + &wrong)), ["received 7 18 0"]);
}

#[test]
fn the_notice_is_not_read_from_the_pool() {
    // Byte 1 of buffer 7, before PHY_RSSI is read and in the step before the notice.
    for place in ["0 128\n", "194 0\n"] {
        let changed = frame(20, 20).replace(
            "read_write_done 0 128\nread_write_done 0 0\n",
            "read_write_done 0 128\nread_write_done 194 0\n",
        );
        let changed = changed.replace(place, &format!("{place}pool 1121 50\n"));
        assert_eq!(received(&(lent(&[7]) + &changed)), ["received 7 18 1"]);
    }
    // Nor does the pool mend what is spoiled.
    let spoiled = frame(20, 21).replace("0 128\n", "0 128\npool 1121 20\n");
    assert!(received(&(lent(&[7]) + &spoiled)).is_empty());
}

/// From the frame read's end to READY, without a notice.
const ENDING: [&str; 6] = [
    "0 65 67",
    "transfer 1 2 2 134",
    "0 67 68",
    "transfer 2 2 2 194",
    "0 68 29",
    "transfer 1 2 2 129",
];

#[test]
fn exactly_a_second_byte_that_differs_spoils() {
    let before = ready(&[7, 3]) + &reading_out(20);
    let rest = "read_write_done 0 128\nread_write_done 0 0\n";
    for second in 0..=255u8 {
        let said = told(&before, &format!("read_write_done 0 {second}\n{rest}"));
        let mut expected = ENDING.to_vec();
        if second == 20 {
            expected.push("received 7 18 1");
        }
        assert_eq!(said, expected, "{second}");
    }
}

#[test]
fn a_value_of_the_detour_is_no_second_byte() {
    // 64 was shown in 64; the frame of 20 that then says 64 is spoiled.
    let detour = format!("{READING}fired\nread_write_done 0 20\nread_write_done 0 64\n");
    let frame = format!("{detour}read_write_done 0 64\n{REST}");
    assert!(received(&(lent(&[7]) + &frame)).is_empty());
}

#[test]
fn a_spoiled_reception_leaves_the_front_to_the_next() {
    for second in [0, 1, 19, 21, 255] {
        let spoiled = frame(20, second);
        for before in [
            spoiled.clone(),
            format!("{ABSENT}{spoiled}{PRESENT}"),
            format!("{spoiled}{ABSENT}{spoiled}{PRESENT}{spoiled}"),
            // A frame that is not read out comes between.
            format!("{spoiled}{}read_write_done 22 0\n", reading_out(10)),
        ] {
            let frames = frame(30, 30) + &frame(31, 31);
            let said = received(&(lent(&[7, 3]) + &before + &frames));
            assert_eq!(said, ["received 7 28 1", "received 3 29 1"], "{second}");
        }
        // The next frame read takes the same buffer, though another is there.
        let (_, output) = answered(&(ready(&[7, 3]) + &spoiled + READING));
        assert!(output.ends_with("record 0 0 0 3 0 0 0 4 0 0 0 0 0 0 0 0 1 1 4\n"));
    }
}

#[test]
fn without_a_listener_only_a_whole_frame_turns_the_line() {
    let frames = [30, 31, 32].map(|length| frame(length, length)).concat();
    let (whole, spoiled) = (frame(20, 20), frame(20, 19));
    for (absent, order) in [
        (whole.clone(), [3, 9, 7]),
        (spoiled.clone(), [7, 3, 9]),
        (format!("{whole}{spoiled}"), [3, 9, 7]),
        (format!("{spoiled}{whole}{spoiled}{whole}"), [9, 7, 3]),
    ] {
        let script = lent(&[7, 3, 9]) + ABSENT + &absent + PRESENT + &frames;
        let expected = [0, 1, 2].map(|place| format!("received {} {} 1", order[place], 28 + place));
        assert_eq!(received(&script), expected);
    }
}

#[test]
fn a_send_that_waits_goes_on_after_a_spoiled_reception() {
    let before = ready(&[7]) + &reading_out(20);
    let said = told(
        &before,
        "transmit 3 160 5\nread_write_done 0 21\nread_write_done 0 128\nread_write_done 0 0\n",
    );
    let mut expected = vec!["0 65 65"];
    expected.extend(ENDING);
    expected[5] = "0 68 33";
    assert_eq!(said, expected);
}

#[test]
fn the_flags_are_those_of_a_whole_frame() {
    for (rssi, valid) in [(128, true), (127, false)] {
        let left = [20, 21].map(|second| {
            let frame = format!("{}stop\nread_write_done 0 {second}\n", reading_out(20));
            let rest = format!("read_write_done 0 {rssi}\nread_write_done 0 0\n");
            let script = ready(&[7]) + &frame + &rest;
            let mut session = Session::default();
            run(&mut session, script.as_bytes(), &mut Vec::new()).expect("memory does not fail");
            session.now().driver.flags.clone()
        });
        assert_eq!(left[0], left[1]);
        assert!(!left[1].sleep_pending && !left[1].receiving);
        assert_eq!(left[1].crc_valid, valid);
    }
}

#[test]
fn the_mark_is_kept_over_an_interrupt_until_68() {
    // Handled in 68, it shows nothing: the case of 68 follows.
    let script = |second: u8| {
        format!(
            "{}read_write_done 0 {second}\nfired\nread_write_done 0 128\n\
             read_write_done 0 0\nread_write_done 0 0\nread_write_done 22 0\n",
            reading_out(20)
        )
    };
    assert_eq!(received(&(lent(&[7]) + &script(20))), ["received 7 18 1"]);
    assert!(received(&(lent(&[7]) + &script(21))).is_empty());
    // It shows bit 2: the next frame is spoiled or not by its own bytes.
    let away = |second: u8| {
        script(second).replace(
            "read_write_done 0 0\nread_write_done 0 0\nread_write_done 22 0\n",
            "read_write_done 0 0\nread_write_done 0 12\n",
        )
    };
    for second in [20, 21] {
        let next = |byte: u8| format!("read_write_done 0 30\nread_write_done 0 {byte}\n{REST}");
        let whole = received(&(lent(&[7]) + &away(second) + &next(30)));
        assert_eq!(whole, ["received 7 28 1"]);
        assert!(received(&(lent(&[7]) + &away(second) + &next(31))).is_empty());
    }
}

#[test]
fn a_spoiled_reception_leaves_these_records() {
    let script =
        ready(&[7]) + &reading_out(20) + &REST.replacen("read", "read_write_done 0 21\nread", 1);
    let trace = traced(&mut Session::default(), &script).expect("the model goes on");
    let block = blocks(&trace).next().expect("a block");
    let records = read(block).expect("the block is accepted");
    // No notice stands in the record of 68's completion.
    assert_eq!(
        records[records.len() - 4..],
        [
            [1, 65, 67, 0, 0, 21, 1, 0x86, 0, 2, 2, 0, 0, 0, 0x09, 0],
            [1, 67, 68, 0, 0, 128, 2, 0xC2, 22, 2, 2, 0, 0, 0, 0x09, 0],
            [1, 68, 29, 0, 0, 0, 1, 0x81, 0, 2, 2, 0, 0, 0, 0x09, 0],
            [1, 29, 29, 0, 22, 0, 0, 0, 0, 0, 0, 0, 0, 0, 0x01, 0],
        ]
    );
}
