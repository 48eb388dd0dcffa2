//! The startup count of request 2026-04, on the Rust: from a new driver, READY with the
//! radio on after exactly 30 completions if the status that arrives with the first
//! TRX_STATUS read is 0, after exactly 29 if not, whatever the other bytes, the settings
//! and the refused calls are. A reset before `start`, which the request leaves out, changes
//! nothing here.

use oracle::random::Random;
use oracle::run::{End, run};
use oracle::session::Session;

/// When the PLL's interrupt comes.
#[derive(Clone, Copy, PartialEq)]
enum Firing {
    DuringTheWrite,
    AfterTheWrite,
}

/// Before `start`: the power listener, and a few settings, or a reset, or none.
fn before(random: &mut Random) -> String {
    let mut lines = "set_power_client 1\n".to_string();
    while random.percent(60) {
        lines += &match random.within(0, 8) {
            0 => format!("set_address {}\n", random.within(0, 65535)),
            1 => format!("set_pan {}\n", random.within(0, 65535)),
            2 => format!("set_channel {}\n", random.within(11, 26)),
            3 => format!("set_tx_power {}\n", random.within(0, 30) as i64 - 22),
            4 => "set_transmit_client 1\n".to_string(),
            5 => "set_receive_client 1\n".to_string(),
            6 => "set_config_client 1\n".to_string(),
            7 => "set_config_client 0\n".to_string(),
            _ => "reset 1\n".to_string(),
        };
    }
    lines
}

/// Now and then a call that is refused, wherever the startup stands after START.
fn refused(random: &mut Random) -> &'static str {
    match random.within(0, 9) {
        0 => "start\n",
        1 => "transmit 0 160 20\n",
        2 => "set_tx_power 5\n",
        _ => "",
    }
}

/// A startup of so many completions whose third brings this first byte.
fn startup(first: u8, firing: Firing, count: usize, random: &mut Random) -> String {
    let mut lines = before(random) + "start\n";
    for number in 1..=count {
        // The last three end the PLL_ON write, the read of IRQ_STATUS and READY's write.
        if number == count - 2 && firing == Firing::DuringTheWrite {
            lines += "fired\n";
        }
        if number == count - 1 && firing == Firing::AfterTheWrite {
            lines += "fired\n";
        }
        let status = if number == 3 { first } else { random.byte() };
        let lock = if number == count - 1 {
            (random.byte() | 1) & !4
        } else {
            random.byte()
        };
        lines += &format!("read_write_done {status} {lock}\n");
        if number < count {
            lines += refused(random);
        }
    }
    lines
}

fn answered(script: &str) -> (End, String) {
    let mut session = Session::new(false);
    let mut output = Vec::new();
    let end = run(&mut session, script.as_bytes(), &mut output).expect("memory does not fail");
    (end, String::from_utf8(output).expect("the output is ASCII"))
}

/// The radio is on, and the power listener told so, with the last completion of the script
/// and with none before, in READY and with no transfer begun.
fn ready_at_the_end(script: &str) {
    let (end, output) = answered(script);
    assert_eq!(end, End::Complete, "{script}{output}");
    let shown = output.split("book").next().expect("a book");
    assert!(shown.ends_with(" 0 29 29\npower 1\n"), "{script}{output}");
    assert_eq!(shown.matches("power").count(), 1, "{script}{output}");
}

/// A further completion is 11.
fn over(script: &str) {
    let (end, output) = answered(&(script.to_string() + "read_write_done 0 0\n"));
    assert_eq!(end, End::Outside, "{script}{output}");
    assert!(
        output.ends_with("11 IDLE is an added refusal\n"),
        "{script}{output}"
    );
}

#[test]
fn exactly_30_or_29_completions() {
    let mut random = Random::new(4);
    for first in 0..=255u8 {
        let count = if first & 0x1F == 0 { 30 } else { 29 };
        for firing in [Firing::DuringTheWrite, Firing::AfterTheWrite] {
            for _ in 0..4 {
                let script = startup(first, firing, count, &mut random);
                ready_at_the_end(&script);
                over(&script);
            }
        }
    }
}
