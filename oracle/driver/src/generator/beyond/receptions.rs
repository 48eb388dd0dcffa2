//! Counts what the scripts have met of the receptions: how they end, and what request 2026-13
//! speaks of, the interrupt's detours in 64, the second length bytes, the spoiled receptions.

use std::fmt;

use super::group::{self, Group};
use crate::action::Action;
use crate::answer::Answer;
use crate::line::{Call, Line};
use crate::model::driver::{Driver, MOST_RECEIVE};
use crate::outcome::Outcome;

const RX_READING_FRAME_LEN_DONE: u8 = 64;
const RX_READING_FRAME: u8 = 65;
/// The state whose case ends a reception, and those that it enters.
const RX_ENABLING_RECEPTION: u8 = 68;
const AFTER_A_RECEPTION: [u8; 2] = [29, 33];

/// Frame lengths that are read out.
const LENGTHS: std::ops::RangeInclusive<u8> = 11..=127;
/// The second length bytes beside the held length.
const SECONDS: [&str; 7] = ["equal", "one less", "one more", "0", "1", "255", "other"];

#[derive(Default)]
pub struct Receptions {
    received: u64,
    /// Frames that nobody was told of: the buffer went to the end of the line.
    turned: u64,
    /// By whether the held length is read out, whether the value that the detour shows would
    /// be, and the bits 0, 2 and 3 of that.
    detours: [[[u64; 8]; 2]; 2],
    seconds: [u64; SECONDS.len()],
    /// By whether a listener is there, and by the buffers in the line.
    spoiled: [[u64; MOST_RECEIVE]; 2],
    with_send: u64,
    with_stop: u64,
    /// The buffer of a spoiled reception was announced with a later frame.
    announced_later: u64,
    /// The buffer that the last reception left in front because it was spoiled.
    left: Option<usize>,
}

impl Receptions {
    /// Takes note of one line.
    pub fn note(&mut self, before: &Driver, line: &Line, outcome: Option<&Outcome>) {
        match (line, outcome) {
            (Line::Back | Line::Call(Call::New { .. }), _) => self.left = None,
            (Line::Call(Call::ReadWriteDone(arrived)), Some(outcome))
                if outcome.answer == Answer::Done =>
            {
                self.completion(before, arrived[1], outcome);
            }
            _ => {}
        }
    }

    fn completion(&mut self, before: &Driver, byte: u8, outcome: &Outcome) {
        let held_length = before.reception.held_length;
        match before.state {
            RX_READING_FRAME_LEN_DONE if before.flags.interrupt_handling => {
                let read_out = usize::from(LENGTHS.contains(&held_length));
                let would_be = usize::from(LENGTHS.contains(&byte));
                self.detours[read_out][would_be][bits(byte)] += 1;
            }
            RX_READING_FRAME => self.seconds[second(held_length, byte)] += 1,
            RX_ENABLING_RECEPTION if AFTER_A_RECEPTION.contains(&outcome.to) => {
                self.end(before, outcome);
            }
            _ => {}
        }
    }

    /// A reception ends: announced, turned or spoiled.
    fn end(&mut self, before: &Driver, outcome: &Outcome) {
        let received = |action: &Action| matches!(action, Action::Received { .. });
        let front = before.line.first().map(|lent| lent.buffer);
        if before.reception.spoiled {
            let listener = usize::from(before.listeners.receive);
            self.spoiled[listener][before.line.len() - 1] += 1;
            self.with_send += u64::from(before.flags.transmitting);
            self.with_stop += u64::from(before.flags.sleep_pending);
            self.left = front;
            return;
        }
        if outcome.actions.iter().any(received) {
            self.received += 1;
            self.announced_later += u64::from(front == self.left);
        } else {
            self.turned += 1;
        }
        self.left = None;
    }

    /// All that is counted of request 2026-13.
    fn groups(&self) -> Vec<Group> {
        let detours = |read_out: usize, would_be: usize| {
            let counts = self.detours[read_out][would_be];
            let named = (0..8).map(|bits| format!("{}{}{}", bits >> 2, bits >> 1 & 1, bits & 1));
            named.zip(counts).collect()
        };
        let seconds = SECONDS.map(str::to_string).into_iter().zip(self.seconds);
        let spoiled = |listener: usize| {
            let held = (1..=MOST_RECEIVE).map(|held| held.to_string());
            held.zip(self.spoiled[listener]).collect()
        };
        let counted = |name: &str, count| (name.to_string(), count);
        vec![
            ("detours with a length held and shown", detours(1, 1)),
            ("with a length held only", detours(1, 0)),
            ("with a length shown only", detours(0, 1)),
            ("with none", detours(0, 0)),
            ("second length bytes", seconds.collect()),
            ("spoiled with a listener and buffers", spoiled(1)),
            ("without a listener", spoiled(0)),
            (
                "of the spoiled",
                vec![
                    counted("with a send waiting", self.with_send),
                    counted("with a stop waiting", self.with_stop),
                    counted("their buffer announced by the next", self.announced_later),
                ],
            ),
        ]
    }

    /// What was not met.
    pub fn unmet(&self) -> Vec<String> {
        group::unmet(self.groups())
    }

    /// How many receptions have ended, and how many of them were announced.
    pub fn ended(&self) -> (u64, u64) {
        let spoiled: u64 = self.spoiled.as_flattened().iter().sum();
        (self.received + self.turned + spoiled, self.received)
    }
}

/// The bits 0, 2 and 3, as a number of three digits.
fn bits(shown: u8) -> usize {
    let bit = |place: u8| usize::from(shown >> place & 1);
    bit(0) << 2 | bit(2) << 1 | bit(3)
}

/// Which of `SECONDS` a second length byte is.
fn second(held_length: u8, byte: u8) -> usize {
    match byte {
        _ if byte == held_length => 0,
        _ if byte == held_length - 1 => 1,
        _ if byte == held_length + 1 => 2,
        0 => 3,
        1 => 4,
        255 => 5,
        _ => 6,
    }
}

impl fmt::Display for Receptions {
    fn fmt(&self, f: &mut fmt::Formatter) -> fmt::Result {
        let (ended, _) = self.ended();
        let (received, turned) = (self.received, self.turned);
        let spoiled = ended - received - turned;
        write!(
            f,
            "{ended} receptions ended, {received} of them announced, {turned} turned to the \
             end of the line, {spoiled} spoiled"
        )?;
        group::shown(f, self.groups())
    }
}
