//! Counts the resumed transfers whose command bytes were altered in the pool while they waited.

use super::group::{Group, named};
use crate::action::Kind;
use crate::answer::Answer;
use crate::area::{BUFFER, SPI_BUF, SPI_TX};
use crate::line::{Call, Line};
use crate::model::driver::{Driver, Waiting};
use crate::outcome::Outcome;

/// By the kind and the byte; a frame read has one command byte.
const SORTS: [&str; 7] = [
    "register read, first",
    "second",
    "register write, first",
    "second",
    "frame read, first",
    "frame write, first",
    "second",
];
const COMMANDS: [u8; 2] = [0x20, 0x60];

#[derive(Default)]
pub struct Altered {
    counts: [u64; SORTS.len()],
    /// Whether each command byte is now another than the one that will be written.
    now: [bool; 2],
}

impl Altered {
    pub fn note(&mut self, before: &Driver, line: &Line, outcome: Option<&Outcome>) {
        let done = outcome.is_some_and(|outcome| outcome.answer == Answer::Done);
        match (line, &before.waiting) {
            (Line::Pool { at, bytes }, Some(waiting)) => {
                let (buffer, command) = written(before, waiting);
                for (place, byte) in command.iter().enumerate() {
                    let here = (buffer * BUFFER + place).checked_sub(*at);
                    let given = here.and_then(|here| bytes.get(here));
                    self.now[place] = given.map_or(self.now[place], |given| given != byte);
                }
            }
            (Line::Call(Call::Resume), Some(waiting)) if done => self.resumed(waiting.kind),
            (Line::Back | Line::Call(Call::New { .. }), _) => self.now = [false; 2],
            _ => {}
        }
    }

    fn resumed(&mut self, kind: Kind) {
        let first = [0, 2, 4, 5][kind as usize - 1];
        let second = if kind == Kind::FrameRead { 0 } else { 1 };
        self.counts[first] += u64::from(self.now[0]);
        self.counts[first + second] += u64::from(self.now[1]);
        self.now = [false; 2];
    }

    pub fn group(&self) -> Group {
        let sorts = named(SORTS, self.counts);
        ("resumed after a command byte was altered", sorts)
    }
}

/// Where the command bytes of a waiting transfer stand, and what a resume writes there.
fn written(driver: &Driver, waiting: &Waiting) -> (usize, Vec<u8>) {
    match waiting.kind {
        Kind::RegisterRead | Kind::RegisterWrite => (SPI_TX, waiting.command.to_vec()),
        Kind::FrameRead => (SPI_BUF, vec![COMMANDS[0]]),
        Kind::FrameWrite => {
            let lent = driver.tx_buf.expect("a waiting frame has its buffer");
            (lent.buffer, vec![COMMANDS[1], driver.tx_len])
        }
    }
}
