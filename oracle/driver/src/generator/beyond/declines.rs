//! Counts what the scripts have met of request 2026-05: what was declined and resumed, what
//! came while a transfer waited, and why a decline or a resume was refused.

use std::collections::BTreeMap;
use std::fmt;

use super::group::{self, Group, named};
use super::pool_bytes::Altered;
use crate::action::Kind;
use crate::answer::Answer;
use crate::line::{Call, Line};
use crate::model::driver::Driver;
use crate::outcome::Outcome;

const KINDS: [&str; 4] = [
    "register read",
    "register write",
    "frame read",
    "frame write",
];
/// Lines while one waits, as `meanwhile` numbers them.
const MEANWHILE: [&str; 16] = [
    "start",
    "stop",
    "config_commit",
    "fired",
    "read_write_done",
    "declined",
    "transmit",
    "set_receive_buffer",
    "reset",
    "new",
    "setting",
    "listener",
    "query",
    "pool",
    "pool_length",
    "mark or back",
];
/// Accepted calls that change what the resumed transfer completes as.
const CHANGES: [&str; 5] = [
    "start in 31",
    "stop in 27",
    "stop in 29",
    "transmit in 29",
    "config_commit in 29",
];
/// Why calls were refused.
const CAUSES: [&str; 13] = [
    "declined 11, nothing",
    "declined 11, one waits",
    "declined 12",
    "read_write_done 11, one waits",
    "resume 22, nothing",
    "resume 22, one under way",
    "resume 12, one waits",
    "resume 12, none waits",
    "another call 12, one waits",
    "transmit 2, a frame write waits",
    "the same after a reset",
    "lending 8, one waits",
    "lending 10, a frame read waits",
];

/// The cause that comes once more after a reset.
const BUSY_WITH_ITS_FRAME: usize = 9;

#[derive(Default)]
pub struct Declines {
    /// By kind: declines, those of a transfer that was declined before, resumes.
    declined: [u64; KINDS.len()],
    again: [u64; KINDS.len()],
    resumed: [u64; KINDS.len()],
    altered: Altered,
    /// Declines of an interrupt's read, in the detour in 64, with a spoiled reception.
    interrupts: [u64; 3],
    states: BTreeMap<u8, u64>,
    meanwhile: [u64; MEANWHILE.len()],
    changes: [u64; CHANGES.len()],
    causes: [u64; CAUSES.len()],
    /// Resumed transfers that ended, by whether an interrupt came while they waited.
    ended: [u64; 2],
    /// Whether the transfer under way or waiting was declined before, and whether an interrupt
    /// came meanwhile.
    before: bool,
    interrupted: bool,
}

impl Declines {
    /// Takes note of one line.
    pub fn note(&mut self, before: &Driver, line: &Line, outcome: Option<&Outcome>) {
        self.altered.note(before, line, outcome);
        if before.waiting.is_some() {
            let place = meanwhile(line);
            place
                .into_iter()
                .for_each(|place| self.meanwhile[place] += 1);
        }
        match (line, outcome) {
            (Line::Back | Line::Call(Call::New { .. }), _) => self.forget(),
            (Line::Call(call), Some(outcome)) if outcome.answer == Answer::Done => {
                self.accepted(before, call);
            }
            (Line::Call(call), Some(outcome)) => self.refused(before, call, outcome.answer),
            _ => {}
        }
    }

    fn refused(&mut self, before: &Driver, call: &Call, answer: Answer) {
        let Some(cause) = cause(before, call, answer) else {
            return;
        };
        self.causes[cause] += 1;
        if cause == BUSY_WITH_ITS_FRAME && !before.flags.transmitting {
            self.causes[cause + 1] += 1;
        }
    }

    fn forget(&mut self) {
        (self.before, self.interrupted) = (false, false);
    }

    fn accepted(&mut self, before: &Driver, call: &Call) {
        let kind = |kind: Kind| kind as usize - 1;
        match (call, before.kind(), &before.waiting) {
            (Call::Declined, Some(under_way), _) => self.decline(before, kind(under_way)),
            (Call::Resume, _, Some(waiting)) => self.resumed[kind(waiting.kind)] += 1,
            (Call::ReadWriteDone(_), ..) => {
                if self.before {
                    self.ended[usize::from(self.interrupted)] += 1;
                }
                self.forget();
            }
            (_, _, Some(_)) => {
                self.interrupted |= *call == Call::Fired;
                let change = change(before.state, call);
                change
                    .into_iter()
                    .for_each(|change| self.changes[change] += 1);
            }
            _ => {}
        }
    }

    fn decline(&mut self, before: &Driver, kind: usize) {
        self.declined[kind] += 1;
        self.again[kind] += u64::from(self.before);
        self.before = true;
        *self.states.entry(before.state).or_default() += 1;
        let handling = before.flags.interrupt_handling;
        let spoiled = before.reception.spoiled && matches!(before.state, 66..=68);
        let sorts = [handling, handling && before.state == 64, spoiled];
        for (count, is) in self.interrupts.iter_mut().zip(sorts) {
            *count += u64::from(is);
        }
    }

    fn groups(&self) -> Vec<Group> {
        let states = self.states.len().to_string();
        let sorts = ["of an interrupt's read", "in 64", "of a spoiled reception"];
        vec![
            ("declined", named(KINDS, self.declined)),
            ("of these", named(sorts, self.interrupts)),
            ("in states", vec![(states, self.states.values().sum())]),
            ("declined again", named(KINDS, self.again)),
            ("resumed", named(KINDS, self.resumed)),
            self.altered.group(),
            (
                "resumed and ended",
                named(["without an interrupt meanwhile", "with one"], self.ended),
            ),
            ("while one waits", named(MEANWHILE, self.meanwhile)),
            ("that change its end", named(CHANGES, self.changes)),
            ("refused", named(CAUSES, self.causes)),
        ]
    }

    /// What was not met.
    pub fn unmet(&self) -> Vec<String> {
        group::unmet(self.groups())
    }

    /// The states in which a transfer was declined.
    pub fn states(&self) -> impl Iterator<Item = u8> {
        self.states.keys().copied()
    }
}

/// Which of `MEANWHILE` a line is; a resume is counted by itself.
fn meanwhile(line: &Line) -> Option<usize> {
    Some(match line {
        Line::Call(call) => match call {
            Call::Start => 0,
            Call::Stop => 1,
            Call::ConfigCommit => 2,
            Call::Fired => 3,
            Call::ReadWriteDone(_) => 4,
            Call::Declined => 5,
            Call::Transmit { .. } => 6,
            Call::SetReceiveBuffer { .. } => 7,
            Call::Reset { .. } => 8,
            Call::New { .. } => 9,
            Call::SetClient { .. } => 11,
            Call::Query(_) => 12,
            Call::Resume => return None,
            _ => 10,
        },
        Line::Pool { .. } => 13,
        Line::PoolLength(_) => 14,
        Line::Mark | Line::Back => 15,
        Line::Passed(_) => return None,
    })
}

/// Which of `CHANGES` an accepted call is.
fn change(state: u8, call: &Call) -> Option<usize> {
    Some(match (call, state) {
        (Call::Start, 31) => 0,
        (Call::Stop, 27) => 1,
        (Call::Stop, 29) => 2,
        (Call::Transmit { .. }, 29) => 3,
        (Call::ConfigCommit, 29) => 4,
        _ => return None,
    })
}

/// Which of `CAUSES` a refusal has.
fn cause(before: &Driver, call: &Call, answer: Answer) -> Option<usize> {
    let waits = before.waiting.as_ref().map(|waiting| waiting.kind);
    Some(match (call, answer, waits) {
        (Call::Declined, Answer::Idle, None) => 0,
        (Call::Declined, Answer::Idle, Some(_)) => 1,
        (Call::Declined, Answer::Pool, _) => 2,
        (Call::ReadWriteDone(_), Answer::Idle, Some(_)) => 3,
        (Call::Resume, Answer::Nothing, _) if before.under_way.is_none() => 4,
        (Call::Resume, Answer::Nothing, _) => 5,
        (Call::Resume, Answer::Pool, Some(_)) => 6,
        (Call::Resume, Answer::Pool, None) => 7,
        (_, Answer::Pool, Some(_)) => 8,
        (Call::Transmit { .. }, Answer::Busy, Some(Kind::FrameWrite)) => BUSY_WITH_ITS_FRAME,
        (Call::SetReceiveBuffer { .. }, Answer::Held, Some(_)) => 11,
        (Call::SetReceiveBuffer { .. }, Answer::Full, Some(Kind::FrameRead)) => 12,
        _ => return None,
    })
}

impl fmt::Display for Declines {
    fn fmt(&self, f: &mut fmt::Formatter) -> fmt::Result {
        let declined: u64 = self.declined.iter().sum();
        write!(f, "{declined} transfers declined")?;
        group::shown(f, self.groups())
    }
}
