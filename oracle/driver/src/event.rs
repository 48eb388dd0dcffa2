//! Events as coverage counts them: a call, told apart by whether a transfer is under
//! way and by whether it is accepted; and which of them no state can meet.

use std::fmt;

use crate::answer::Answer;
use crate::line::Call;
use crate::view::View;

pub const STATES: u8 = 69;

/// An event at a state.
#[derive(Clone, Copy, Debug, PartialEq, Eq, PartialOrd, Ord)]
pub enum Event {
    /// A completion; `interrupt`: of the read that looks at an interrupt.
    Completion { interrupt: bool },
    /// Any other call, while a transfer is under way or not.
    Other { call: Other, busy: bool },
}

#[derive(Clone, Copy, Debug, PartialEq, Eq, PartialOrd, Ord)]
pub enum Other {
    Start,
    Stop,
    Commit,
    Fired,
    Transmit,
    RefusedTransmit,
    ReceiveBuffer,
    Reset,
    RefusedReset,
}

impl Other {
    const ALL: [Other; 9] = [
        Other::Start,
        Other::Stop,
        Other::Commit,
        Other::Fired,
        Other::Transmit,
        Other::RefusedTransmit,
        Other::ReceiveBuffer,
        Other::Reset,
        Other::RefusedReset,
    ];

    fn name(self) -> &'static str {
        match self {
            Other::Start => "start",
            Other::Stop => "stop",
            Other::Commit => "config_commit",
            Other::Fired => "fired",
            Other::Transmit => "transmit, accepted",
            Other::RefusedTransmit => "transmit, refused",
            Other::ReceiveBuffer => "set_receive_buffer",
            Other::Reset => "reset 1",
            Other::RefusedReset => "reset 0",
        }
    }
}

impl fmt::Display for Event {
    fn fmt(&self, f: &mut fmt::Formatter) -> fmt::Result {
        match self {
            Event::Completion { interrupt: false } => f.write_str("read_write_done"),
            Event::Completion { interrupt: true } => f.write_str("read_write_done, interrupt"),
            Event::Other { call, busy: true } => write!(f, "{}, transfer", call.name()),
            Event::Other { call, busy: false } => f.write_str(call.name()),
        }
    }
}

impl Event {
    /// All sorts of event.
    pub fn all() -> impl Iterator<Item = Event> {
        let completions = [false, true].map(|interrupt| Event::Completion { interrupt });
        let others = Other::ALL.into_iter().flat_map(|call| {
            let other = move |busy| Event::Other { call, busy };
            [false, true].map(other)
        });
        completions.into_iter().chain(others)
    }

    /// The event that a call is; calls that only set or look are none.
    pub fn of(before: &View, call: &Call, answer: Answer) -> Option<Event> {
        let done = answer == Answer::Done;
        let call = match call {
            Call::ReadWriteDone(_) => {
                let interrupt = before.image.flags.interrupt_handling;
                return Some(Event::Completion { interrupt });
            }
            Call::Start => Other::Start,
            Call::Stop => Other::Stop,
            Call::ConfigCommit => Other::Commit,
            Call::Fired => Other::Fired,
            Call::Transmit { .. } if done => Other::Transmit,
            Call::Transmit { .. } => Other::RefusedTransmit,
            Call::SetReceiveBuffer { .. } => Other::ReceiveBuffer,
            Call::Reset { configured: true } => Other::Reset,
            Call::Reset { configured: false } => Other::RefusedReset,
            _ => return None,
        };
        let busy = before.under_way.is_some();
        Some(Event::Other { call, busy })
    }

    /// Why no driver of the domain meets the event in this state, where that is so.
    pub fn ruled_out(self, state: u8) -> Option<&'static str> {
        if let Some(reason) = never_at_rest(state) {
            return Some(reason);
        }
        match self {
            Event::Completion { interrupt } => completion_ruled_out(state, interrupt),
            Event::Other { call, busy } => busy_ruled_out(state, busy).or(call.ruled_out(state)),
        }
    }

    /// Whether the event needs a buffer that a client lends.
    pub fn lends(self) -> bool {
        let lending = [
            Other::Transmit,
            Other::RefusedTransmit,
            Other::ReceiveBuffer,
        ];
        matches!(self, Event::Other { call, .. } if lending.contains(&call))
    }
}

/// States that are passed through inside one call.
pub fn never_at_rest(state: u8) -> Option<&'static str> {
    match state {
        62 | 66 => Some("a pending interrupt is put off here, so the same step goes on"),
        _ => None,
    }
}

/// States that need a buffer that a client lends.
pub fn needs_lending(state: u8) -> bool {
    matches!(state, 33..=44 | 62..=68)
}

fn completion_ruled_out(state: u8, interrupt: bool) -> Option<&'static str> {
    match (state, interrupt) {
        (59, _) => Some("no transfer is under way in RX"),
        (64, true) => Some("the domain ends with an interrupt's detour here"),
        (28 | 31 | 35 | 42 | 44 | 61 | 64, false) => {
            Some("here only an interrupt's read can be under way")
        }
        (34 | 63 | 65, true) => Some("a frame transfer is under way"),
        (60 | 67, true) => Some("a pending interrupt is put off here"),
        _ => None,
    }
}

fn busy_ruled_out(state: u8, busy: bool) -> Option<&'static str> {
    match (state, busy) {
        (59, true) => Some("no transfer is under way in RX"),
        (0 | 27 | 29 | 31 | 40 | 44 | 59 | 61, false) => None,
        (_, false) => Some("here a transfer is always under way"),
        _ => None,
    }
}

impl Other {
    fn ruled_out(self, state: u8) -> Option<&'static str> {
        match (self, state) {
            (Other::Transmit | Other::RefusedTransmit, 34) => {
                Some("the domain has no transmit during a frame write")
            }
            (Other::Transmit, 0..=28 | 30..=32) => Some("the radio is off"),
            (Other::Transmit, 33..=44) => Some("a transmit buffer is held"),
            (Other::ReceiveBuffer, 63..=65 | 67 | 68) => {
                Some("a receive buffer is held: the domain has no second one lent")
            }
            _ => None,
        }
    }
}
