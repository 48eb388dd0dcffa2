//! The domain of comparison: which calls the Rust can be asked so that its answer
//! judges the port, and where the Rust itself could still go on outside it.

use crate::action::Kind;
use crate::answer::Answer;
use crate::area::{BUFFER, CLIENT_BUFFERS, POOL};
use crate::line::{Call, Line};
use crate::view::{Transferring, View};

/// Frame bytes that a transmit's length byte and check sequence add.
const ADDED: u64 = 4;
const LONGEST_FRAME: u64 = 125;
const SHORTEST_RECEIVE: u64 = 129;
const SPI_BUF_LENGTHS: std::ops::RangeInclusive<u64> = 129..=160;
const CHANNELS: std::ops::RangeInclusive<u8> = 11..=26;

/// The states in which request 2026-13 leaves the Rust, which takes IRQ_STATUS for the length
/// in the first, and does not compare what the frame read brings in the second.
const RX_READING_FRAME_LEN_DONE: u8 = 64;
const RX_READING_FRAME: u8 = 65;

/// Said where a declined transfer is not resumed at once: the Rust has no transfer that waits.
const WAITS: &str = "a declined transfer waits";

/// A line that leaves the domain.
pub struct Edge {
    pub reason: String,
    /// Whether the call can be made on the Rust all the same.
    pub passable: bool,
}

/// Whether a call leaves the domain before it is made.
pub fn edge(view: &View, call: &Call) -> Option<Edge> {
    let reason = reason(view, call)?;
    let passable = passable(view, call);
    Some(Edge { reason, passable })
}

fn reason(view: &View, call: &Call) -> Option<String> {
    let answer = answer(view, call);
    if added(call, answer) {
        let name = answer.name();
        return Some(format!("{} {name} is an added refusal", answer as u8));
    }
    if view.waits && *call != Call::Resume {
        return Some(WAITS.into());
    }
    let reason = match call {
        Call::Transmit { .. } if view.kind() == Some(Kind::FrameWrite) => {
            "transmit while a frame write is under way"
        }
        Call::Transmit { n, .. } if n.checked_add(ADDED).is_none() => {
            "the transmit length plus 4 does not fit 64 bits"
        }
        Call::SetReceiveBuffer { .. } if receives(view) => {
            "a receive buffer is lent while the driver has one"
        }
        Call::ReadWriteDone(_) if detour(view) => "an interrupt's detour in state 64",
        Call::ReadWriteDone(arrived) if spoils(view, arrived) => {
            "the second length byte differs from the first"
        }
        _ => return None,
    };
    Some(reason.into())
}

/// Whether a receive buffer is held or under way.
fn receives(view: &View) -> bool {
    view.image.cells.rx_buf.is_some() || view.kind() == Some(Kind::FrameRead)
}

/// Whether an interrupt's IRQ_STATUS read is under way between the length read and the frame
/// read.
fn detour(view: &View) -> bool {
    view.state() == RX_READING_FRAME_LEN_DONE && view.image.flags.interrupt_handling
}

/// Whether a frame read ends here with another length byte than the one that it was begun
/// with.
fn spoils(view: &View, arrived: &[u8]) -> bool {
    let second = arrived.get(1).copied();
    second_length(view).is_some_and(|length| second != Some(length))
}

/// The second length byte that stays inside the domain, while the frame read that brings it
/// is under way.
pub fn second_length(view: &View) -> Option<u8> {
    let transfer = view.under_way.as_ref();
    let reading = transfer.filter(|transfer| transfer.kind == Kind::FrameRead);
    let reading = reading.filter(|_| view.state() == RX_READING_FRAME)?;
    Some(reading.frame_length())
}

/// Refusals that the Rust has not (marked + in document 01).
fn added(call: &Call, answer: Answer) -> bool {
    match answer {
        Answer::Inval => matches!(call, Call::SetChannel(_)),
        Answer::Done | Answer::Off | Answer::Busy | Answer::Size => false,
        Answer::Already | Answer::Configure => false,
        _ => true,
    }
}

/// The answer by document 01's rules and their order, with request 2026-07's for a receive
/// buffer and 2026-05's for a decline and a resume.
pub fn answer(view: &View, call: &Call) -> Answer {
    let guarded = matches!(
        call,
        Call::Transmit { .. }
            | Call::ReadWriteDone(_)
            | Call::Declined
            | Call::Resume
            | Call::Start
            | Call::Stop
            | Call::ConfigCommit
            | Call::Fired
    );
    if guarded && view.pool_length != POOL {
        return Answer::Pool;
    }
    match call {
        Call::Transmit { buffer, length, n } => transmit(view, *buffer, *length, *n),
        Call::SetReceiveBuffer { buffer, length } => receive_buffer(view, *buffer, *length),
        Call::ReadWriteDone(arrived) => completion(view, arrived.len()),
        Call::Declined => refused_if(under_way(view).is_none(), Answer::Idle),
        Call::Resume => refused_if(!view.waits, Answer::Nothing),
        Call::Start => refused_if(!matches!(view.state(), 0 | 31), Answer::Already),
        Call::Stop => refused_if(matches!(view.state(), 30 | 31), Answer::Already),
        Call::Reset { configured } => refused_if(!configured, Answer::Configure),
        Call::SetTxPower(power) => refused_if(!(-17..=4).contains(power), Answer::Inval),
        Call::SetChannel(channel) => refused_if(!CHANNELS.contains(channel), Answer::Inval),
        Call::New { length, channel } => refused_if(
            !(SPI_BUF_LENGTHS.contains(length) && CHANNELS.contains(channel)),
            Answer::New,
        ),
        _ => Answer::Done,
    }
}

fn refused_if(refused: bool, answer: Answer) -> Answer {
    if refused { answer } else { Answer::Done }
}

fn transmit(view: &View, buffer: u64, length: u64, n: u64) -> Answer {
    let sending = view.image.cells.tx_buf.is_some() || view.kind() == Some(Kind::FrameWrite);
    if !exists(buffer, length) {
        Answer::Handle
    } else if !view.image.flags.radio_on {
        Answer::Off
    } else if sending || view.image.flags.transmitting {
        Answer::Busy
    } else if n.saturating_add(ADDED) >= length {
        Answer::Size
    } else if n > LONGEST_FRAME {
        Answer::Long
    } else {
        refused_if(view.has(buffer), Answer::Held)
    }
}

/// By request 2026-07 the order is 7, 9, 10, 8, and 10 is for a driver that has four: this
/// one never has more than one inside the domain, nor more than two past it.
fn receive_buffer(view: &View, buffer: u64, length: u64) -> Answer {
    if !exists(buffer, length) {
        Answer::Handle
    } else if length < SHORTEST_RECEIVE {
        Answer::Short
    } else {
        refused_if(view.has(buffer), Answer::Held)
    }
}

/// The transfer that can end: one that waits cannot.
fn under_way(view: &View) -> Option<&Transferring> {
    view.under_way.as_ref().filter(|_| !view.waits)
}

fn completion(view: &View, arrived: usize) -> Answer {
    match under_way(view) {
        None => Answer::Idle,
        Some(transfer) => refused_if(
            !(2..=transfer.shorter_length()).contains(&arrived),
            Answer::Arrived,
        ),
    }
}

/// Whether there is such a client buffer, so long.
fn exists(buffer: u64, length: u64) -> bool {
    buffer < CLIENT_BUFFERS as u64 && length <= BUFFER as u64
}

/// Whether a call outside the domain can be made on the Rust: what it is handed must
/// exist, and its types must allow it (no slice twice, no channel that is none).
fn passable(view: &View, call: &Call) -> bool {
    if view.waits {
        return false;
    }
    match call {
        Call::Transmit { buffer, length, .. } | Call::SetReceiveBuffer { buffer, length } => {
            exists(*buffer, *length) && !view.has(*buffer)
        }
        Call::ReadWriteDone(arrived) => match &view.under_way {
            None => false,
            Some(transfer) => arrived.len() <= transfer.read.active.len(),
        },
        Call::New { length, channel } => *length <= BUFFER as u64 && CHANNELS.contains(channel),
        Call::SetChannel(_) | Call::Declined | Call::Resume => false,
        _ => true,
    }
}

/// Whether a line around the calls leaves the domain.
pub fn edge_around(view: &View, line: &Line) -> Option<Edge> {
    match line {
        Line::Passed(_) => None,
        _ if view.waits => Some(Edge {
            reason: WAITS.into(),
            passable: false,
        }),
        Line::Pool { at, bytes } => pool_edge(view, *at, bytes.len()),
        _ => None,
    }
}

/// Whether writing these bytes of the area from outside leaves the domain: no byte of a
/// buffer that the driver has may be touched.
pub fn pool_edge(view: &View, at: usize, count: usize) -> Option<Edge> {
    let touched = view.leases().find(|lease| {
        let start = lease.buffer * BUFFER;
        count > 0 && at < start + lease.length && start < at + count
    })?;
    Some(Edge {
        reason: format!("the driver has buffer {}", touched.buffer),
        passable: true,
    })
}
