//! Which refusal a call gets, if any: document 01's conditions, each call's in its order,
//! with request 2026-07's for a receive buffer and 2026-05's for a decline and a resume.

use super::described::described;
use super::driver::{Driver, MOST_RECEIVE};
use super::states::{SLEEP, SLEEP_TRX_OFF, START};
use crate::action::Kind;
use crate::answer::Answer;
use crate::area::{BUFFER, CLIENT_BUFFERS, POOL};
use crate::line::Call;

/// What a transmit's length is compared with: two bytes before the frame and two behind.
const ADDED: u64 = 4;
const LONGEST_FRAME: u64 = 125;
const SHORTEST_RECEIVE: u64 = 129;
const FEWEST_ARRIVED: usize = 2;
const SPI_BUF_LENGTHS: std::ops::RangeInclusive<u64> = 129..=160;
const CHANNELS: std::ops::RangeInclusive<u8> = 11..=26;
const POWERS: std::ops::RangeInclusive<i8> = -17..=4;

/// Conditions in their order, each with its refusal.
type Order<'a> = &'a [(bool, Answer)];

/// The answer to a call, with a pool so long.
pub fn answer(driver: &Driver, pool_length: usize, call: &Call) -> Answer {
    if guarded(call) && (pool_length != POOL || described(driver)) {
        return Answer::Pool;
    }
    match call {
        Call::Transmit { buffer, length, n } => transmit(driver, *buffer, *length, *n),
        Call::SetReceiveBuffer { buffer, length } => receive_buffer(driver, *buffer, *length),
        Call::ReadWriteDone(arrived) => completion(driver, arrived.len()),
        Call::Declined => first(&[(driver.under_way.is_none(), Answer::Idle)]),
        Call::Resume => first(&[(driver.waiting.is_none(), Answer::Nothing)]),
        Call::Start => first(&[(!matches!(driver.state, START | SLEEP), Answer::Already)]),
        Call::Stop => {
            let off = matches!(driver.state, SLEEP_TRX_OFF | SLEEP);
            first(&[(off, Answer::Already)])
        }
        Call::Reset { configured } => first(&[(!configured, Answer::Configure)]),
        Call::SetTxPower(power) => first(&[(!POWERS.contains(power), Answer::Inval)]),
        Call::SetChannel(channel) => first(&[(!CHANNELS.contains(channel), Answer::Inval)]),
        Call::New { length, channel } => first(&[
            (!SPI_BUF_LENGTHS.contains(length), Answer::New),
            (!CHANNELS.contains(channel), Answer::New),
        ]),
        _ => Answer::Done,
    }
}

/// Whether 12 guards the call: the eight that are lent the pool.
fn guarded(call: &Call) -> bool {
    matches!(
        call,
        Call::Transmit { .. }
            | Call::ReadWriteDone(_)
            | Call::Declined
            | Call::Resume
            | Call::Start
            | Call::Stop
            | Call::ConfigCommit
            | Call::Fired
    )
}

fn transmit(driver: &Driver, buffer: u64, length: u64, n: u64) -> Answer {
    let sending = driver.tx_buf.is_some() || driver.kind() == Some(Kind::FrameWrite);
    first(&[
        (!exists(buffer, length), Answer::Handle),
        (!driver.flags.radio_on, Answer::Off),
        (sending || driver.flags.transmitting, Answer::Busy),
        (n.saturating_add(ADDED) >= length, Answer::Size),
        (n > LONGEST_FRAME, Answer::Long),
        (driver.has(buffer), Answer::Held),
    ])
}

fn receive_buffer(driver: &Driver, buffer: u64, length: u64) -> Answer {
    let full = driver.receive_buffers() >= MOST_RECEIVE;
    first(&[
        (!exists(buffer, length), Answer::Handle),
        (length < SHORTEST_RECEIVE, Answer::Short),
        (full, Answer::Full),
        (driver.has(buffer), Answer::Held),
    ])
}

fn completion(driver: &Driver, arrived: usize) -> Answer {
    let Some(under_way) = &driver.under_way else {
        return Answer::Idle;
    };
    let fits = (FEWEST_ARRIVED..=under_way.shorter_length()).contains(&arrived);
    first(&[(!fits, Answer::Arrived)])
}

/// Whether there is such a client buffer, so long.
fn exists(buffer: u64, length: u64) -> bool {
    buffer < CLIENT_BUFFERS as u64 && length <= BUFFER as u64
}

/// The refusal of the first condition that holds.
fn first(order: Order) -> Answer {
    let found = order.iter().find(|(holds, _)| *holds);
    found.map_or(Answer::Done, |(_, answer)| *answer)
}
