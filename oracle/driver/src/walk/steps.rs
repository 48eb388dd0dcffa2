//! Every next step that is tried from a control state: each call, and a completion with
//! each byte that some rule tells from others. A frame read's second length byte is the one
//! that the domain allows.

use super::Bounds;
use crate::domain;
use crate::line::{Call, Client, Line, Query};
use crate::view::View;

/// The statuses that have a name, and one that has none.
const STATUSES: [u8; 14] = [
    0x00, 0x01, 0x02, 0x06, 0x08, 0x09, 0x0F, 0x10, 0x11, 0x12, 0x16, 0x19, 0x1F, 0x0A,
];
/// Result bytes: the combinations of interrupt bits 0, 2 and 3; the TRAC values, with
/// which the CRC bit comes both ways; the frame lengths at which something is decided.
const RESULTS: [u8; 20] = [
    0, 1, 4, 5, 8, 9, 12, 13, 0x20, 0x40, 0x60, 0x80, 0xA0, 0xC0, 0xE0, 2, 10, 11, 127, 255,
];
/// The states whose case looks at the status: there each comes with every result. In the
/// others each status comes once, and each result once.
const LOOK_AT_STATUS: [u8; 5] = [2, 33, 36, 38, 43];
const RX_AACK_ON: u8 = 0x16;

/// The buffer that is lent for sending, and the one for receiving.
const SENT: u64 = 1;
const RECEIVED: u64 = 2;

/// How a part begins: a new driver whose settings and frame bytes all differ, so that one
/// taken for another shows.
pub fn beginning() -> Vec<Line> {
    let at = 160 * SENT as usize;
    let mut lines = vec![call(Call::New {
        length: 129,
        channel: 26,
    })];
    lines.extend(settings(0xABCD, 0x1234, [1, 2, 3, 4, 5, 6, 7, 8], -5, 15));
    lines.push(Line::Pool {
        at,
        bytes: (100..120).collect(),
    });
    lines
}

pub fn is_on() -> Line {
    call(Call::Query(Query::IsOn))
}

/// The sort of a step, as read-outs tell them apart: calls that only set something or look
/// are one.
pub fn sort(step: &[Line]) -> &'static str {
    match step {
        [Line::Call(call)] => match call {
            Call::Query(_) | Call::SetClient { .. } => "other",
            Call::SetAddress(_) | Call::SetPan(_) | Call::SetAddressLong(_) => "other",
            Call::SetTxPower(_) | Call::SetChannel(_) => "other",
            _ => call.name(),
        },
        _ => "other",
    }
}

/// Every next step, as the lines that make it: one, but for the listeners all together.
/// Those that the domain forbids are among them; performing them tells.
pub fn steps(view: &View, bounds: &Bounds) -> Vec<Vec<Line>> {
    let mut lines = plain();
    lines.extend(lending());
    lines.extend(completions(view, bounds.all_pairs));
    let mut steps: Vec<Vec<Line>> = Vec::new();
    match bounds.few_listeners {
        true => steps.extend([false, true].map(listeners)),
        false => lines.extend([false, true].map(listeners).concat()),
    }
    steps.extend(lines.into_iter().map(|line| vec![line]));
    steps
}

fn call(call: Call) -> Line {
    Line::Call(call)
}

/// The calls that lend nothing.
fn plain() -> Vec<Line> {
    let mut calls = vec![
        Call::Start,
        Call::Stop,
        Call::ConfigCommit,
        Call::Fired,
        Call::Reset { configured: true },
        Call::Reset { configured: false },
        Call::SetTxPower(5),
        Call::SetTxPower(-18),
    ];
    calls.extend([(129, 26), (160, 11)].map(|(length, channel)| Call::New { length, channel }));
    calls.extend(Query::ALL.map(Call::Query));
    let mut lines: Vec<Line> = calls.into_iter().map(call).collect();
    lines.extend(settings(1, 0xFFFE, [9; 8], 4, 11));
    lines.extend(settings(0, 0, [0; 8], -17, 26));
    lines
}

fn settings(address: u16, pan: u16, long: [u8; 8], power: i8, channel: u8) -> [Line; 5] {
    [
        Call::SetAddress(address),
        Call::SetPan(pan),
        Call::SetAddressLong(long),
        Call::SetTxPower(power),
        Call::SetChannel(channel),
    ]
    .map(call)
}

/// The calls that lend a buffer. The first of each sort is the one that paths go by: it
/// leaves the other's buffer free.
fn lending() -> Vec<Line> {
    let transmits = [
        (SENT, 160, 10),
        (SENT, 130, 125),
        (SENT, 129, 125),
        (SENT, 5, 0),
        (SENT, 4, 0),
        (RECEIVED, 160, 10),
        (SENT, 160, u64::MAX - 4),
    ];
    let receives = [(RECEIVED, 160), (RECEIVED, 129), (SENT, 160)];
    let transmits = transmits.map(|(buffer, length, n)| Call::Transmit { buffer, length, n });
    let receives = receives.map(|(buffer, length)| Call::SetReceiveBuffer { buffer, length });
    transmits.into_iter().chain(receives).map(call).collect()
}

/// Each listener made present, or absent.
fn listeners(present: bool) -> Vec<Line> {
    let calls = Client::ALL.map(|client| Call::SetClient { client, present });
    calls.map(call).to_vec()
}

/// The ends of the transfer under way: two bytes each, and once as many as can arrive.
fn completions(view: &View, all_pairs: bool) -> Vec<Line> {
    let Some(transfer) = &view.under_way else {
        return Vec::new();
    };
    let second = domain::second_length(view);
    let mut arrived = match second {
        Some(length) => STATUSES.map(|status| vec![status, length]).to_vec(),
        None => pairs(all_pairs || LOOK_AT_STATUS.contains(&view.state())),
    };
    let most = transfer.shorter_length();
    if most > 2 {
        let rest = (0..most - 2).map(|place| place as u8);
        let first = [0xF6, second.unwrap_or(0x7F)];
        arrived.push(first.into_iter().chain(rest).collect());
    }
    // The upper bits of the first byte are not part of the status.
    arrived.push(vec![0xE0 | RX_AACK_ON, second.unwrap_or(0)]);
    arrived
        .into_iter()
        .map(|bytes| call(Call::ReadWriteDone(bytes)))
        .collect()
}

/// Each status with each result, or each of them once.
fn pairs(every: bool) -> Vec<Vec<u8>> {
    let pairs = STATUSES
        .iter()
        .flat_map(|status| RESULTS.map(|result| (*status, result)));
    let pairs = pairs.filter(|(status, result)| every || *status == RX_AACK_ON || *result == 0);
    pairs.map(|(status, result)| vec![status, result]).collect()
}
