//! Lines that any driver takes at any time: new drivers, settings, listeners, queries,
//! remarks.

use crate::area::CLIENT_BUFFERS;
use crate::line::{Call, Client, Line, Query};
use crate::random::Random;

pub fn client_buffer(random: &mut Random) -> u64 {
    random.within(0, CLIENT_BUFFERS as u64 - 1)
}

pub fn new(random: &mut Random) -> Call {
    let length = match random.percent(40) {
        true => random.pick(&[129, 160]),
        false => random.within(129, 160),
    };
    let channel = random.within(11, 26) as u8;
    Call::New { length, channel }
}

pub fn setting(random: &mut Random) -> Call {
    match random.within(0, 4) {
        0 => Call::SetAddress(random.next() as u16),
        1 => Call::SetPan(random.next() as u16),
        2 => {
            let number = random.next();
            Call::SetAddressLong(number.to_le_bytes())
        }
        3 => power(random),
        _ => Call::SetChannel(random.within(11, 26) as u8),
    }
}

fn power(random: &mut Random) -> Call {
    let corners = [4, 5, -17, -18, -5, -13, 127, -128];
    Call::SetTxPower(match random.within(0, 3) {
        0 => random.pick(&corners),
        1 => random.byte() as i8,
        _ => random.within(0, 21) as i8 - 17,
    })
}

pub fn listener(random: &mut Random) -> Call {
    Call::SetClient {
        client: random.pick(&Client::ALL),
        present: random.percent(75),
    }
}

pub fn query(random: &mut Random) -> Call {
    Call::Query(random.pick(&Query::ALL))
}

/// A line that is passed over.
pub fn remark(random: &mut Random) -> Line {
    Line::Passed(match random.percent(50) {
        true => String::new(),
        false => format!("# remark {}", random.within(0, 999)),
    })
}
