//! Calls that are made in order to be refused: each refusal's condition, and its border.
//! Where the driver stands otherwise, one may be refused for another reason or be accepted.

use super::Generator;
use crate::area::{AREA, BUFFER, CLIENT_BUFFERS, POOL};
use crate::generator::plain;
use crate::line::{Call, Line};

/// Numbers above a buffer's range or a length's: just so, and those that a narrower type
/// would cut to small ones.
const BUFFERS_ABOVE: [u64; 8] = [16, 17, 18, 19, 256, 1 << 16, 1 << 32, u64::MAX];
const LENGTHS_ABOVE: [u64; 6] = [
    161,
    256 + 140,
    65_536 + 140,
    (1 << 32) + 140,
    1 << 63,
    u64::MAX,
];

impl Generator<'_> {
    pub fn refused(&mut self) -> Line {
        Line::Call(match self.random.within(0, 99) {
            0..24 => self.refused_transmit(),
            24..44 => self.refused_lend(),
            44..54 => self.refused_completion(),
            54..57 => Call::Declined,
            57..60 => Call::Resume,
            60..65 => Call::Start,
            65..70 => Call::Stop,
            70..76 => Call::Reset { configured: false },
            76..80 => self.refused_setting(),
            80..82 => self.refused_new(),
            _ => return self.other_pool_length(),
        })
    }

    fn refused_transmit(&mut self) -> Call {
        let mut buffer = plain::client_buffer(&mut self.random);
        let mut length = self.random.within(0, BUFFER as u64);
        let mut n = self.random.within(0, 125);
        match self.random.within(0, 6) {
            0 => buffer = self.random.pick(&BUFFERS_ABOVE),
            1 => length = self.random.pick(&LENGTHS_ABOVE),
            // The sum with 4 reaches the buffer's length, also where it would wrap.
            2 => n = length.saturating_sub(4),
            3 => n = u64::MAX - self.random.within(0, 8),
            4 => {
                length = BUFFER as u64;
                n = self.random.within(126, 157);
            }
            5 => {
                buffer = self.held();
                length = BUFFER as u64;
            }
            _ => n = self.random.next(),
        }
        Call::Transmit { buffer, length, n }
    }

    fn refused_lend(&mut self) -> Call {
        let mut buffer = plain::client_buffer(&mut self.random);
        let mut length = self.random.within(129, BUFFER as u64);
        match self.random.within(0, 4) {
            0 => buffer = self.random.pick(&BUFFERS_ABOVE),
            1 => length = self.random.pick(&LENGTHS_ABOVE),
            2 => length = self.random.pick(&[0, 1, 2, 127, 128]),
            // Short and held: the length is looked at first.
            3 => {
                buffer = self.held();
                length = self.random.pick(&[0, 128, 160]);
            }
            _ => buffer = self.held(),
        }
        Call::SetReceiveBuffer { buffer, length }
    }

    /// A client's buffer that the driver has, or any where it has none.
    pub fn held(&mut self) -> u64 {
        let places = self.driver().places().into_iter();
        let clients = places.filter(|(buffer, _)| *buffer < CLIENT_BUFFERS);
        let held: Vec<u64> = clients.map(|(buffer, _)| buffer as u64).collect();
        match held.is_empty() {
            true => plain::client_buffer(&mut self.random),
            false => self.random.pick(&held),
        }
    }

    /// Too few bytes or too many; with no transfer under way any number is too many.
    pub fn refused_completion(&mut self) -> Call {
        let (most, longer) = match &self.driver().under_way {
            Some(transfer) => (
                transfer.shorter_length() as u64,
                transfer.write_length.max(transfer.read_length) as u64,
            ),
            None => (1, 2),
        };
        let count = match self.random.within(0, 5) {
            0 => 0,
            1 => 1,
            2 => most + 1,
            // As many as the longer length has: still too many.
            3 => longer.max(most + 1),
            4 => BUFFER as u64,
            _ => self.random.within(most + 1, BUFFER as u64),
        };
        Call::ReadWriteDone(self.random.bytes(count.min(BUFFER as u64) as usize))
    }

    /// During a frame write: a send is refused while its buffer is under way, even when a
    /// reset has ended the one before.
    pub fn reset_and_send(&mut self) -> Line {
        let reset = Call::Reset { configured: true };
        let send = self.good_transmit();
        self.plan([reset, send].map(Line::Call))
    }

    fn good_transmit(&mut self) -> Call {
        Call::Transmit {
            buffer: plain::client_buffer(&mut self.random),
            length: 160,
            n: 20,
        }
    }

    fn refused_setting(&mut self) -> Call {
        match self.random.percent(50) {
            true => Call::SetChannel(self.random.pick(&[0, 10, 27, 128, 255])),
            false => Call::SetTxPower(self.random.pick(&[5, 127, -18, -128])),
        }
    }

    /// In place of the driver comes the one of 129 and channel 26.
    fn refused_new(&mut self) -> Call {
        self.settle();
        let (length, channel) = self.random.pick(&[
            (128, 26),
            (161, 26),
            (0, 11),
            (256 + 129, 20),
            (u64::MAX, 26),
            (129, 10),
            (160, 27),
            (140, 0),
            (128, 255),
        ]);
        Call::New { length, channel }
    }

    /// Calls with another length of the pool for a while: those that take it are refused,
    /// the others are not.
    fn other_pool_length(&mut self) -> Line {
        let length = match self.random.percent(60) {
            true => self.random.pick(&[0, POOL - 1, POOL + 1, AREA]),
            false => self.random.within(0, AREA as u64) as usize,
        };
        let mut lines = vec![Line::PoolLength(length)];
        for _ in 0..self.random.within(1, 4) {
            let call = self.any_call();
            lines.push(Line::Call(call));
        }
        lines.push(Line::PoolLength(POOL));
        self.plan(lines)
    }

    fn any_call(&mut self) -> Call {
        match self.random.within(0, 14) {
            0 => Call::Start,
            1 => Call::Stop,
            2 => Call::ConfigCommit,
            3 => Call::Fired,
            4 => Call::ReadWriteDone(vec![22, self.random.byte()]),
            5 => self.refused_completion(),
            6 => self.refused_transmit(),
            7 => self.good_transmit(),
            8 => self.lend(),
            9 => Call::Reset {
                configured: self.random.percent(50),
            },
            10 => plain::setting(&mut self.random),
            11 | 12 => Call::Declined,
            13 => Call::Resume,
            _ => plain::query(&mut self.random),
        }
    }
}
