//! The calls that a script proposes because they are mostly accepted.

use super::Generator;
use crate::area::BUFFER;
use crate::generator::plain;
use crate::line::{Call, Client, Line};

/// A sort of line.
#[derive(Clone, Copy)]
pub enum Proposal {
    Fired,
    Start,
    Stop,
    Commit,
    Send,
    Lend,
    LendSeveral,
    Reset,
    Setting,
    Listener,
    ReceiveListener,
    Query,
    /// A call that is made in order to be refused.
    Refused,
    /// Bytes of the pool altered from outside; those that a command stands in.
    OutsideBytes,
    CommandBytes,
    /// A buffer of a waiting transfer offered again.
    WaitingBuffer,
}

/// Lengths of a receive buffer about which something is decided.
const RECEIVE_LENGTHS: [u64; 3] = [129, 130, 160];
/// Lengths given to `transmit` about which something is decided.
const SEND_LENGTHS: [u64; 7] = [0, 1, 2, 9, 123, 124, 125];

impl Generator<'_> {
    /// A line of one of the weighted sorts.
    pub fn one_of(&mut self, sorts: &[(u64, Proposal)]) -> Line {
        Line::Call(match self.random.weighted(sorts) {
            Proposal::Fired => Call::Fired,
            Proposal::Start => Call::Start,
            Proposal::Stop => Call::Stop,
            Proposal::Commit => Call::ConfigCommit,
            Proposal::Send => return self.send(),
            Proposal::Lend => self.lend(),
            Proposal::LendSeveral => return self.lend_several(),
            Proposal::Reset => Call::Reset { configured: true },
            Proposal::Setting => plain::setting(&mut self.random),
            Proposal::Listener => plain::listener(&mut self.random),
            Proposal::ReceiveListener => Call::SetClient {
                client: Client::Receive,
                present: self.random.percent(80),
            },
            Proposal::Query => plain::query(&mut self.random),
            Proposal::Refused => return self.refused(),
            Proposal::OutsideBytes => return self.outside_bytes(),
            Proposal::CommandBytes => return self.command_bytes(),
            Proposal::WaitingBuffer => return self.waiting_buffer(),
        })
    }

    /// A client's buffer, most often one that the driver does not have.
    fn buffer(&mut self) -> u64 {
        let mut buffer = plain::client_buffer(&mut self.random);
        for _ in 0..4 {
            if !self.driver().has(buffer) || self.random.percent(15) {
                return buffer;
            }
            buffer = plain::client_buffer(&mut self.random);
        }
        buffer
    }

    pub fn lend(&mut self) -> Call {
        let length = match self.random.percent(40) {
            true => self.random.pick(&RECEIVE_LENGTHS),
            false => self.random.within(129, BUFFER as u64),
        };
        Call::SetReceiveBuffer {
            buffer: self.buffer(),
            length,
        }
    }

    /// Up to five buffers in a row; most often each is another.
    pub fn lend_several(&mut self) -> Line {
        let count = self.random.within(2, 5);
        let first = self.buffer();
        let step = match self.random.percent(85) {
            true => self.random.pick(&[1, 3, 5, 7]),
            false => 0,
        };
        let lines: Vec<Line> = (0..count)
            .map(|place| {
                let buffer = (first + place * step) % 16;
                let length = self.random.within(129, BUFFER as u64);
                Line::Call(Call::SetReceiveBuffer { buffer, length })
            })
            .collect();
        self.plan(lines)
    }

    /// The buffer of the last received frame is sent as it is, whole: whatever altered a byte of
    /// it shows.
    fn send_on(&self, buffer: u64) -> Line {
        let (length, n) = (BUFFER as u64, 125);
        Line::Call(Call::Transmit { buffer, length, n })
    }

    /// A transmit that fits, often with its frame written into the buffer just before.
    fn send(&mut self) -> Line {
        if let Some(buffer) = self.received.filter(|_| self.random.percent(25)) {
            return self.send_on(buffer as u64);
        }
        let n = match self.random.percent(50) {
            true => self.random.pick(&SEND_LENGTHS),
            false => self.random.within(0, 125),
        };
        let length = match self.random.percent(30) {
            true => n + 5,
            false => self.random.within(n + 5, BUFFER as u64),
        };
        let buffer = self.buffer();
        let send = Line::Call(Call::Transmit { buffer, length, n });
        if self.random.percent(60) {
            return send;
        }
        let at = buffer as usize * BUFFER;
        let bytes = self.random.bytes(n as usize + 2);
        self.plan([Line::Pool { at, bytes }, send])
    }
}
