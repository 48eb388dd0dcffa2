//! Lines while a declined transfer waits (request 2026-05): calls that would begin a transfer,
//! others that meet its buffers or alter its bytes, and the resume.

use super::Generator;
use super::calls::Proposal;
use crate::action::Kind;
use crate::area::{BUFFER, SPI_BUF, SPI_TX};
use crate::generator::plain;
use crate::line::{Call, Line};

/// What may come before the resume. Some calls change the state in 27, 29 and 31.
const MEANWHILE: &[(u64, Proposal)] = &[
    (14, Proposal::Fired),
    (8, Proposal::Start),
    (9, Proposal::Stop),
    (9, Proposal::Commit),
    (9, Proposal::Send),
    (8, Proposal::Lend),
    (2, Proposal::LendSeveral),
    (4, Proposal::Reset),
    (4, Proposal::Setting),
    (4, Proposal::Listener),
    (3, Proposal::ReceiveListener),
    (3, Proposal::Query),
    (7, Proposal::Refused),
    (4, Proposal::OutsideBytes),
    (12, Proposal::CommandBytes),
    (6, Proposal::WaitingBuffer),
];

impl Generator<'_> {
    pub fn while_one_waits(&mut self) -> Line {
        if !self.random.percent(self.stretch.patience) {
            return Line::Call(Call::Resume);
        }
        let state = self.driver().state;
        match self.random.within(0, 19) {
            0 => Line::Call(Call::Declined),
            1 => Line::Call(Call::ReadWriteDone(vec![22, self.random.byte()])),
            2 => self.one_of(ends_otherwise(state)),
            // Seldom met with a transfer.
            3..10 if matches!(state, 27 | 31) => self.one_of(ends_otherwise(state)),
            3 | 4 if state == 34 => self.reset_and_send(),
            _ => self.one_of(MEANWHILE),
        }
    }

    /// The bytes of the command are altered from outside, one or both, and some behind them.
    /// With none waiting they are those of the buffers that would be offered next.
    pub fn command_bytes(&mut self) -> Line {
        let sent = self.driver().tx_buf.map(|lent| lent.buffer);
        let waits = self.driver().waiting.as_ref().map(|waiting| waiting.kind);
        let buffer = match waits {
            Some(Kind::FrameRead) => SPI_BUF,
            Some(Kind::FrameWrite) => sent.unwrap_or(SPI_TX),
            Some(_) => SPI_TX,
            None => self.random.pick(&[SPI_TX, SPI_BUF]),
        };
        let first = self.random.within(0, 1) as usize;
        let count = self.random.within(1, 4) as usize;
        Line::Pool {
            at: buffer * BUFFER + first,
            bytes: self.random.bytes(count),
        }
    }

    /// A buffer of the driver, the waiting transfer's among them, offered once more; or one
    /// that it has not, to send, while its own frame may wait.
    pub fn waiting_buffer(&mut self) -> Line {
        let (buffer, length) = (self.held(), BUFFER as u64);
        Line::Call(match self.random.within(0, 2) {
            0 => Call::SetReceiveBuffer { buffer, length },
            1 => Call::Transmit {
                buffer,
                length,
                n: self.random.within(0, 130),
            },
            _ => Call::Transmit {
                buffer: plain::client_buffer(&mut self.random),
                length,
                n: self.random.within(0, 125),
            },
        })
    }
}

/// The calls after which the resumed transfer completes in another state, or begins a commit.
fn ends_otherwise(state: u8) -> &'static [(u64, Proposal)] {
    match state {
        27 => &[(1, Proposal::Stop)],
        29 => &[
            (1, Proposal::Stop),
            (1, Proposal::Send),
            (1, Proposal::Commit),
        ],
        31 => &[(1, Proposal::Start)],
        _ => MEANWHILE,
    }
}
