//! The calls that the generator proposes, each only where it stays inside the domain.

use super::Generator;
use super::plain;
use crate::area::BUFFER;
use crate::domain;
use crate::line::{Call, Line};

/// A sort of call.
#[derive(Clone, Copy)]
pub enum Proposal {
    Fired,
    Start,
    Stop,
    Commit,
    Send,
    RefusedSend,
    LendReceiveBuffer,
    Reset,
    RefusedReset,
    Setting,
    Listener,
    Query,
}

impl Generator<'_> {
    /// A line of one of the weighted sorts; a query where the domain has none of them.
    pub fn one_of(&mut self, sorts: &[(u64, Proposal)]) -> Line {
        for _ in 0..8 {
            let sort = self.random.weighted(sorts);
            let call = self.propose(sort);
            if !self.allowed(&call) {
                continue;
            }
            if matches!(sort, Proposal::Send) && self.random.percent(40) {
                return self.with_content(call);
            }
            return Line::Call(call);
        }
        Line::Call(plain::query(&mut self.random))
    }

    /// Whether the call stays inside the domain, and inside the wish.
    fn allowed(&self, call: &Call) -> bool {
        let lends = matches!(call, Call::Transmit { .. } | Call::SetReceiveBuffer { .. });
        !(lends && self.without_lending) && domain::edge(self.view(), call).is_none()
    }

    fn propose(&mut self, sort: Proposal) -> Call {
        match sort {
            Proposal::Fired => Call::Fired,
            Proposal::Start => Call::Start,
            Proposal::Stop => Call::Stop,
            Proposal::Commit => Call::ConfigCommit,
            Proposal::Send => self.send(),
            Proposal::RefusedSend => self.refused_send(),
            Proposal::LendReceiveBuffer => Call::SetReceiveBuffer {
                buffer: plain::client_buffer(&mut self.random),
                length: self.random.within(129, 160),
            },
            Proposal::Reset => Call::Reset { configured: true },
            Proposal::RefusedReset => Call::Reset { configured: false },
            Proposal::Setting => plain::setting(&mut self.random),
            Proposal::Listener => plain::listener(&mut self.random),
            Proposal::Query => plain::query(&mut self.random),
        }
    }

    /// A transmit that fits: the length plus 4 stays below the buffer's.
    fn send(&mut self) -> Call {
        let n = match self.random.percent(50) {
            true => self.random.pick(&[0, 1, 2, 9, 123, 124, 125]),
            false => self.random.within(0, 125),
        };
        let length = match self.random.percent(30) {
            true => n + 5,
            false => self.random.within(n + 5, BUFFER as u64),
        };
        Call::Transmit {
            buffer: plain::client_buffer(&mut self.random),
            length,
            n,
        }
    }

    /// A transmit that does not fit, or that fits no time but this.
    fn refused_send(&mut self) -> Call {
        let length = self.random.within(0, BUFFER as u64);
        let n = match self.random.within(0, 3) {
            0 => length.saturating_sub(4),
            1 => self.random.within(length, 300),
            2 => u64::MAX - 4,
            _ => self.random.within(0, 125),
        };
        Call::Transmit {
            buffer: plain::client_buffer(&mut self.random),
            length,
            n,
        }
    }

    /// The transmit with a frame written into its buffer just before.
    fn with_content(&mut self, call: Call) -> Line {
        let Call::Transmit { buffer, n, .. } = call else {
            return Line::Call(call);
        };
        let at = buffer as usize * BUFFER;
        let bytes = self.random.bytes(n as usize + 2);
        self.planned.push_back(Line::Call(call));
        match domain::pool_edge(self.view(), at, bytes.len()) {
            None => Line::Pool { at, bytes },
            Some(_) => plain::remark(&mut self.random),
        }
    }
}
