//! What stands around the calls of a script: remarks, marks, the pool, new drivers.

use super::Generator;
use super::plain;
use crate::area::{AREA, BUFFER, CLIENT_BUFFERS, POOL};
use crate::domain;
use crate::line::{Call, Client, Line};

impl Generator<'_> {
    /// One of the lines around the calls.
    pub fn around(&mut self) -> Line {
        match self.random.within(0, 99) {
            0..15 => plain::remark(&mut self.random),
            15..30 => Line::Mark,
            30..42 => Line::Back,
            42..65 => self.new_driver(),
            65..85 => self.free_bytes(),
            _ => self.other_pool_length(),
        }
    }

    pub fn new_driver(&mut self) -> Line {
        self.settle();
        Line::Call(plain::new(&mut self.random))
    }

    /// How a new driver begins: its listeners and settings, and the unrest around it.
    pub fn settle(&mut self) {
        self.unrest = self.random.pick(&[0, 5, 15, 30, 45]);
        for client in Client::ALL {
            if self.random.percent(75) {
                let call = Call::SetClient {
                    client,
                    present: true,
                };
                self.planned.push_back(Line::Call(call));
            }
        }
        while self.random.percent(50) {
            let setting = plain::setting(&mut self.random);
            self.planned.push_back(Line::Call(setting));
        }
    }

    /// Bytes written where the driver has nothing.
    fn free_bytes(&mut self) -> Line {
        for _ in 0..4 {
            let bytes = self.random.within(0, 40);
            let bytes = self.random.bytes(bytes as usize);
            let last = match self.random.percent(70) {
                true => CLIENT_BUFFERS * BUFFER,
                false => AREA - bytes.len(),
            };
            let at = self.random.within(0, last as u64) as usize;
            if domain::pool_edge(self.view(), at, bytes.len()).is_none() {
                return Line::Pool { at, bytes };
            }
        }
        plain::remark(&mut self.random)
    }

    /// Another length for a while: only calls that take no pool come before it ends.
    fn other_pool_length(&mut self) -> Line {
        for _ in 0..self.random.within(0, 3) {
            let call = match self.random.within(0, 2) {
                0 => plain::query(&mut self.random),
                1 => plain::setting(&mut self.random),
                _ => Call::Reset { configured: false },
            };
            self.planned.push_back(Line::Call(call));
        }
        self.planned.push_back(Line::PoolLength(POOL));
        let length = match self.random.percent(50) {
            true => self.random.pick(&[0, POOL - 1, POOL + 1, AREA]),
            false => self.random.within(0, AREA as u64) as usize,
        };
        Line::PoolLength(length)
    }
}
