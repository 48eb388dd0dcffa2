//! What stands around the calls of a script: remarks, marks, new drivers, and the pool's
//! bytes as someone outside the driver alters them.

use super::Generator;
use crate::area::{AREA, BUFFER, BUFFERS};
use crate::generator::plain;
use crate::line::{Call, Client, Line};

/// How many times in a hundred each listener is there from the beginning.
const PRESENT: u64 = 80;

impl Generator<'_> {
    /// One of the lines around the calls.
    pub fn around(&mut self) -> Line {
        match self.random.within(0, 99) {
            0..10 => plain::remark(&mut self.random),
            10..32 => Line::Mark,
            32..50 => Line::Back,
            50..62 => self.new_driver(),
            _ => self.outside_bytes(),
        }
    }

    fn new_driver(&mut self) -> Line {
        self.settle();
        Line::Call(plain::new(&mut self.random))
    }

    /// How a new driver begins: with some listeners and settings.
    pub fn settle(&mut self) {
        for client in Client::ALL {
            if self.random.percent(PRESENT) {
                let present = true;
                let call = Call::SetClient { client, present };
                self.planned.push_back(Line::Call(call));
            }
        }
        while self.random.percent(40) {
            let setting = plain::setting(&mut self.random);
            self.planned.push_back(Line::Call(setting));
        }
    }

    /// Bytes written from outside: anywhere, or at the beginning of a buffer that the
    /// driver has, where a command or a length may stand.
    pub fn outside_bytes(&mut self) -> Line {
        let own_or_held = self.driver().places();
        let (at, most) = match self.random.within(0, 3) {
            0 => (self.random.within(0, AREA as u64) as usize, 40),
            1 => {
                let buffer = self.random.within(0, BUFFERS as u64 - 1);
                (buffer as usize * BUFFER, 160)
            }
            2 => (self.random.pick(&own_or_held).0 * BUFFER, 4),
            // The length byte of a client's buffer that the driver has.
            _ => (self.held() as usize * BUFFER + 1, 1),
        };
        let most = most.min(AREA - at) as u64;
        let count = self.random.within(most.min(1), most) as usize;
        let bytes = match self.random.percent(25) {
            true => vec![self.random.within(0, 2) as u8; count],
            false => self.random.bytes(count),
        };
        Line::Pool { at, bytes }
    }
}
