//! The end of the transfer under way: an interrupt before it, or the bytes that arrive,
//! chosen by what the driver makes of them; or the SPI layer declines it.

use super::Generator;
use crate::action::Kind;
use crate::generator::bytes::{self, BUSY, PLL_LOCK, PLL_ON, RX_AACK_ON, RX_START, TRX_END};
use crate::line::{Call, Line};
use crate::model::driver::UnderWay;

/// The interrupts that the driver looks at.
const LOOKED_AT: u8 = PLL_LOCK | RX_START | TRX_END;
/// Frame lengths that are read out, and that are not, at their borders.
const INSIDE: [u8; 5] = [11, 12, 40, 126, 127];
const OUTSIDE: [u8; 7] = [0, 1, 2, 10, 128, 129, 255];

impl Generator<'_> {
    pub fn end(&mut self) -> Line {
        match self.random.percent(self.declining()) {
            true => Line::Call(Call::Declined),
            false => self.completion(),
        }
    }

    /// How many times in a hundred the transfer is declined: more often in states that are met
    /// seldom, so that it happens in each.
    fn declining(&self) -> u64 {
        match self.driver().state {
            28 | 30 | 31 | 34 | 35 | 42 | 44 | 61 | 64 => self.stretch.declining + 6,
            _ => self.stretch.declining,
        }
    }

    fn completion(&mut self) -> Line {
        if self.random.percent(self.interruption()) {
            return Line::Call(Call::Fired);
        }
        if self.random.percent(2) {
            return Line::Call(self.refused_completion());
        }
        if self.driver().state == 34 && self.random.percent(6) {
            return self.reset_and_send();
        }
        let under_way = self.driver().under_way.clone();
        let under_way = under_way.expect("a transfer is under way");
        let bytes = self.arrived(&under_way);
        Line::Call(Call::ReadWriteDone(bytes))
    }

    /// How many times in a hundred an interrupt comes first: more often while a frame is
    /// being read, so that every detour is taken.
    fn interruption(&self) -> u64 {
        match self.driver().state {
            34 | 63 | 65 | 68 => self.stretch.interruption * 2,
            _ => self.stretch.interruption,
        }
    }

    fn arrived(&mut self, under_way: &UnderWay) -> Vec<u8> {
        let state = self.driver().state;
        let handling = self.driver().flags.interrupt_handling;
        let (status, result) = match under_way.what.kind() {
            Kind::FrameRead if state == 63 => {
                (bytes::status(&mut self.random), self.first_length())
            }
            Kind::FrameRead => (bytes::status(&mut self.random), self.second_length()),
            Kind::FrameWrite => (bytes::status(&mut self.random), self.random.byte()),
            _ if handling => (self.status_at(state), self.interrupts(state)),
            _ => (self.status_at(state), self.random.byte()),
        };
        let reads = under_way.what.kind() == Kind::FrameRead;
        // The other bytes of the buffer are then those that stood there.
        let most = match reads && self.random.percent(20) {
            true => 2,
            false => under_way.shorter_length(),
        };
        bytes::arrived(&mut self.random, status, result, most)
    }

    /// A status that lets the state's case go on when things go well.
    fn status_at(&mut self, state: u8) -> u8 {
        let wanted = match state {
            33 | 36 | 43 => RX_AACK_ON,
            38 => PLL_ON,
            _ => return bytes::status(&mut self.random),
        };
        if self.random.percent(self.stretch.smooth) {
            return wanted;
        }
        match state {
            33 | 36 => self.random.pick(&BUSY),
            _ => bytes::status(&mut self.random),
        }
    }

    /// The length byte that decides whether the frame is read out, and is held.
    fn first_length(&mut self) -> u8 {
        if !self.random.percent(self.stretch.smooth) {
            return match self.random.percent(60) {
                true => self.random.pick(&OUTSIDE),
                false => self.random.byte(),
            };
        }
        match self.random.percent(40) {
            true => self.random.pick(&INSIDE),
            false => self.random.within(11, 127) as u8,
        }
    }

    /// The length byte of the frame itself: the held one, or one that spoils the reception.
    fn second_length(&mut self) -> u8 {
        let held = self.driver().reception.held_length;
        if self.random.percent(self.stretch.faithful) {
            return held;
        }
        match self.random.within(0, 99) {
            0..20 => held - 1,
            20..40 => held + 1,
            40..70 => self.random.pick(&[0, 1, 255]),
            70..80 => self.random.pick(&OUTSIDE),
            _ => self.random.byte(),
        }
    }

    /// What a detour in 64 shows: any of the bits that decide, with others, so that the
    /// value may be a length or none. Bit 2 leads to another frame, so it is less frequent.
    fn detour(&mut self) -> u8 {
        let others = match self.random.within(0, 4) {
            0 => 0,
            1 => 0x02,
            2 | 3 => self.random.byte() & 0x72,
            _ => 0x80 | (self.random.byte() & 0x72),
        };
        let mut looked_at = self.random.byte() & LOOKED_AT;
        if self.random.percent(self.stretch.smooth / 2) {
            looked_at &= !RX_START;
        }
        looked_at | others
    }

    /// What IRQ_STATUS shows: what the state waits for when things go well, else any of it.
    fn interrupts(&mut self, state: u8) -> u8 {
        let wanted = match state {
            27 => PLL_LOCK,
            // From a new driver, both bits together are the short way to READY.
            0 => self
                .random
                .pick(&[0, RX_START | TRX_END, RX_START | TRX_END]),
            29 => self.random.pick(&[RX_START, RX_START, RX_START | TRX_END]),
            44 => RX_START,
            40 | 61 => TRX_END,
            64 => return self.detour(),
            _ => 0,
        };
        if self.random.percent(self.stretch.smooth) {
            return wanted;
        }
        let others = match self.random.percent(30) {
            true => self.random.byte(),
            false => 0,
        };
        (self.random.byte() & LOOKED_AT) | (others & !LOOKED_AT)
    }
}
