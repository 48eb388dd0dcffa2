//! The bytes that arrive with a completion, chosen by what the driver makes of them.

use super::Generator;
use super::bytes::{self, BUSY, PLL_LOCK, PLL_ON, RX_AACK_ON, RX_START, TRX_END};
use crate::action::Kind;
use crate::domain;
use crate::line::{Call, Line};

const IN_PROGRESS: u8 = 0x1F;

/// Frame lengths about which something is decided.
const LENGTHS: [u8; 12] = [0, 1, 2, 10, 11, 12, 40, 126, 127, 128, 129, 255];

impl Generator<'_> {
    /// The end of the transfer under way, or what must come before it.
    pub fn completion(&mut self) -> Line {
        let state = self.view().state();
        if state == 64 {
            return self.other_way();
        }
        if self.random.percent(self.interruption()) {
            return self.interrupted(state);
        }
        let bytes = self.arrived();
        Line::Call(Call::ReadWriteDone(bytes))
    }

    /// The domain ends with the interrupt's detour that is under way: back to a mark, or to
    /// the beginning of the script, or on with a new driver.
    fn other_way(&mut self) -> Line {
        match self.random.percent(75) {
            true => Line::Back,
            false => self.new_driver(),
        }
    }

    /// An interrupt comes before the transfer ends. In 63 it leads to 64, so the reception
    /// is marked: it goes on without the interrupt later.
    fn interrupted(&mut self, state: u8) -> Line {
        let fired = Line::Call(Call::Fired);
        if state != 63 {
            return fired;
        }
        self.planned.push_back(fired);
        Line::Mark
    }

    /// How many times in a hundred an interrupt comes first. During these transfers it
    /// leads to states that are met in no other way.
    fn interruption(&self) -> u64 {
        let image = &self.view().image;
        match image.state() {
            // To 35 and 64: the frame's buffers are back, the interrupt comes between.
            34 | 63 => 15,
            // To 28 and 42: one interrupt after another.
            27 | 40 if image.flags.interrupt_handling => 15,
            _ => 2,
        }
    }

    fn arrived(&mut self) -> Vec<u8> {
        let Some(transfer) = &self.view().under_way else {
            return Vec::new();
        };
        let (kind, most) = (transfer.kind, transfer.shorter_length());
        let image = &self.view().image;
        let (state, handling) = (image.state(), image.flags.interrupt_handling);
        let (status, result) = match kind {
            Kind::FrameRead => (bytes::status(&mut self.random), self.length()),
            Kind::FrameWrite => (bytes::status(&mut self.random), self.random.byte()),
            _ if handling => (self.status_at(state), self.interrupts(state)),
            _ => (self.status_at(state), self.random.byte()),
        };
        bytes::arrived(&mut self.random, status, result, most)
    }

    /// A status that lets the state's case go on more often than not.
    fn status_at(&mut self, state: u8) -> u8 {
        let (chance, wanted) = match state {
            2 => (50, 0x00),
            33 | 36 => (75, RX_AACK_ON),
            38 => (50, PLL_ON),
            43 => (70, RX_AACK_ON),
            _ => return bytes::status(&mut self.random),
        };
        if self.random.percent(chance) {
            return wanted;
        }
        match state {
            33 | 36 => self.random.pick(&BUSY),
            38 if self.random.percent(50) => IN_PROGRESS,
            _ => bytes::status(&mut self.random),
        }
    }

    /// A frame's length byte. The first decides whether the frame is read out; the second is
    /// the same.
    fn length(&mut self) -> u8 {
        if let Some(second) = domain::second_length(self.view()) {
            return second;
        }
        match self.random.percent(50) {
            true => self.random.pick(&LENGTHS),
            false => self.random.within(11, 127) as u8,
        }
    }

    /// What IRQ_STATUS shows: most often what the state waits for, else any of it.
    fn interrupts(&mut self, state: u8) -> u8 {
        let wanted = match state {
            27 => PLL_LOCK,
            29 | 44 => RX_START,
            40 | 61 => TRX_END,
            _ => 0,
        };
        if self.random.percent(65) {
            return wanted;
        }
        let looked_at = PLL_LOCK | RX_START | TRX_END;
        let others = if self.random.percent(30) {
            self.random.byte()
        } else {
            0
        };
        (self.random.byte() & looked_at) | (others & !looked_at)
    }
}
