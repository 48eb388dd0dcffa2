//! Request 2026-05: what happens when the SPI layer declines a transfer, and when the
//! transfer is offered again. Neither alters a state, a flag or a length.

use super::chip;
use super::driver::{UnderWay, Waiting, What};
use super::step::Step;
use crate::action::Kind;
use crate::area::{BUFFER, SPI_TX};

impl Step<'_> {
    /// The transfer under way was declined: its buffers go back to their places, and it waits.
    pub fn declined(&mut self) {
        let Some(transfer) = self.driver.under_way.take() else {
            return;
        };
        self.put_back(&transfer);
        self.driver.waiting = Some(Waiting {
            kind: transfer.what.kind(),
            command: transfer.command,
            write_length: transfer.write_length,
            read_length: transfer.read_length,
        });
    }

    /// The transfer that waits is offered again, with its command bytes written anew: both of a
    /// register transfer, the first of a frame read, the command and n of a frame write. The
    /// other bytes are the pool's.
    pub fn resume(&mut self) {
        let Some(waiting) = self.driver.waiting.take() else {
            return;
        };
        let (write_length, read_length) = (waiting.write_length, waiting.read_length);
        match waiting.kind {
            Kind::RegisterRead => self.offer_register(What::RegisterRead, self.again(&waiting)),
            Kind::RegisterWrite => self.offer_register(What::RegisterWrite, self.again(&waiting)),
            Kind::FrameRead => self.offer_frame_read(write_length),
            Kind::FrameWrite => {
                let command = [chip::FRAME_WRITE, self.driver.tx_len];
                self.offer_frame_write(&command, write_length, read_length);
            }
        }
    }

    /// A register transfer's bytes as they are offered again. With the feature `planted-declined`
    /// the second is what stands in the pool.
    fn again(&self, waiting: &Waiting) -> [u8; 2] {
        let [first, second] = waiting.command;
        match cfg!(feature = "planted-declined") {
            true => [first, self.pool[SPI_TX * BUFFER + 1]],
            false => [first, second],
        }
    }

    /// Both buffers go back where they came from; a receive buffer to the front of the line.
    pub fn put_back(&mut self, transfer: &UnderWay) {
        let driver = &mut *self.driver;
        match transfer.what {
            What::RegisterRead | What::RegisterWrite => {
                driver.own.spi_tx = true;
                driver.own.spi_rx = true;
            }
            What::FrameRead(lent) => {
                driver.own.spi_buf = true;
                driver.line.insert(0, lent);
            }
            What::FrameWrite(lent) => {
                driver.own.spi_buf = true;
                driver.tx_buf = Some(lent);
            }
        }
    }
}
