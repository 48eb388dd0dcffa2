//! One call's step on a driver: what is altered, and what the call sets going. The starters
//! of transfers are here: each does nothing where a transfer is under way or waits.

use super::chip;
use super::driver::{Driver, Lent, UnderWay, What};
use super::states::{RX, RX_TURNING_OFF};
use crate::action::{Action, Pin, PinAct, Transfer};
use crate::area::{BUFFER, SPI_BUF, SPI_TX};

/// Bytes of a frame transfer before the frame's own.
const PSDU_OFFSET: usize = 2;
/// Both lengths of a register transfer.
const REGISTER: usize = 2;

pub struct Step<'a> {
    pub driver: &'a mut Driver,
    pub pool: &'a mut [u8],
    /// In order.
    pub actions: Vec<Action>,
    pub transfer: Option<Transfer>,
}

impl<'a> Step<'a> {
    pub fn new(driver: &'a mut Driver, pool: &'a mut [u8]) -> Step<'a> {
        Step {
            driver,
            pool,
            actions: Vec::new(),
            transfer: None,
        }
    }

    pub fn act(&mut self, action: Action) {
        self.actions.push(action);
    }

    pub fn pin(&mut self, pin: Pin, act: PinAct) {
        self.act(Action::Pin { pin, act });
    }

    /// Enters a state and reads a register. The state is entered even where the read
    /// cannot start.
    pub fn transition_read(&mut self, register: u8, state: u8) {
        self.driver.state = state;
        self.register_read(register);
    }

    /// Enters a state and writes a register. The state is entered even where the write
    /// cannot start.
    pub fn transition_write(&mut self, register: u8, value: u8, state: u8) {
        self.driver.state = state;
        self.register_write(register, value);
    }

    pub fn register_read(&mut self, register: u8) {
        self.register(What::RegisterRead, [chip::REGISTER_READ + register, 0]);
    }

    fn register_write(&mut self, register: u8, value: u8) {
        self.register(
            What::RegisterWrite,
            [chip::REGISTER_WRITE + register, value],
        );
    }

    fn register(&mut self, what: What, command: [u8; 2]) {
        if self.driver.occupied() {
            return;
        }
        self.offer_register(what, command);
    }

    pub fn offer_register(&mut self, what: What, command: [u8; 2]) {
        self.driver.own.spi_tx = false;
        self.driver.own.spi_rx = false;
        self.write(SPI_TX, &command);
        self.begin(what, REGISTER, REGISTER);
    }

    /// Reads a frame of n bytes into the oldest receive buffer.
    pub fn frame_read(&mut self, n: u8) {
        if self.driver.occupied() || self.driver.line.is_empty() {
            return;
        }
        let write_length = PSDU_OFFSET + usize::from(n);
        self.driver.spi_buf.present = write_length;
        self.offer_frame_read(write_length);
    }

    pub fn offer_frame_read(&mut self, write_length: usize) {
        let lent = self.driver.line.remove(0);
        self.driver.own.spi_buf = false;
        self.write(SPI_BUF, &[chip::FRAME_READ]);
        self.begin(What::FrameRead(lent), write_length, lent.length);
    }

    /// Writes the frame in the transmit buffer.
    pub fn frame_write(&mut self) {
        if self.driver.occupied() {
            return;
        }
        let write_length = PSDU_OFFSET + usize::from(self.driver.tx_len);
        let read_length = self.driver.spi_buf.present;
        self.offer_frame_write(&[chip::FRAME_WRITE], write_length, read_length);
    }

    /// `command`: as much of it as is written; the length byte stands there since `transmit`.
    pub fn offer_frame_write(&mut self, command: &[u8], write_length: usize, read_length: usize) {
        let Some(lent) = self.driver.tx_buf.take() else {
            return;
        };
        self.driver.own.spi_buf = false;
        self.write(lent.buffer, command);
        self.begin(What::FrameWrite(lent), write_length, read_length);
    }

    /// An interrupt: the read of IRQ_STATUS; in RX reception is turned off first; during a
    /// transfer, a waiting one too, it is only remembered.
    pub fn handle_interrupt(&mut self) {
        if self.driver.occupied() {
            self.driver.flags.interrupt_pending = true;
        } else if self.driver.state == RX {
            self.transition_write(chip::TRX_STATE, chip::COMMAND_PLL_ON, RX_TURNING_OFF);
        } else {
            self.driver.flags.interrupt_handling = true;
            self.register_read(chip::IRQ_STATUS);
        }
    }

    /// Writes bytes at the beginning of a buffer's part of the pool.
    pub fn write(&mut self, buffer: usize, bytes: &[u8]) {
        let start = buffer * BUFFER;
        self.pool[start..start + bytes.len()].copy_from_slice(bytes);
    }

    /// A byte of a lent buffer, as the pool has it now.
    pub fn byte(&self, lent: Lent, place: usize) -> u8 {
        self.pool[lent.buffer * BUFFER + place]
    }

    /// Puts a transfer under way whose buffers were taken from their places; what is sent
    /// is what the pool has there now.
    fn begin(&mut self, what: What, write_length: usize, read_length: usize) {
        let (write_buffer, read_buffer) = what.buffers();
        let start = write_buffer * BUFFER;
        self.transfer = Some(Transfer {
            kind: what.kind(),
            write_buffer,
            read_buffer,
            read_length,
            sent: self.pool[start..start + write_length].to_vec(),
        });
        self.driver.under_way = Some(UnderWay {
            what,
            command: [self.pool[start], self.pool[start + 1]],
            write_length,
            read_length,
        });
    }
}
