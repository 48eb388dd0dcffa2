//! The own cases of the states in which a frame is received, and what becomes of the
//! receive buffer that it was read into. The length is the held one throughout (request
//! 2026-13).

use super::chip;
use super::states::*;
use super::step::Step;
use crate::action::Action;

/// Frame lengths that are read out.
pub const FRAME_LENGTHS: std::ops::RangeInclusive<u8> = 11..=127;
/// Bytes of the frame check at a frame's end.
const MFR_SIZE: u8 = 2;

impl Step<'_> {
    pub fn receiving(&mut self, result: u8) {
        match self.driver.state {
            RX_TURNING_OFF => {
                self.transition_read(chip::IRQ_STATUS, RX_READY_TO_READ);
                self.driver.flags.interrupt_handling = true;
            }
            RX_START_READING => {
                self.driver.state = RX_READING_FRAME_LEN;
                self.frame_read(0);
            }
            RX_READING_FRAME_LEN_DONE => self.read_out(),
            RX_READING_FRAME_DONE => {
                self.transition_read(chip::PHY_RSSI, RX_READING_FRAME_FCS_DONE);
            }
            RX_READING_FRAME_FCS_DONE => {
                self.driver.flags.crc_valid = result & chip::CRC_VALID != 0;
                let command = chip::COMMAND_RX_AACK_ON;
                self.transition_write(chip::TRX_STATE, command, RX_ENABLING_RECEPTION);
            }
            RX_ENABLING_RECEPTION => self.end_reception(),
            _ => {}
        }
    }

    /// A frame of the held length is read out, or passed over.
    fn read_out(&mut self) {
        let length = self.driver.reception.held_length;
        if FRAME_LENGTHS.contains(&length) {
            self.driver.state = RX_READING_FRAME;
            self.frame_read(length);
        } else {
            self.go_on();
        }
    }

    /// A send that waits has its turn, else READY.
    fn go_on(&mut self) {
        let next = match self.driver.flags.transmitting {
            true => TX_STATUS_PRECHECK1,
            false => READY,
        };
        self.transition_read(chip::TRX_STATUS, next);
    }

    fn end_reception(&mut self) {
        self.driver.flags.receiving = false;
        self.driver.flags.sleep_pending = false;
        self.go_on();
        self.hand_back();
    }

    /// The front of the line is handed back; without a listener it goes to the line's end
    /// (request 2026-07). A spoiled frame leaves it where it is.
    fn hand_back(&mut self) {
        let reception = &self.driver.reception;
        if reception.spoiled || self.driver.line.is_empty() {
            return;
        }
        let length = reception.held_length - MFR_SIZE;
        let lent = self.driver.line.remove(0);
        if !self.driver.listeners.receive {
            self.driver.line.push(lent);
            return;
        }
        self.act(Action::Received {
            buffer: lent.buffer,
            length: usize::from(length),
            crc: self.driver.flags.crc_valid,
        });
    }
}
