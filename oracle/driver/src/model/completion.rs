//! A completion, in document 01's order: the arrived bytes, buffer return, interrupt
//! result, READY bookkeeping, pending interrupt, waiting commit, the state's own case.

use super::chip;
use super::driver::{UnderWay, What};
use super::states::*;
use super::step::Step;

/// What the driver looks at of the bytes that arrived.
#[derive(Clone, Copy)]
pub struct Arrived {
    /// Byte 0 without its upper bits.
    pub status: u8,
    /// Byte 1.
    pub result: u8,
}

/// Whether a step goes on, or has ended with the transfer that it started.
#[derive(Clone, Copy, PartialEq, Eq)]
enum Goes {
    On,
    Ended,
}

impl Step<'_> {
    /// The transfer under way ends with these bytes, two or more.
    pub fn read_write_done(&mut self, bytes: &[u8]) {
        let Some(transfer) = self.driver.under_way.take() else {
            return;
        };
        let (_, read_buffer) = transfer.what.buffers();
        self.write(read_buffer, bytes);
        let arrived = Arrived {
            status: bytes[0] & chip::STATUS_MASK,
            result: bytes[1],
        };
        self.return_buffers(&transfer);
        self.note_length(&transfer, arrived.result);
        if self.interrupt_result(arrived.result) == Goes::Ended {
            return;
        }
        self.note_ready();
        if self.pending_interrupt() == Goes::Ended || self.waiting_commit() == Goes::Ended {
            return;
        }
        self.own_case(arrived);
    }

    /// Both buffers go back where they came from. A frame transfer's state becomes its
    /// DONE state, so that its buffers are put back once.
    fn return_buffers(&mut self, transfer: &UnderWay) {
        self.put_back(transfer);
        let driver = &mut *self.driver;
        driver.state = match (transfer.what, driver.state) {
            (What::FrameRead(_), RX_READING_FRAME_LEN) => RX_READING_FRAME_LEN_DONE,
            (What::FrameRead(_), RX_READING_FRAME) => RX_READING_FRAME_DONE,
            (What::FrameWrite(_), TX_WRITING_FRAME) => TX_WRITING_FRAME_DONE,
            (_, state) => state,
        };
    }

    /// Each frame read brings a length byte: the first is held, the second is compared with
    /// it (request 2026-13).
    fn note_length(&mut self, transfer: &UnderWay, byte: u8) {
        let What::FrameRead(_) = transfer.what else {
            return;
        };
        let reception = &mut self.driver.reception;
        match self.driver.state {
            RX_READING_FRAME_LEN_DONE => reception.held_length = byte,
            RX_READING_FRAME_DONE => reception.spoiled = differs(byte, reception.held_length),
            _ => {}
        }
    }

    /// Where IRQ_STATUS was read, what it shows.
    fn interrupt_result(&mut self, interrupt: u8) -> Goes {
        if !self.driver.flags.interrupt_handling {
            return Goes::On;
        }
        self.driver.flags.interrupt_handling = false;
        // On the way to sleep it is passed over.
        if matches!(self.driver.state, SLEEP_TRX_OFF | SLEEP) {
            return Goes::On;
        }
        let shows = |bit| interrupt & bit != 0;
        match self.driver.state {
            ON_PLL_WAITING if shows(chip::IRQ_0_PLL_LOCK) => self.driver.state = ON_PLL_SET,
            TX_TRANSMITTING if shows(chip::IRQ_3_TRX_END) => self.driver.state = TX_DONE,
            _ => {}
        }
        if shows(chip::IRQ_2_RX_START) {
            self.driver.flags.receiving = true;
            self.driver.state = RX;
        }
        if shows(chip::IRQ_3_TRX_END) && self.driver.flags.receiving {
            return self.frame_received();
        }
        Goes::On
    }

    /// A frame is whole in the radio: it is read out if there is a buffer for it; if not,
    /// the step ends with a read.
    fn frame_received(&mut self) -> Goes {
        self.driver.flags.receiving = false;
        if !self.driver.line.is_empty() {
            self.driver.state = RX_START_READING;
            return Goes::On;
        }
        match self.driver.flags.transmitting {
            true => self.transition_read(chip::MIN, TX_STATUS_PRECHECK1),
            false => self.transition_read(chip::TRX_STATUS, READY),
        }
        Goes::Ended
    }

    /// Whatever led to READY, the radio is on there; a power notice is due if it was not.
    fn note_ready(&mut self) {
        if self.driver.state != READY {
            return;
        }
        let flags = &mut self.driver.flags;
        flags.wake_pending = false;
        flags.power_client_pending |= !flags.radio_on;
        flags.radio_on = true;
    }

    /// An interrupt that came during the transfer, put off while a frame is being read.
    fn pending_interrupt(&mut self) -> Goes {
        let put_off = matches!(
            self.driver.state,
            RX_TURNING_OFF | RX_START_READING | RX_READING_FRAME_DONE | RX_READING_FRAME_FCS_DONE
        );
        if put_off || !self.driver.flags.interrupt_pending {
            return Goes::On;
        }
        self.driver.flags.interrupt_pending = false;
        self.handle_interrupt();
        Goes::Ended
    }

    /// A commit that waited for READY starts; request 2026-02 lets the step end there.
    fn waiting_commit(&mut self) -> Goes {
        if !self.driver.flags.config_pending || self.driver.state != READY {
            return Goes::On;
        }
        self.start_commit();
        Goes::Ended
    }
}

/// Whether a second length byte spoils the reception. With the feature `planted-spoiled` only
/// a smaller one does.
fn differs(second: u8, held_length: u8) -> bool {
    if cfg!(feature = "planted-spoiled") {
        second < held_length
    } else {
        second != held_length
    }
}
