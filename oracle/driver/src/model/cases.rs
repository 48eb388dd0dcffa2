//! Each state's own case, which comes last in a completion. The states whose case is one
//! write are in `chain`; those that wait for an interrupt have nothing to do.

use super::chip;
use super::completion::Arrived;
use super::states::*;
use super::step::Step;
use crate::action::{Action, Pin, PinAct};

impl Step<'_> {
    pub fn own_case(&mut self, arrived: Arrived) {
        if self.chained() {
            return;
        }
        match self.driver.state {
            START..=ON_PLL_SET => self.starting(arrived.status),
            READY => self.ready(),
            SLEEP_TRX_OFF..=SLEEP_WAKE => self.sleeping(),
            TX_STATUS_PRECHECK1..=TX_PENDING => self.sending(arrived),
            CONFIG_DONE => self.config_done(),
            _ => self.receiving(arrived.result),
        }
    }

    fn starting(&mut self, status: u8) {
        match self.driver.state {
            START => self.transition_read(chip::IRQ_STATUS, START_PART_READ),
            START_PART_READ => self.transition_read(chip::TRX_STATUS, START_STATUS_READ),
            START_STATUS_READ if status == chip::STATUS_ON => {
                self.transition_write(chip::TRX_STATE, chip::COMMAND_OFF, START_TURNING_OFF);
            }
            START_STATUS_READ => self.set_ctrl1(),
            START_TURNING_OFF => {
                self.pin(Pin::Irq, PinAct::MakeInput);
                self.pin(Pin::Irq, PinAct::Clear);
                self.pin(Pin::Irq, PinAct::SetFloatingState);
                self.pin(Pin::Irq, PinAct::EnableInterrupts);
                self.set_ctrl1();
            }
            START_RPC_SET => self.transition_read(chip::TRX_STATUS, ON_STATUS_READ),
            _ => {}
        }
    }

    fn set_ctrl1(&mut self) {
        self.transition_write(chip::TRX_CTRL_1, chip::TRX_CTRL_1_VALUE, START_CTRL1_SET);
    }

    /// A waiting stop comes first; a power notice that is due waits for the next READY.
    fn ready(&mut self) {
        let flags = &mut self.driver.flags;
        if flags.sleep_pending {
            flags.sleep_pending = false;
            self.turn_off();
        } else if flags.power_client_pending {
            flags.power_client_pending = false;
            self.power_notice();
        }
    }

    /// The radio is told to turn off.
    pub fn turn_off(&mut self) {
        self.driver.flags.radio_on = false;
        self.transition_write(chip::TRX_STATE, chip::COMMAND_OFF, SLEEP_TRX_OFF);
    }

    fn power_notice(&mut self) {
        let on = self.driver.flags.radio_on;
        if self.driver.listeners.power {
            self.act(Action::Power { on });
        }
    }

    fn sleeping(&mut self) {
        match self.driver.state {
            SLEEP_TRX_OFF => {
                self.pin(Pin::Sleep, PinAct::Set);
                if self.driver.flags.wake_pending {
                    self.transition_read(chip::TRX_STATUS, SLEEP_WAKE);
                } else {
                    self.driver.state = SLEEP;
                    self.power_notice();
                    self.pin(Pin::Irq, PinAct::DisableInterrupts);
                }
            }
            SLEEP_WAKE => {
                self.pin(Pin::Sleep, PinAct::Clear);
                self.pin(Pin::Irq, PinAct::EnableInterrupts);
                self.transition_write(chip::TRX_STATE, chip::COMMAND_RX_AACK_ON, READY);
            }
            _ => {}
        }
    }

    fn sending(&mut self, arrived: Arrived) {
        match self.driver.state {
            TX_STATUS_PRECHECK1 if busy(arrived.status) => self.driver.state = TX_PENDING,
            TX_STATUS_PRECHECK1 => {
                self.driver.state = TX_WRITING_FRAME;
                self.frame_write();
            }
            TX_WRITING_FRAME_DONE => {
                self.transition_read(chip::TRX_STATUS, TX_STATUS_PRECHECK2);
            }
            TX_STATUS_PRECHECK2 if busy(arrived.status) => {
                self.driver.flags.receiving = true;
                self.driver.state = RX;
            }
            TX_STATUS_PRECHECK2 => {
                self.transition_write(chip::TRX_STATE, chip::COMMAND_PLL_ON, TX_PLL_START);
            }
            TX_PLL_START => self.transition_read(chip::TRX_STATUS, TX_PLL_WAIT),
            TX_PLL_WAIT => self.wait_for_pll(arrived.status),
            TX_READ_ACK => self.transition_read(chip::TRX_STATE, TX_RETURN_TO_RX),
            TX_RETURN_TO_RX if arrived.status == chip::STATUS_RX_AACK_ON => {
                self.end_send(arrived.result);
            }
            TX_RETURN_TO_RX => self.register_read(chip::TRX_STATUS),
            _ => {}
        }
    }

    fn wait_for_pll(&mut self, status: u8) {
        self.driver.flags.transmitting = true;
        match status {
            chip::STATUS_IN_PROGRESS => self.transition_read(chip::TRX_STATUS, TX_PLL_WAIT),
            chip::STATUS_PLL_ON => {
                self.transition_write(chip::TRX_STATE, chip::COMMAND_TX_ARET_ON, TX_ARET_ON);
            }
            _ => self.transition_write(chip::TRX_STATE, chip::COMMAND_PLL_ON, TX_PLL_WAIT),
        }
    }

    /// The buffer of a send is handed back, or dropped where nobody listens.
    fn end_send(&mut self, result: u8) {
        self.driver.flags.transmitting = false;
        self.transition_read(chip::TRX_STATUS, READY);
        let Some(lent) = self.driver.tx_buf.take() else {
            return;
        };
        let buffer = lent.buffer;
        let trac = result & chip::TRAC_MASK;
        let (ack, fail) = (trac == 0, trac == chip::TRAC_CHANNEL_ACCESS_FAILURE);
        self.act(match self.driver.listeners.transmit {
            true => Action::Sent { buffer, ack, fail },
            false => Action::Dropped { buffer },
        });
    }

    fn config_done(&mut self) {
        self.driver.flags.config_pending = false;
        self.transition_read(chip::TRX_STATUS, READY);
        if self.driver.listeners.config {
            self.act(Action::ConfigDone);
        }
    }
}

/// Whether a status is that of a radio busy receiving or sending.
fn busy(status: u8) -> bool {
    matches!(
        status,
        chip::STATUS_BUSY_RX_AACK | chip::STATUS_BUSY_TX_ARET | chip::STATUS_BUSY_RX
    )
}
