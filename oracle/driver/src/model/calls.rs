//! Makes one call of a script on a driver: its refusal, or what it does and returns.

use super::chip;
use super::driver::{Driver, Lent};
use super::refusals;
use super::states::*;
use super::step::Step;
use crate::action::{Action, Pin, PinAct, Transfer};
use crate::answer::{Answer, Value};
use crate::line::{Call, Query};

/// The driver that a refused `new` puts in place, which is also there before any `new`.
pub const FIRST_LENGTH: usize = 129;
pub const FIRST_CHANNEL: u8 = 26;

/// How often `reset` clears the reset pin.
const CLEARS: u32 = 10_000;
/// Bytes of the frame check that the radio adds to what is transmitted.
const MFR_SIZE: u8 = 2;

/// What a call yielded.
pub struct Made {
    pub answer: Answer,
    pub actions: Vec<Action>,
    pub transfer: Option<Transfer>,
    pub value: Option<Value>,
}

/// Makes the call. `pool_length`: how much of the pool it is lent.
pub fn make(driver: &mut Driver, pool: &mut [u8], pool_length: usize, call: &Call) -> Made {
    let answer = refusals::answer(driver, pool_length, call);
    let mut step = Step::new(driver, pool);
    match answer {
        Answer::Done => step.call(call),
        _ => step.refused(call, answer),
    }
    let (actions, transfer) = (step.actions, step.transfer);
    Made {
        answer,
        actions,
        transfer,
        value: value(driver, call),
    }
}

impl Step<'_> {
    /// What a refused call alters all the same.
    fn refused(&mut self, call: &Call, answer: Answer) {
        match (call, answer) {
            (Call::Start, Answer::Already) => self.driver.flags.sleep_pending = false,
            (Call::New { .. }, _) => *self.driver = Driver::new(FIRST_LENGTH, FIRST_CHANNEL),
            _ => {}
        }
    }

    /// An accepted call.
    fn call(&mut self, call: &Call) {
        let settings = &mut self.driver.settings;
        match *call {
            Call::New { length, channel } => *self.driver = Driver::new(length as usize, channel),
            Call::Start => self.start(),
            Call::Stop => self.stop(),
            Call::ConfigCommit => self.config_commit(),
            Call::Fired => self.handle_interrupt(),
            Call::ReadWriteDone(ref bytes) => self.read_write_done(bytes),
            Call::Declined => self.declined(),
            Call::Resume => self.resume(),
            Call::Transmit { buffer, length, n } => self.transmit(lent(buffer, length), n as u8),
            Call::SetReceiveBuffer { buffer, length } => self.lend(lent(buffer, length)),
            Call::Reset { .. } => self.reset(),
            Call::SetAddress(address) => settings.addr = address,
            Call::SetPan(pan) => settings.pan = pan,
            Call::SetAddressLong(bytes) => settings.addr_long = bytes,
            Call::SetTxPower(power) => settings.tx_power = power,
            Call::SetChannel(channel) => settings.channel = channel,
            Call::SetClient { client, present } => self.driver.listeners.set(client, present),
            Call::Query(_) => {}
        }
    }

    fn start(&mut self) {
        self.driver.flags.sleep_pending = false;
        if self.driver.state == SLEEP {
            self.transition_read(chip::TRX_STATUS, SLEEP_WAKE);
        } else {
            self.driver.flags.wake_pending = true;
            self.register_read(chip::PART_NUM);
        }
    }

    fn stop(&mut self) {
        match self.driver.state {
            READY | ON_PLL_WAITING => self.turn_off(),
            _ => self.driver.flags.sleep_pending = true,
        }
    }

    /// The commit starts in READY; during a transfer, a waiting one too, as everywhere else, it
    /// only waits (requests 2026-02 and 2026-05).
    fn config_commit(&mut self) {
        if self.driver.flags.config_pending {
            return;
        }
        self.driver.flags.config_pending = true;
        if self.driver.state == READY && !self.driver.occupied() {
            self.start_commit();
        }
    }

    /// The frame's length byte is written at once; the send starts in READY, unless a
    /// frame is being received.
    fn transmit(&mut self, lent: Lent, length: u8) {
        let n = length + MFR_SIZE;
        let command = self.byte(lent, 0);
        self.write(lent.buffer, &[command, n]);
        self.driver.tx_buf = Some(lent);
        self.driver.tx_len = n;
        self.driver.flags.transmitting = true;
        if !self.driver.flags.receiving && self.driver.state == READY {
            self.transition_read(chip::TRX_STATUS, TX_STATUS_PRECHECK1);
        }
    }

    /// A receive buffer goes to the end of the line. The feature `planted` puts it in
    /// front, so that the newest is used first.
    fn lend(&mut self, lent: Lent) {
        let line = &mut self.driver.line;
        let at = if cfg!(feature = "planted") {
            0
        } else {
            line.len()
        };
        line.insert(at, lent);
    }

    fn reset(&mut self) {
        self.pin(Pin::Reset, PinAct::MakeOutput);
        self.pin(Pin::Sleep, PinAct::MakeOutput);
        self.act(Action::ResetClear { count: CLEARS });
        self.pin(Pin::Reset, PinAct::Set);
        self.pin(Pin::Sleep, PinAct::Clear);
        self.driver.flags.transmitting = false;
    }
}

/// A buffer that is accepted: its numbers are small.
fn lent(buffer: u64, length: u64) -> Lent {
    Lent {
        buffer: buffer as usize,
        length: length as usize,
    }
}

/// What the call returns besides its answer.
fn value(driver: &Driver, call: &Call) -> Option<Value> {
    let Call::Query(query) = call else {
        return None;
    };
    let settings = &driver.settings;
    Some(match query {
        Query::Initialize => return None,
        Query::IsOn => Value::One(driver.flags.radio_on.into()),
        Query::Busy => Value::One((!matches!(driver.state, READY | SLEEP)).into()),
        Query::GetAddress => Value::One(settings.addr.into()),
        Query::GetAddressLong => Value::Eight(settings.addr_long),
        Query::GetPan => Value::One(settings.pan.into()),
        Query::GetTxPower => Value::One(settings.tx_power.into()),
        Query::GetChannel => Value::One(settings.channel.into()),
    })
}
