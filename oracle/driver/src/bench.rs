//! The stand-ins that the driver is wired to: the SPI device, three pins and the four
//! listeners. They do nothing but keep, in order, what the driver asks of them.

use std::cell::{Cell, RefCell};

use kernel::ErrorCode;
use kernel::hil::{gpio, radio, spi};
use kernel::utilities::leasable_buffer::SubSliceMut;

use crate::action::{Action, Kind, Pin, PinAct, Transfer};
use crate::area::Area;

pub type Buffer = SubSliceMut<'static, u8>;

/// Bytes of a frame transfer before the frame's own.
pub const PSDU_OFFSET: usize = 2;

/// What a call has set going so far.
#[derive(Default)]
pub struct Log {
    actions: RefCell<Vec<Action>>,
    transfer: RefCell<Option<Transfer>>,
}

impl Log {
    /// Empties the log.
    pub fn take(&self) -> (Vec<Action>, Option<Transfer>) {
        (self.actions.take(), self.transfer.take())
    }

    fn act(&self, action: Action) {
        self.actions.borrow_mut().push(action);
    }

    /// The reset pin is cleared once more: clears in a row are counted as one action.
    fn clear_reset(&self) {
        let mut actions = self.actions.borrow_mut();
        match actions.last_mut() {
            Some(Action::ResetClear { count }) => *count += 1,
            _ => actions.push(Action::ResetClear { count: 1 }),
        }
    }
}

/// A transfer that the SPI layer has accepted and not completed.
pub struct UnderWay {
    pub kind: Kind,
    /// The first two bytes as they were offered.
    pub command: [u8; 2],
    pub write: Buffer,
    pub read: Option<Buffer>,
}

/// The SPI device: accepts every transfer and keeps its two buffers, unless it was told to
/// decline the next one.
pub struct Spi {
    area: &'static Area,
    log: &'static Log,
    under_way: Cell<Option<UnderWay>>,
    configured: Cell<bool>,
    declines: Cell<bool>,
}

impl Spi {
    /// What the next `configure` is told.
    pub fn set_configured(&self, configured: bool) {
        self.configured.set(configured);
    }

    /// The next transfer is declined as it is offered (see `session/declining`).
    pub fn decline_next(&self) {
        self.declines.set(true);
    }

    /// Puts a transfer under way, or none, and gives back the one that was.
    pub fn replace(&self, under_way: Option<UnderWay>) -> Option<UnderWay> {
        self.under_way.replace(under_way)
    }

    /// The transfer under way is offered again (request 2026-05), with its command bytes written
    /// anew: both of a register transfer, the first of a frame read, the command and n of a frame
    /// write. The driver is not asked.
    pub fn resume(&self) {
        let mut under_way = self.replace(None).expect("a transfer waits");
        let n = under_way.write.len() - PSDU_OFFSET;
        let [first, second] = under_way.command;
        let write = &mut under_way.write;
        write[0] = first;
        match under_way.kind {
            Kind::RegisterRead | Kind::RegisterWrite => write[1] = second,
            Kind::FrameWrite => write[1] = n as u8,
            Kind::FrameRead => {}
        }
        self.log.transfer.replace(Some(self.describe(&under_way)));
        self.replace(Some(under_way));
    }

    /// A transfer as it is offered, with the bytes that stand in the pool now.
    fn describe(&self, under_way: &UnderWay) -> Transfer {
        let read = under_way.read.as_ref();
        let read = read.expect("the driver reads in every transfer");
        Transfer {
            kind: under_way.kind,
            write_buffer: self.area.buffer_of(under_way.write.whole()),
            read_buffer: self.area.buffer_of(read.whole()),
            read_length: read.len(),
            sent: under_way.write.as_slice().to_vec(),
        }
    }
}

impl<'a> spi::SpiMasterDevice<'a> for Spi {
    fn set_client(&self, _client: &'a dyn spi::SpiMasterClient) {}

    fn configure(
        &self,
        cpol: spi::ClockPolarity,
        cpal: spi::ClockPhase,
        rate: u32,
    ) -> Result<(), ErrorCode> {
        let asked = (cpol, cpal, rate);
        let fixed = (
            spi::ClockPolarity::IdleLow,
            spi::ClockPhase::SampleLeading,
            100_000,
        );
        assert_eq!(asked, fixed, "the configuration that document 01 names");
        self.configured.get().then_some(()).ok_or(ErrorCode::FAIL)
    }

    fn read_write_bytes(&self, write: Buffer, read: Option<Buffer>) -> Result<(), spi::Declined> {
        if self.declines.take() {
            return Err((ErrorCode::BUSY, write, read));
        }
        let kind = Kind::of(write[0]).expect("a command for a register or a frame");
        let command = [write[0], write[1]];
        let under_way = UnderWay {
            kind,
            command,
            write,
            read,
        };
        self.log.transfer.replace(Some(self.describe(&under_way)));
        let earlier = self.replace(Some(under_way));
        assert!(earlier.is_none(), "one transfer at a time");
        Ok(())
    }
}

/// A pin that keeps what is done to it.
pub struct LoggedPin {
    pin: Pin,
    log: &'static Log,
}

impl LoggedPin {
    fn act(&self, act: PinAct) {
        self.log.act(Action::Pin { pin: self.pin, act });
    }
}

impl gpio::Pin for LoggedPin {
    fn make_output(&self) {
        self.act(PinAct::MakeOutput);
    }

    fn make_input(&self) {
        self.act(PinAct::MakeInput);
    }

    fn set_floating_state(&self, _state: gpio::FloatingState) {
        self.act(PinAct::SetFloatingState);
    }

    fn set(&self) {
        self.act(PinAct::Set);
    }

    fn clear(&self) {
        match self.pin {
            Pin::Reset => self.log.clear_reset(),
            _ => self.act(PinAct::Clear),
        }
    }
}

impl<'a> gpio::InterruptPin<'a> for LoggedPin {
    fn set_client(&self, _client: &'a dyn gpio::Client) {}

    fn enable_interrupts(&self, _mode: gpio::InterruptEdge) {
        self.act(PinAct::EnableInterrupts);
    }

    fn disable_interrupts(&self) {
        self.act(PinAct::DisableInterrupts);
    }
}

/// The client of all four kinds of notice. It calls nothing back.
pub struct Listener {
    area: &'static Area,
    log: &'static Log,
}

impl radio::PowerClient for Listener {
    fn changed(&self, on: bool) {
        self.log.act(Action::Power { on });
    }
}

impl radio::ConfigClient for Listener {
    fn config_done(&self, _result: Result<(), ErrorCode>) {
        self.log.act(Action::ConfigDone);
    }
}

impl radio::TxClient for Listener {
    fn send_done(&self, buf: &'static mut [u8], acked: bool, result: Result<(), ErrorCode>) {
        self.log.act(Action::Sent {
            buffer: self.area.buffer_of(buf),
            ack: acked,
            fail: result.is_err(),
        });
    }
}

impl radio::RxClient for Listener {
    fn receive(
        &self,
        buf: &'static mut [u8],
        frame_len: usize,
        _lqi: u8,
        crc_valid: bool,
        _result: Result<(), ErrorCode>,
    ) {
        self.log.act(Action::Received {
            buffer: self.area.buffer_of(buf),
            length: frame_len,
            crc: crc_valid,
        });
    }
}

/// Everything around one driver.
pub struct Bench {
    pub area: &'static Area,
    pub log: &'static Log,
    pub spi: Spi,
    pub reset: LoggedPin,
    pub sleep: LoggedPin,
    pub irq: LoggedPin,
    pub listener: Listener,
}

impl Bench {
    /// Makes a bench that lasts as long as the program: the driver keeps references to it.
    pub fn leak() -> &'static Bench {
        let area = Area::leak();
        let log: &Log = Box::leak(Box::default());
        let pin = |pin| LoggedPin { pin, log };
        Box::leak(Box::new(Bench {
            area,
            log,
            spi: Spi {
                area,
                log,
                under_way: Cell::new(None),
                configured: Cell::new(true),
                declines: Cell::new(false),
            },
            reset: pin(Pin::Reset),
            sleep: pin(Pin::Sleep),
            irq: pin(Pin::Irq),
            listener: Listener { area, log },
        }))
    }
}
