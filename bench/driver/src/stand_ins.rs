//! The stand-ins of the Rust driver: they mix what they are asked into a digest and keep the buffers of the transfer under way.

use std::cell::Cell;

use kernel::ErrorCode;
use kernel::hil::{gpio, radio, spi};
use kernel::utilities::leasable_buffer::SubSliceMut;

pub type Buffer = SubSliceMut<'static, u8>;

pub fn mix(digest: u64, byte: u8) -> u64 {
    digest.rotate_left(7) ^ u64::from(byte)
}

/// The buffers, 160 bytes apart, as raw memory: the driver takes `&'static mut` slices of it.
pub struct Pool(*mut u8);

impl Pool {
    pub fn leak() -> Pool {
        Pool(Box::leak(Box::new([0u8; 3040])).as_mut_ptr())
    }

    /// Buffer `number`, which the driver does not have.
    pub fn lend(&self, number: usize, length: usize) -> &'static mut [u8] {
        assert!(number < 19 && length <= 160);
        // SAFETY: inside the leaked pool; a buffer is lent again only after the driver gave it back.
        unsafe { std::slice::from_raw_parts_mut(self.0.add(number * 160), length) }
    }

    fn number(&self, slice: &[u8]) -> u8 {
        ((slice.as_ptr() as usize - self.0 as usize) / 160) as u8
    }
}

/// The SPI device, the pins and the listeners of one driver.
pub struct Around {
    pub pool: Pool,
    pub sent: Cell<u64>,
    pub told: Cell<u64>,
    pub under_way: Cell<Option<(Buffer, Option<Buffer>)>>,
    /// The first byte of the transfer that began last; 0 after it ended.
    pub first: Cell<u8>,
}

impl Around {
    pub fn leak() -> &'static Around {
        Box::leak(Box::new(Around {
            pool: Pool::leak(),
            sent: Cell::new(0),
            told: Cell::new(0),
            under_way: Cell::new(None),
            first: Cell::new(0),
        }))
    }

    fn tell(&self, bytes: &[u8]) {
        let told = bytes
            .iter()
            .fold(self.told.get(), |digest, byte| mix(digest, *byte));
        self.told.set(told);
    }
}

impl<'a> spi::SpiMasterDevice<'a> for Around {
    fn set_client(&self, _client: &'a dyn spi::SpiMasterClient) {}

    fn configure(
        &self,
        _: spi::ClockPolarity,
        _: spi::ClockPhase,
        _: u32,
    ) -> Result<(), ErrorCode> {
        Ok(())
    }

    fn read_write_bytes(&self, write: Buffer, read: Option<Buffer>) -> Result<(), spi::Declined> {
        let length = read.as_ref().map_or(0, |read| read.len());
        let sent = mix(self.sent.get(), length as u8);
        let sent = write
            .as_slice()
            .iter()
            .fold(sent, |digest, byte| mix(digest, *byte));
        self.sent.set(sent);
        self.first.set(write[0]);
        self.under_way.set(Some((write, read)));
        Ok(())
    }
}

/// A pin: what is done to it is not kept.
pub struct Pin;

impl gpio::Pin for Pin {
    fn make_output(&self) {}
    fn make_input(&self) {}
    fn set_floating_state(&self, _state: gpio::FloatingState) {}
    fn set(&self) {}
    fn clear(&self) {}
}

impl<'a> gpio::InterruptPin<'a> for Pin {
    fn set_client(&self, _client: &'a dyn gpio::Client) {}
    fn enable_interrupts(&self, _mode: gpio::InterruptEdge) {}
    fn disable_interrupts(&self) {}
}

impl radio::PowerClient for Around {
    fn changed(&self, on: bool) {
        self.tell(&[1, on.into()]);
    }
}

impl radio::ConfigClient for Around {
    fn config_done(&self, _result: Result<(), ErrorCode>) {
        self.tell(&[4]);
    }
}

impl radio::TxClient for Around {
    fn send_done(&self, buf: &'static mut [u8], acked: bool, result: Result<(), ErrorCode>) {
        self.tell(&[
            2,
            self.pool.number(buf),
            acked.into(),
            result.is_err().into(),
        ]);
    }
}

impl radio::RxClient for Around {
    fn receive(
        &self,
        buf: &'static mut [u8],
        frame_len: usize,
        _lqi: u8,
        crc_valid: bool,
        _result: Result<(), ErrorCode>,
    ) {
        self.tell(&[3, self.pool.number(buf), frame_len as u8, crc_valid.into()]);
    }
}
