//! The SPI bus as its master: one device that exchanges bytes, and its client.

use crate::ErrorCode;
use crate::utilities::leasable_buffer::SubSliceMut;

#[derive(Clone, Copy, Debug, PartialEq, Eq)]
pub enum ClockPolarity {
    IdleLow,
    IdleHigh,
}

#[derive(Clone, Copy, Debug, PartialEq, Eq)]
pub enum ClockPhase {
    SampleLeading,
    SampleTrailing,
}

/// A transfer that was declined: the reason, and both buffers given back.
pub type Declined = (
    ErrorCode,
    SubSliceMut<'static, u8>,
    Option<SubSliceMut<'static, u8>>,
);

pub trait SpiMasterDevice<'a> {
    fn set_client(&self, client: &'a dyn SpiMasterClient);
    fn configure(&self, cpol: ClockPolarity, cpal: ClockPhase, rate: u32) -> Result<(), ErrorCode>;
    fn read_write_bytes(
        &self,
        write_buffer: SubSliceMut<'static, u8>,
        read_buffer: Option<SubSliceMut<'static, u8>>,
    ) -> Result<(), Declined>;
}

/// Whoever wants to hear that a transfer has ended, and gets the buffers back.
pub trait SpiMasterClient {
    fn read_write_done(
        &self,
        write_buffer: SubSliceMut<'static, u8>,
        read_buffer: Option<SubSliceMut<'static, u8>>,
        status: Result<usize, ErrorCode>,
    );
}
