//! The kernel's hardware interfaces: pins, the SPI bus and the radio.

pub mod gpio;
pub mod radio;
pub mod spi;
