//! Arriving bytes, as both generators choose them: the values that the driver tells apart,
//! and the bytes around them.

use crate::random::Random;

/// Statuses that the driver tells apart, and two that it does not know.
const STATUSES: [u8; 10] = [0x00, 0x01, 0x06, 0x08, 0x09, 0x11, 0x12, 0x16, 0x1F, 0x0A];
/// Statuses of a radio that is busy receiving or sending.
pub const BUSY: [u8; 3] = [0x01, 0x11, 0x12];
pub const PLL_ON: u8 = 0x09;
pub const RX_AACK_ON: u8 = 0x16;

/// Interrupts that the driver looks at.
pub const PLL_LOCK: u8 = 0x01;
pub const RX_START: u8 = 0x04;
pub const TRX_END: u8 = 0x08;

pub fn status(random: &mut Random) -> u8 {
    match random.percent(80) {
        true => random.pick(&STATUSES),
        false => random.byte() & 0x1F,
    }
}

/// From two to `most` bytes that begin with a status and a result.
pub fn arrived(random: &mut Random, status: u8, result: u8, most: usize) -> Vec<u8> {
    // The upper bits are not part of the status.
    let first = status | (random.byte() & 0xE0);
    let count = match random.percent(30) {
        true => most,
        false => random.within(2, most as u64) as usize,
    };
    let mut bytes = vec![first, result];
    bytes.extend(random.bytes(count - 2));
    bytes
}
