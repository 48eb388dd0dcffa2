//! The radio's numbers: registers, the commands of a transfer's first byte, statuses,
//! interrupt bits, and the values that the driver writes whatever its settings.

/// Registers.
pub const MIN: u8 = 0x00;
pub const TRX_STATUS: u8 = 0x01;
pub const TRX_STATE: u8 = 0x02;
pub const TRX_CTRL_1: u8 = 0x04;
pub const PHY_TX_PWR: u8 = 0x05;
pub const PHY_RSSI: u8 = 0x06;
pub const PHY_CC_CCA: u8 = 0x08;
pub const TRX_CTRL_2: u8 = 0x0C;
pub const IRQ_MASK: u8 = 0x0E;
pub const IRQ_STATUS: u8 = 0x0F;
pub const TRX_RPC: u8 = 0x16;
pub const XAH_CTRL_1: u8 = 0x17;
pub const PART_NUM: u8 = 0x1C;
pub const SHORT_ADDR_0: u8 = 0x20;
pub const SHORT_ADDR_1: u8 = 0x21;
pub const PAN_ID_0: u8 = 0x22;
pub const PAN_ID_1: u8 = 0x23;
/// The first of eight, in order.
pub const IEEE_ADDR_0: u8 = 0x24;
pub const XAH_CTRL_0: u8 = 0x2C;
pub const CSMA_SEED_0: u8 = 0x2D;
pub const CSMA_SEED_1: u8 = 0x2E;

/// A register's number is added to the first two; the others stand alone.
pub const REGISTER_READ: u8 = 0x80;
pub const REGISTER_WRITE: u8 = 0xC0;
pub const FRAME_READ: u8 = 0x20;
pub const FRAME_WRITE: u8 = 0x60;

/// What is written to TRX_STATE.
pub const COMMAND_TX_START: u8 = 0x02;
pub const COMMAND_OFF: u8 = 0x08;
pub const COMMAND_PLL_ON: u8 = 0x09;
pub const COMMAND_RX_AACK_ON: u8 = 0x16;
pub const COMMAND_TX_ARET_ON: u8 = 0x19;

/// The first byte that arrives, under this mask, is the status.
pub const STATUS_MASK: u8 = 0x1F;
pub const STATUS_ON: u8 = 0x00;
pub const STATUS_BUSY_RX: u8 = 0x01;
pub const STATUS_PLL_ON: u8 = 0x09;
pub const STATUS_BUSY_RX_AACK: u8 = 0x11;
pub const STATUS_BUSY_TX_ARET: u8 = 0x12;
pub const STATUS_RX_AACK_ON: u8 = 0x16;
pub const STATUS_IN_PROGRESS: u8 = 0x1F;

/// Bits of IRQ_STATUS.
pub const IRQ_0_PLL_LOCK: u8 = 0x01;
pub const IRQ_2_RX_START: u8 = 0x04;
pub const IRQ_3_TRX_END: u8 = 0x08;

/// TRAC, the upper bits of TRX_STATE.
pub const TRAC_MASK: u8 = 0xE0;
pub const TRAC_CHANNEL_ACCESS_FAILURE: u8 = 0x60;
/// The bit of PHY_RSSI that says the CRC is valid.
pub const CRC_VALID: u8 = 0x80;

/// Constants that a startup writes.
pub const TRX_CTRL_1_VALUE: u8 = 0xA4;
pub const TRX_CTRL_2_VALUE: u8 = 0x80;
pub const IRQ_MASK_VALUE: u8 = 0x4D;
pub const XAH_CTRL_1_VALUE: u8 = 0x32;
pub const XAH_CTRL_0_VALUE: u8 = 0x00;
pub const CSMA_SEED_0_VALUE: u8 = 0x33;
pub const CSMA_SEED_1_VALUE: u8 = 0xC0;
pub const TRX_RPC_VALUE: u8 = 0xFF;
