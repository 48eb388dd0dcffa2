//! Trace blocks, written from document 01 and from nothing else: the records that calls
//! leave, the blocks that hold them, a reader of blocks and a listing. The port's
//! programs are held to this.

pub mod block;
pub mod check;
pub mod difference;
pub mod listing;
pub mod reader;
pub mod record;
pub mod run;

/// Bytes of a block.
pub const BLOCK: usize = 512;
/// Records of a block.
pub const RECORDS: usize = 31;
/// Where a block has its count; its number stands before it.
pub const COUNT: usize = 4;
/// Where the nine zeros begin.
pub const ZEROS: usize = COUNT + 1;
/// Where the records begin.
pub const FIRST_RECORD: usize = ZEROS + 9;
/// The bytes under the check, which stands behind them.
pub const CHECKED: usize = FIRST_RECORD + RECORDS * RECORD;
/// Bytes of a record.
pub const RECORD: usize = 16;

/// The 16 bytes of a record.
pub type Record = [u8; RECORD];
/// The 512 bytes of a block.
pub type Block = [u8; BLOCK];
