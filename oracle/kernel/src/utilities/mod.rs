//! The kernel's cells and its buffer type.

pub mod cells;
pub mod leasable_buffer;
