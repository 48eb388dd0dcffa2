//! The model: the driver once more, as plain data, written from documents 01 and 02. Where
//! the Rust over its stand-ins stops, at the edge of the domain of comparison, it goes on.
//! It answers scripts as the Rust does, with the same book.

mod calls;
mod cases;
mod chain;
mod chip;
mod completion;
mod declined;
mod described;
pub mod driver;
mod power;
mod receiving;
mod refusals;
mod session;
mod states;
mod step;

pub use described::described;
pub use session::{Session, Standing};
