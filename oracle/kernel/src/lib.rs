//! Stand-ins for the parts of the Tock kernel that `rf233.rs` uses.
//!
//! Names and signatures are the kernel's, so that the driver compiles here as it does
//! there; only what the driver calls is here.

mod error_code;
pub mod hil;
pub mod utilities;

pub use error_code::ErrorCode;
