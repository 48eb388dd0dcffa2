//! The kernel's error codes: those that the driver returns or matches on.

#[derive(Clone, Copy, Debug, PartialEq, Eq)]
pub enum ErrorCode {
    FAIL,
    BUSY,
    ALREADY,
    OFF,
    INVAL,
    SIZE,
}
