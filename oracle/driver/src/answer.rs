//! Answers: 0, or a refusal's number in document 01 or 02; and the values that calls return.

use std::fmt;

use kernel::ErrorCode;

/// What a call answers. The numbers are document 01's, 22 request 2026-05's.
#[derive(Clone, Copy, Debug, PartialEq, Eq)]
pub enum Answer {
    Done = 0,
    Off = 1,
    Busy = 2,
    Size = 3,
    Long = 4,
    Inval = 5,
    Already = 6,
    Handle = 7,
    Held = 8,
    Short = 9,
    Full = 10,
    Idle = 11,
    Pool = 12,
    Arrived = 13,
    Configure = 14,
    New = 15,
    Nothing = 22,
}

impl Answer {
    /// The refusal's name in the documents.
    pub fn name(self) -> &'static str {
        match self {
            Answer::Done => "DONE",
            Answer::Off => "OFF",
            Answer::Busy => "BUSY",
            Answer::Size => "SIZE",
            Answer::Long => "LONG",
            Answer::Inval => "INVAL",
            Answer::Already => "ALREADY",
            Answer::Handle => "HANDLE",
            Answer::Held => "HELD",
            Answer::Short => "SHORT",
            Answer::Full => "FULL",
            Answer::Idle => "IDLE",
            Answer::Pool => "POOL",
            Answer::Arrived => "ARRIVED",
            Answer::Configure => "CONFIGURE",
            Answer::New => "NEW",
            Answer::Nothing => "NOTHING",
        }
    }

    /// The answer that an error code of the Rust is. `FAIL` is what the SPI stand-in
    /// gives when it is to say that configuring failed.
    pub fn of(result: Result<(), ErrorCode>) -> Answer {
        match result {
            Ok(()) => Answer::Done,
            Err(ErrorCode::OFF) => Answer::Off,
            Err(ErrorCode::BUSY) => Answer::Busy,
            Err(ErrorCode::SIZE) => Answer::Size,
            Err(ErrorCode::INVAL) => Answer::Inval,
            Err(ErrorCode::ALREADY) => Answer::Already,
            Err(ErrorCode::FAIL) => Answer::Configure,
        }
    }
}

/// What a query returns.
#[derive(Clone, Copy, Debug, PartialEq, Eq)]
pub enum Value {
    One(i32),
    Eight([u8; 8]),
}

impl fmt::Display for Value {
    fn fmt(&self, f: &mut fmt::Formatter) -> fmt::Result {
        f.write_str("value")?;
        match self {
            Value::One(number) => write!(f, " {number}"),
            Value::Eight(bytes) => bytes.iter().try_for_each(|byte| write!(f, " {byte}")),
        }
    }
}
