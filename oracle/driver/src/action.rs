//! What a call on the driver sets going: its actions in order, and its transfer.

use std::fmt;

/// Something the driver does to a pin or tells a listener, or lets happen to a buffer.
#[derive(Clone, Copy, Debug, PartialEq, Eq)]
pub enum Action {
    Power {
        on: bool,
    },
    Sent {
        buffer: usize,
        ack: bool,
        fail: bool,
    },
    Received {
        buffer: usize,
        length: usize,
        crc: bool,
    },
    ConfigDone,
    Dropped {
        buffer: usize,
    },
    Pin {
        pin: Pin,
        act: PinAct,
    },
    /// The reset pin is cleared 10,000 times in a row: one action with its count.
    ResetClear {
        count: u32,
    },
}

#[derive(Clone, Copy, Debug, PartialEq, Eq)]
pub enum Pin {
    Irq,
    Sleep,
    Reset,
}

#[derive(Clone, Copy, Debug, PartialEq, Eq)]
pub enum PinAct {
    MakeInput,
    MakeOutput,
    SetFloatingState,
    EnableInterrupts,
    DisableInterrupts,
    Set,
    Clear,
}

impl fmt::Display for Action {
    fn fmt(&self, f: &mut fmt::Formatter) -> fmt::Result {
        match *self {
            Action::Power { on } => write!(f, "power {}", u8::from(on)),
            Action::Sent { buffer, ack, fail } => {
                write!(f, "sent {buffer} {} {}", u8::from(ack), u8::from(fail))
            }
            Action::Received {
                buffer,
                length,
                crc,
            } => write!(f, "received {buffer} {length} {}", u8::from(crc)),
            Action::ConfigDone => f.write_str("config_done"),
            Action::Dropped { buffer } => write!(f, "dropped {buffer}"),
            Action::Pin { pin, act } => write!(f, "{} {}", pin.name(), act.name()),
            Action::ResetClear { count } => write!(f, "reset clear {count}"),
        }
    }
}

impl Pin {
    fn name(self) -> &'static str {
        match self {
            Pin::Irq => "irq",
            Pin::Sleep => "sleep",
            Pin::Reset => "reset",
        }
    }
}

impl PinAct {
    fn name(self) -> &'static str {
        match self {
            PinAct::MakeInput => "make_input",
            PinAct::MakeOutput => "make_output",
            PinAct::SetFloatingState => "set_floating_state",
            PinAct::EnableInterrupts => "enable_interrupts",
            PinAct::DisableInterrupts => "disable_interrupts",
            PinAct::Set => "set",
            PinAct::Clear => "clear",
        }
    }
}

/// The four kinds of transfer, by the command in the first byte sent.
#[derive(Clone, Copy, Debug, PartialEq, Eq)]
pub enum Kind {
    RegisterRead = 1,
    RegisterWrite = 2,
    FrameRead = 3,
    FrameWrite = 4,
}

impl Kind {
    /// The kind that a first byte commands; SRAM access, which the driver never uses, is none.
    pub fn of(first: u8) -> Option<Kind> {
        match first >> 5 {
            0b100 | 0b101 => Some(Kind::RegisterRead),
            0b110 | 0b111 => Some(Kind::RegisterWrite),
            0b001 => Some(Kind::FrameRead),
            0b011 => Some(Kind::FrameWrite),
            _ => None,
        }
    }
}

/// A transfer as it is offered to the SPI layer.
#[derive(Clone, Debug, PartialEq, Eq)]
pub struct Transfer {
    pub kind: Kind,
    pub write_buffer: usize,
    pub read_buffer: usize,
    pub read_length: usize,
    /// All bytes sent: as many as the write length.
    pub sent: Vec<u8>,
}

impl fmt::Display for Transfer {
    fn fmt(&self, f: &mut fmt::Formatter) -> fmt::Result {
        let write_length = self.sent.len();
        write!(f, "transfer {} {write_length}", self.kind as u8)?;
        write!(f, " {}", self.read_length)?;
        self.sent.iter().try_for_each(|byte| write!(f, " {byte}"))
    }
}
