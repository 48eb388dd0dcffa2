//! The lines of a script: calls on the driver, and what is done around them. A line
//! prints as it is written in a script; `parse` reads it back.

use std::fmt;

/// One line of a script.
#[derive(Clone, Debug, PartialEq, Eq)]
pub enum Line {
    /// An empty line, or one that begins with `#`: passed over.
    Passed(String),
    Call(Call),
    /// Bytes written into the area from outside the driver.
    Pool {
        at: usize,
        bytes: Vec<u8>,
    },
    /// How many bytes of the area the calls are lent from here on.
    PoolLength(usize),
    Mark,
    Back,
}

/// A call on the driver, by the Rust's name.
#[derive(Clone, Debug, PartialEq, Eq)]
pub enum Call {
    New {
        length: u64,
        channel: u8,
    },
    Start,
    Stop,
    ConfigCommit,
    Fired,
    ReadWriteDone(Vec<u8>),
    /// The SPI layer declined the transfer under way (request 2026-05).
    Declined,
    /// The transfer that waits is offered again.
    Resume,
    Transmit {
        buffer: u64,
        length: u64,
        n: u64,
    },
    SetReceiveBuffer {
        buffer: u64,
        length: u64,
    },
    Reset {
        configured: bool,
    },
    SetAddress(u16),
    SetPan(u16),
    SetAddressLong([u8; 8]),
    SetTxPower(i8),
    SetChannel(u8),
    SetClient {
        client: Client,
        present: bool,
    },
    Query(Query),
}

/// Who hears of which notice.
#[derive(Clone, Copy, Debug, PartialEq, Eq)]
pub enum Client {
    Power,
    Transmit,
    Receive,
    Config,
}

/// The calls without arguments that only look.
#[derive(Clone, Copy, Debug, PartialEq, Eq)]
pub enum Query {
    Initialize,
    IsOn,
    Busy,
    GetAddress,
    GetAddressLong,
    GetPan,
    GetTxPower,
    GetChannel,
}

impl Call {
    /// The call's name in a script.
    pub fn name(&self) -> &'static str {
        match self {
            Call::New { .. } => "new",
            Call::Start => "start",
            Call::Stop => "stop",
            Call::ConfigCommit => "config_commit",
            Call::Fired => "fired",
            Call::ReadWriteDone(_) => "read_write_done",
            Call::Declined => "declined",
            Call::Resume => "resume",
            Call::Transmit { .. } => "transmit",
            Call::SetReceiveBuffer { .. } => "set_receive_buffer",
            Call::Reset { .. } => "reset",
            Call::SetAddress(_) => "set_address",
            Call::SetPan(_) => "set_pan",
            Call::SetAddressLong(_) => "set_address_long",
            Call::SetTxPower(_) => "set_tx_power",
            Call::SetChannel(_) => "set_channel",
            Call::SetClient { client, .. } => client.call(),
            Call::Query(query) => query.name(),
        }
    }
}

impl Client {
    pub const ALL: [Client; 4] = [
        Client::Power,
        Client::Transmit,
        Client::Receive,
        Client::Config,
    ];

    /// The call that sets this client.
    pub fn call(self) -> &'static str {
        match self {
            Client::Power => "set_power_client",
            Client::Transmit => "set_transmit_client",
            Client::Receive => "set_receive_client",
            Client::Config => "set_config_client",
        }
    }
}

impl Query {
    pub const ALL: [Query; 8] = [
        Query::Initialize,
        Query::IsOn,
        Query::Busy,
        Query::GetAddress,
        Query::GetAddressLong,
        Query::GetPan,
        Query::GetTxPower,
        Query::GetChannel,
    ];

    pub fn name(self) -> &'static str {
        match self {
            Query::Initialize => "initialize",
            Query::IsOn => "is_on",
            Query::Busy => "busy",
            Query::GetAddress => "get_address",
            Query::GetAddressLong => "get_address_long",
            Query::GetPan => "get_pan",
            Query::GetTxPower => "get_tx_power",
            Query::GetChannel => "get_channel",
        }
    }
}

impl fmt::Display for Line {
    fn fmt(&self, f: &mut fmt::Formatter) -> fmt::Result {
        match self {
            Line::Passed(text) => f.write_str(text),
            Line::Call(call) => call.fmt(f),
            Line::Pool { at, bytes } => {
                write!(f, "pool {at}")?;
                list(f, bytes)
            }
            Line::PoolLength(length) => write!(f, "pool_length {length}"),
            Line::Mark => f.write_str("mark"),
            Line::Back => f.write_str("back"),
        }
    }
}

impl fmt::Display for Call {
    fn fmt(&self, f: &mut fmt::Formatter) -> fmt::Result {
        f.write_str(self.name())?;
        match self {
            Call::New { length, channel } => write!(f, " {length} {channel}"),
            Call::ReadWriteDone(bytes) => list(f, bytes),
            Call::Transmit { buffer, length, n } => write!(f, " {buffer} {length} {n}"),
            Call::SetReceiveBuffer { buffer, length } => write!(f, " {buffer} {length}"),
            Call::Reset { configured: flag } | Call::SetClient { present: flag, .. } => {
                write!(f, " {}", u8::from(*flag))
            }
            Call::SetAddress(number) | Call::SetPan(number) => write!(f, " {number}"),
            Call::SetAddressLong(bytes) => list(f, bytes),
            Call::SetTxPower(power) => write!(f, " {power}"),
            Call::SetChannel(channel) => write!(f, " {channel}"),
            Call::Start | Call::Stop | Call::ConfigCommit | Call::Fired | Call::Query(_) => Ok(()),
            Call::Declined | Call::Resume => Ok(()),
        }
    }
}

/// A script's text.
pub fn text<'a>(lines: impl IntoIterator<Item = &'a Line>) -> String {
    let lines = lines.into_iter();
    lines.map(|line| format!("{line}\n")).collect()
}

fn list(f: &mut fmt::Formatter, bytes: &[u8]) -> fmt::Result {
    bytes.iter().try_for_each(|byte| write!(f, " {byte}"))
}

/// Writes a script to the file that was asked for, where one was.
pub fn keep(file: Option<&str>, lines: &[Line]) -> Result<(), String> {
    match file {
        None => Ok(()),
        Some(file) => std::fs::write(file, text(lines)).map_err(|error| format!("{file}: {error}")),
    }
}
