//! A driver as plain data, and what can be read off it: which buffers it has, and where.

use super::states::START;
use crate::action::Kind;
use crate::area::{BUFFERS, CLIENT_BUFFERS, SPI_BUF, SPI_RX, SPI_TX};
use crate::book::{Place, Places};
use crate::line::Client;

/// Receive buffers that a driver takes, the one under way counted (request 2026-07).
pub const MOST_RECEIVE: usize = 4;

#[derive(Clone, Debug, PartialEq, Eq)]
pub struct Driver {
    /// 0 to 68, see `states`.
    pub state: u8,
    pub flags: Flags,
    pub listeners: Listeners,
    pub settings: Settings,
    pub own: Own,
    pub spi_buf: SpiBuf,
    /// The buffer at the transmit place.
    pub tx_buf: Option<Lent>,
    /// n of the frame to send: the length given to `transmit` plus 2.
    pub tx_len: u8,
    /// The line of receive buffers, the oldest first.
    pub line: Vec<Lent>,
    pub reception: Reception,
    pub under_way: Option<UnderWay>,
    pub waiting: Option<Waiting>,
}

/// The driver's yes-or-no fields; that a transfer is under way is `under_way`, that one waits
/// `waiting`.
#[derive(Clone, Debug, Default, PartialEq, Eq)]
pub struct Flags {
    pub radio_on: bool,
    pub transmitting: bool,
    pub receiving: bool,
    pub crc_valid: bool,
    pub interrupt_handling: bool,
    pub interrupt_pending: bool,
    pub config_pending: bool,
    pub sleep_pending: bool,
    pub wake_pending: bool,
    pub power_client_pending: bool,
}

/// Which listeners are present.
#[derive(Clone, Debug, Default, PartialEq, Eq)]
pub struct Listeners {
    pub power: bool,
    pub transmit: bool,
    pub receive: bool,
    pub config: bool,
}

#[derive(Clone, Debug, PartialEq, Eq)]
pub struct Settings {
    pub addr: u16,
    pub addr_long: [u8; 8],
    pub pan: u16,
    pub tx_power: i8,
    pub channel: u8,
}

/// Which of the driver's own buffers are in their own places.
#[derive(Clone, Debug, PartialEq, Eq)]
pub struct Own {
    pub spi_tx: bool,
    pub spi_rx: bool,
    pub spi_buf: bool,
}

/// The lengths of `spi_buf`: the whole one, and the one that the last frame read left.
#[derive(Clone, Debug, PartialEq, Eq)]
pub struct SpiBuf {
    pub whole: usize,
    pub present: usize,
}

/// What is kept of the frame that is being read (request 2026-13).
#[derive(Clone, Debug, Default, PartialEq, Eq)]
pub struct Reception {
    /// The held length: the length byte that the last length read brought.
    pub held_length: u8,
    /// Whether the last frame read brought another one.
    pub spoiled: bool,
}

/// A buffer that a client lent, and how long it is.
#[derive(Clone, Copy, Debug, PartialEq, Eq)]
pub struct Lent {
    pub buffer: usize,
    pub length: usize,
}

/// The transfer under way.
#[derive(Clone, Debug, PartialEq, Eq)]
pub struct UnderWay {
    pub what: What,
    /// The first two bytes as they were first offered.
    pub command: [u8; 2],
    pub write_length: usize,
    pub read_length: usize,
}

/// A transfer that the SPI layer declined (request 2026-05). Its buffers are in their places: a
/// frame read's is the front of the line, a frame write's the one at the transmit place.
#[derive(Clone, Debug, PartialEq, Eq)]
pub struct Waiting {
    pub kind: Kind,
    /// As in `UnderWay`: a register transfer's are written anew whatever the pool has.
    pub command: [u8; 2],
    pub write_length: usize,
    pub read_length: usize,
}

/// A transfer's kind, with the client's buffer that a frame transfer has.
#[derive(Clone, Copy, Debug, PartialEq, Eq)]
pub enum What {
    RegisterRead,
    RegisterWrite,
    FrameRead(Lent),
    FrameWrite(Lent),
}

impl What {
    pub fn kind(self) -> Kind {
        match self {
            What::RegisterRead => Kind::RegisterRead,
            What::RegisterWrite => Kind::RegisterWrite,
            What::FrameRead(_) => Kind::FrameRead,
            What::FrameWrite(_) => Kind::FrameWrite,
        }
    }

    /// The buffer that is written from, and the one that is read into.
    pub fn buffers(self) -> (usize, usize) {
        match self {
            What::RegisterRead | What::RegisterWrite => (SPI_TX, SPI_RX),
            What::FrameRead(lent) => (SPI_BUF, lent.buffer),
            What::FrameWrite(lent) => (lent.buffer, SPI_BUF),
        }
    }
}

impl UnderWay {
    /// The most bytes that can arrive.
    pub fn shorter_length(&self) -> usize {
        self.write_length.min(self.read_length)
    }
}

impl Driver {
    /// A new driver, with spi_buf so long, on a channel.
    pub fn new(length: usize, channel: u8) -> Driver {
        Driver {
            state: START,
            flags: Flags::default(),
            listeners: Listeners::default(),
            settings: Settings {
                addr: 0,
                addr_long: [0; 8],
                pan: 0,
                tx_power: 4,
                channel,
            },
            own: Own {
                spi_tx: true,
                spi_rx: true,
                spi_buf: true,
            },
            spi_buf: SpiBuf {
                whole: length,
                present: length,
            },
            tx_buf: None,
            tx_len: 0,
            line: Vec::new(),
            reception: Reception::default(),
            under_way: None,
            waiting: None,
        }
    }

    /// The kind of the transfer under way.
    pub fn kind(&self) -> Option<Kind> {
        self.under_way
            .as_ref()
            .map(|under_way| under_way.what.kind())
    }

    /// Whether no transfer may begin: one is under way, or one waits (request 2026-05).
    pub fn occupied(&self) -> bool {
        self.under_way.is_some() || self.waiting.is_some()
    }

    /// Receive buffers in the line, and the one under way; a waiting one is in the line.
    pub fn receive_buffers(&self) -> usize {
        self.line.len() + usize::from(self.kind() == Some(Kind::FrameRead))
    }

    /// Whether the driver has the buffer of this number.
    pub fn has(&self, buffer: u64) -> bool {
        let places = self.places();
        places
            .into_iter()
            .any(|(held, _)| u64::try_from(held) == Ok(buffer))
    }

    /// How many client buffers the driver has.
    pub fn with_driver(&self) -> usize {
        let places = self.places();
        places
            .into_iter()
            .filter(|(held, _)| *held < CLIENT_BUFFERS)
            .count()
    }

    /// Where the driver's own record has each buffer.
    pub fn record(&self) -> Places {
        let mut record = [Place::Client; BUFFERS];
        for (buffer, place) in self.places() {
            record[buffer] = place;
        }
        record
    }

    /// Each buffer that the driver's record names, with the place.
    pub fn places(&self) -> Vec<(usize, Place)> {
        let own = [
            (SPI_TX, self.own.spi_tx),
            (SPI_RX, self.own.spi_rx),
            (SPI_BUF, self.own.spi_buf),
        ];
        let home = own.into_iter().filter(|(_, home)| *home);
        let mut places: Vec<_> = home.map(|(buffer, _)| (buffer, Place::Own)).collect();
        places.extend(self.tx_buf.map(|lent| (lent.buffer, Place::Transmit)));
        let line = self.line.iter();
        places.extend(line.map(|lent| (lent.buffer, Place::Receive)));
        if let Some(under_way) = &self.under_way {
            let (write, read) = under_way.what.buffers();
            places.extend([(write, Place::UnderWay), (read, Place::UnderWay)]);
        }
        places
    }

    /// The flags of a trace record, bit 0 first.
    pub fn trace_flags(&self) -> [bool; 8] {
        let flags = &self.flags;
        [
            flags.radio_on,
            flags.transmitting,
            flags.receiving,
            self.occupied(),
            flags.interrupt_handling,
            flags.interrupt_pending,
            flags.config_pending,
            flags.sleep_pending,
        ]
    }
}

impl Listeners {
    pub fn set(&mut self, client: Client, present: bool) {
        *match client {
            Client::Power => &mut self.power,
            Client::Transmit => &mut self.transmit,
            Client::Receive => &mut self.receive,
            Client::Config => &mut self.config,
        } = present;
    }
}
