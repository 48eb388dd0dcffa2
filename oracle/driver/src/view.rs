//! Where a driver stands between two calls: its fields, what is under way, the pool's
//! length. The domain, the book's counterpart and the generator read this.

use crate::action::Kind;
use crate::area::{Area, BUFFERS, CLIENT_BUFFERS};
use crate::bench::{Bench, PSDU_OFFSET, UnderWay};
use crate::book::{Place, Places, origins};
use crate::rf233::probe::{Driver, Image, Lease};

/// The transfer under way, as plain data.
#[derive(Clone, Debug)]
pub struct Transferring {
    pub kind: Kind,
    pub command: [u8; 2],
    pub write: Lease,
    pub read: Lease,
}

impl Transferring {
    pub fn of(area: &Area, transfer: &UnderWay) -> Transferring {
        let read = transfer.read.as_ref();
        Transferring {
            kind: transfer.kind,
            command: transfer.command,
            write: Lease::of(area, &transfer.write),
            read: Lease::of(area, read.expect("the driver reads in every transfer")),
        }
    }

    /// The most bytes that can arrive.
    pub fn shorter_length(&self) -> usize {
        self.write.active.len().min(self.read.active.len())
    }

    /// n of a frame transfer: how many bytes of a frame it has.
    pub fn frame_length(&self) -> u8 {
        (self.write.active.len() - PSDU_OFFSET) as u8
    }

    /// The transfer with its slices made anew.
    fn under_way(&self, area: &'static Area) -> UnderWay {
        UnderWay {
            kind: self.kind,
            command: self.command,
            write: self.write.slice(area),
            read: Some(self.read.slice(area)),
        }
    }
}

#[derive(Clone)]
pub struct View {
    pub image: Image,
    pub under_way: Option<Transferring>,
    /// Whether the transfer under way was declined and not yet offered again. The Rust never
    /// hears of it; its buffers count as in their places (request 2026-05).
    pub waits: bool,
    pub pool_length: usize,
}

impl View {
    pub fn of(driver: &Driver, bench: &Bench, pool_length: usize) -> View {
        let transfer = bench.spi.replace(None);
        let under_way = transfer.as_ref();
        let under_way = under_way.map(|transfer| Transferring::of(bench.area, transfer));
        bench.spi.replace(transfer);
        View {
            image: Image::of(driver, bench.area),
            under_way,
            waits: false,
            pool_length,
        }
    }

    /// A driver that stands so, with its transfer under way. No slice of the pool may be
    /// out any more.
    pub fn driver(&self, bench: &'static Bench) -> Driver {
        let under_way = self.under_way.as_ref();
        let transfer = under_way.map(|transfer| transfer.under_way(bench.area));
        bench.spi.replace(transfer);
        self.image.driver(bench)
    }

    pub fn state(&self) -> u8 {
        self.image.state()
    }

    /// The kind of the transfer under way, a waiting one too.
    pub fn kind(&self) -> Option<Kind> {
        self.under_way.as_ref().map(|transfer| transfer.kind)
    }

    /// The flags of a trace record, bit 0 first.
    pub fn trace_flags(&self) -> [bool; 8] {
        let flags = &self.image.flags;
        [
            flags.radio_on,
            flags.transmitting,
            flags.receiving,
            self.under_way.is_some(),
            flags.interrupt_handling,
            flags.interrupt_pending,
            flags.config_pending,
            flags.sleep_pending,
        ]
    }

    /// Where the driver's own record has each buffer.
    pub fn record(&self) -> Places {
        let mut places = [Place::Client; BUFFERS];
        for (lease, place) in self.places() {
            places[lease.buffer] = place;
        }
        places
    }

    /// Whether the driver has the client buffer of this number.
    pub fn has(&self, buffer: u64) -> bool {
        self.leases().any(|lease| lease.buffer as u64 == buffer)
    }

    /// How many client buffers the driver has.
    pub fn with_driver(&self) -> usize {
        let leases = self.leases();
        leases.filter(|lease| lease.buffer < CLIENT_BUFFERS).count()
    }

    /// Every slice that the driver or the transfer has.
    pub fn leases(&self) -> impl Iterator<Item = &Lease> {
        self.places().map(|(lease, _)| lease)
    }

    fn places(&self) -> impl Iterator<Item = (&Lease, Place)> {
        let cells = &self.image.cells;
        let under_way = self.under_way.as_ref();
        let (write, read) = match self.kind() {
            Some(kind) if self.waits => origins(kind),
            _ => (Place::UnderWay, Place::UnderWay),
        };
        [
            (cells.tx_buf.as_ref(), Place::Transmit),
            (cells.rx_buf.as_ref(), Place::Receive),
            (cells.spi_tx.as_ref(), Place::Own),
            (cells.spi_rx.as_ref(), Place::Own),
            (cells.spi_buf.as_ref(), Place::Own),
            (under_way.map(|transfer| &transfer.write), write),
            (under_way.map(|transfer| &transfer.read), read),
        ]
        .into_iter()
        .filter_map(|(lease, place)| Some((lease?, place)))
    }
}
