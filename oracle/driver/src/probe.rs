//! The one module that sees what is private to the driver: the build makes it a child of
//! the copied `rf233.rs`. It reads a driver into plain data and builds one from it.

use std::cell::Cell;
use std::ops::Range;

use kernel::utilities::cells::{MapCell, OptionalCell};

use super::{InternalState, RF233};
use crate::area::Area;
use crate::bench::{Bench, Buffer, Spi};
use crate::line::Client;
use kernel::hil::radio::RadioChannel;

pub type Driver = RF233<'static, Spi>;

/// A slice of the pool as someone holds it: which buffer, how long, what of it is active.
#[derive(Clone, Debug, PartialEq, Eq)]
pub struct Lease {
    pub buffer: usize,
    pub length: usize,
    pub active: Range<usize>,
}

impl Lease {
    pub fn of(area: &Area, slice: &Buffer) -> Lease {
        Lease {
            buffer: area.buffer_of(slice.whole()),
            length: slice.whole().len(),
            active: slice.active_range(),
        }
    }

    /// The slice itself, made anew.
    pub fn slice(&self, area: &'static Area) -> Buffer {
        let mut slice = Buffer::from(area.lend(self.buffer, self.length));
        slice.slice(self.active.clone());
        slice
    }
}

/// The driver's yes-or-no fields.
#[derive(Clone, Copy, Debug)]
pub struct Flags {
    pub radio_on: bool,
    pub transmitting: bool,
    pub receiving: bool,
    pub spi_busy: bool,
    pub crc_valid: bool,
    pub interrupt_handling: bool,
    pub interrupt_pending: bool,
    pub config_pending: bool,
    pub sleep_pending: bool,
    pub wake_pending: bool,
    pub power_client_pending: bool,
}

#[derive(Clone, Copy, Debug)]
pub struct Settings {
    pub addr: u16,
    pub addr_long: [u8; 8],
    pub pan: u16,
    pub tx_power: i8,
    pub channel: RadioChannel,
}

/// Which listeners are present.
#[derive(Clone, Copy, Debug)]
pub struct Listeners {
    pub power: bool,
    pub transmit: bool,
    pub receive: bool,
    pub config: bool,
}

/// What is in the driver's five buffer cells.
#[derive(Clone, Debug)]
pub struct Cells {
    pub tx_buf: Option<Lease>,
    pub rx_buf: Option<Lease>,
    pub spi_tx: Option<Lease>,
    pub spi_rx: Option<Lease>,
    pub spi_buf: Option<Lease>,
}

/// All of a driver, as plain data.
#[derive(Clone)]
pub struct Image {
    state: InternalState,
    pub flags: Flags,
    pub tx_len: u8,
    pub settings: Settings,
    pub listeners: Listeners,
    pub cells: Cells,
}

impl Image {
    /// The state's number, in the order of `InternalState`.
    pub fn state(&self) -> u8 {
        self.state as u8
    }

    pub fn of(driver: &Driver, area: &Area) -> Image {
        Image {
            state: driver.state.get(),
            flags: flags(driver),
            tx_len: driver.tx_len.get(),
            settings: settings(driver),
            listeners: listeners(driver),
            cells: cells(driver, area),
        }
    }

    /// A driver that is in everything as the image has it.
    pub fn driver(&self, bench: &'static Bench) -> Driver {
        let (flags, settings, present) = (&self.flags, &self.settings, &self.listeners);
        let (area, who) = (bench.area, &bench.listener);
        RF233 {
            spi: &bench.spi,
            radio_on: Cell::new(flags.radio_on),
            transmitting: Cell::new(flags.transmitting),
            receiving: Cell::new(flags.receiving),
            spi_busy: Cell::new(flags.spi_busy),
            crc_valid: Cell::new(flags.crc_valid),
            interrupt_handling: Cell::new(flags.interrupt_handling),
            interrupt_pending: Cell::new(flags.interrupt_pending),
            config_pending: Cell::new(flags.config_pending),
            sleep_pending: Cell::new(flags.sleep_pending),
            wake_pending: Cell::new(flags.wake_pending),
            power_client_pending: Cell::new(flags.power_client_pending),
            reset_pin: &bench.reset,
            sleep_pin: &bench.sleep,
            irq_pin: &bench.irq,
            state: Cell::new(self.state),
            tx_buf: filled(area, &self.cells.tx_buf),
            rx_buf: filled(area, &self.cells.rx_buf),
            tx_len: Cell::new(self.tx_len),
            tx_client: optional(present.transmit, who),
            rx_client: optional(present.receive, who),
            cfg_client: optional(present.config, who),
            power_client: optional(present.power, who),
            addr: Cell::new(settings.addr),
            addr_long: Cell::new(settings.addr_long),
            pan: Cell::new(settings.pan),
            tx_power: Cell::new(settings.tx_power),
            channel: Cell::new(settings.channel),
            spi_rx: filled(area, &self.cells.spi_rx),
            spi_tx: filled(area, &self.cells.spi_tx),
            spi_buf: filled(area, &self.cells.spi_buf),
        }
    }
}

/// Makes a listener absent again, which the driver has no call for.
pub fn clear_client(driver: &Driver, client: Client) {
    match client {
        Client::Power => driver.power_client.clear(),
        Client::Transmit => driver.tx_client.clear(),
        Client::Receive => driver.rx_client.clear(),
        Client::Config => driver.cfg_client.clear(),
    }
}

/// The driver's own function, which it calls for PHY_TX_PWR.
pub fn power_to_setting(power: i8) -> u8 {
    super::power_to_setting(power)
}

fn flags(driver: &Driver) -> Flags {
    Flags {
        radio_on: driver.radio_on.get(),
        transmitting: driver.transmitting.get(),
        receiving: driver.receiving.get(),
        spi_busy: driver.spi_busy.get(),
        crc_valid: driver.crc_valid.get(),
        interrupt_handling: driver.interrupt_handling.get(),
        interrupt_pending: driver.interrupt_pending.get(),
        config_pending: driver.config_pending.get(),
        sleep_pending: driver.sleep_pending.get(),
        wake_pending: driver.wake_pending.get(),
        power_client_pending: driver.power_client_pending.get(),
    }
}

fn settings(driver: &Driver) -> Settings {
    Settings {
        addr: driver.addr.get(),
        addr_long: driver.addr_long.get(),
        pan: driver.pan.get(),
        tx_power: driver.tx_power.get(),
        channel: driver.channel.get(),
    }
}

fn listeners(driver: &Driver) -> Listeners {
    Listeners {
        power: driver.power_client.is_some(),
        transmit: driver.tx_client.is_some(),
        receive: driver.rx_client.is_some(),
        config: driver.cfg_client.is_some(),
    }
}

fn cells(driver: &Driver, area: &Area) -> Cells {
    let lease = |cell: &MapCell<Buffer>| cell.map(|slice| Lease::of(area, slice));
    Cells {
        tx_buf: lease(&driver.tx_buf),
        rx_buf: lease(&driver.rx_buf),
        spi_tx: lease(&driver.spi_tx),
        spi_rx: lease(&driver.spi_rx),
        spi_buf: lease(&driver.spi_buf),
    }
}

fn filled(area: &'static Area, lease: &Option<Lease>) -> MapCell<Buffer> {
    match lease {
        Some(lease) => MapCell::new(lease.slice(area)),
        None => MapCell::empty(),
    }
}

fn optional<T>(present: bool, client: T) -> OptionalCell<T> {
    let cell = OptionalCell::empty();
    if present {
        cell.set(client);
    }
    cell
}
