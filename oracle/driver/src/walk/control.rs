//! What tells two control states apart: everything that decides which way the driver
//! goes, and nothing of what it only hands on (bytes, buffer numbers, settings, lengths).

use crate::view::View;

/// A control state, packed: equal exactly if nothing below tells two drivers apart.
#[derive(Clone, Copy, PartialEq, Eq, Hash)]
pub struct Control(u64);

impl Control {
    pub fn of(view: &View) -> Control {
        let kind = view.kind().map_or(0, |kind| kind as u64);
        let numbers = (u64::from(view.state()) << 3) | kind;
        let bits = flags(view).into_iter().chain(listeners(view));
        let bits = bits.chain(places(view));
        Control(bits.fold(numbers, |packed, bit| (packed << 1) | u64::from(bit)))
    }
}

/// All the driver's flags. `spi_busy` is whether a transfer is under way.
fn flags(view: &View) -> [bool; 10] {
    let flags = &view.image.flags;
    [
        flags.radio_on,
        flags.transmitting,
        flags.receiving,
        flags.crc_valid,
        flags.interrupt_handling,
        flags.interrupt_pending,
        flags.config_pending,
        flags.sleep_pending,
        flags.wake_pending,
        flags.power_client_pending,
    ]
}

fn listeners(view: &View) -> [bool; 4] {
    let listeners = &view.image.listeners;
    [
        listeners.power,
        listeners.transmit,
        listeners.receive,
        listeners.config,
    ]
}

/// Whether the transmit and the receive place are filled.
fn places(view: &View) -> [bool; 2] {
    let cells = &view.image.cells;
    [cells.tx_buf.is_some(), cells.rx_buf.is_some()]
}
