//! Makes one call of a script on the Rust, as a client or the kernel would.

use kernel::hil::gpio::Client as _;
use kernel::hil::radio::{RadioChannel, RadioConfig, RadioData};
use kernel::hil::spi::SpiMasterClient;

use crate::answer::{Answer, Value};
use crate::area::{SPI_BUF, SPI_RX, SPI_TX};
use crate::bench::Bench;
use crate::line::{Call, Client, Query};
use crate::rf233::RF233;
use crate::rf233::probe::{self, Driver};

/// A new driver. Its own buffers must not be lent to another any more.
pub fn new(bench: &'static Bench, length: usize, channel: u8) -> Driver {
    let register = |buffer| {
        let slice = bench.area.lend(buffer, 2);
        slice.try_into().expect("two bytes were lent")
    };
    RF233::new(
        &bench.spi,
        bench.area.lend(SPI_BUF, length),
        register(SPI_TX),
        register(SPI_RX),
        &bench.reset,
        &bench.sleep,
        &bench.irq,
        RadioChannel::try_from(channel).expect("the channel is one"),
    )
}

/// Any call but `new`. `has`: the driver has the buffer that the call offers.
pub fn make(driver: &Driver, bench: &'static Bench, call: &Call, has: bool) -> Answer {
    match *call {
        Call::Start => return Answer::of(driver.start()),
        Call::Stop => return Answer::of(driver.stop()),
        Call::SetTxPower(power) => return Answer::of(driver.set_tx_power(power)),
        Call::Reset { configured } => {
            bench.spi.set_configured(configured);
            return Answer::of(driver.reset());
        }
        Call::Transmit { buffer, length, n } => {
            let slice = offered(bench, buffer, length, has);
            let result = driver.transmit(slice, n as usize);
            return Answer::of(result.map_err(|(code, _slice)| code));
        }
        Call::SetReceiveBuffer { buffer, length } => {
            driver.set_receive_buffer(offered(bench, buffer, length, has));
        }
        Call::ReadWriteDone(ref arrived) => complete(driver, bench, arrived),
        Call::ConfigCommit => driver.config_commit(),
        Call::Fired => driver.fired(),
        Call::SetAddress(address) => driver.set_address(address),
        Call::SetPan(pan) => driver.set_pan(pan),
        Call::SetAddressLong(bytes) => driver.set_address_long(bytes),
        Call::SetChannel(channel) => {
            driver.set_channel(RadioChannel::try_from(channel).expect("the channel is one"));
        }
        Call::SetClient { client, present } => set_client(driver, bench, client, present),
        Call::Query(Query::Initialize) => return Answer::of(driver.initialize()),
        Call::Query(_) | Call::New { .. } => {}
        // The Rust has no such calls and hears of neither: the SPI stand-in keeps the transfer.
        Call::Declined => {}
        Call::Resume => bench.spi.resume(),
    }
    Answer::Done
}

/// The slice that a client offers. One that the driver has cannot be offered in Rust;
/// the calls that refuse it for another reason get another slice of that length.
fn offered(bench: &'static Bench, buffer: u64, length: u64, has: bool) -> &'static mut [u8] {
    match has {
        true => bench.area.spare(length as usize),
        false => bench.area.lend(buffer as usize, length as usize),
    }
}

/// The transfer under way ends: the bytes that arrived stand in the read buffer, and
/// both buffers go back to the driver.
fn complete(driver: &Driver, bench: &Bench, arrived: &[u8]) {
    let transfer = bench.spi.replace(None).expect("a transfer is under way");
    let mut read = transfer.read;
    if let Some(read) = &mut read {
        read[..arrived.len()].copy_from_slice(arrived);
    }
    driver.read_write_done(transfer.write, read, Ok(arrived.len()));
}

fn set_client(driver: &Driver, bench: &'static Bench, client: Client, present: bool) {
    match (client, present) {
        (_, false) => probe::clear_client(driver, client),
        (Client::Power, true) => driver.set_power_client(&bench.listener),
        (Client::Transmit, true) => driver.set_transmit_client(&bench.listener),
        (Client::Receive, true) => driver.set_receive_client(&bench.listener),
        (Client::Config, true) => driver.set_config_client(&bench.listener),
    }
}

/// What the call returns besides its answer.
pub fn value(driver: &Driver, call: &Call) -> Option<Value> {
    let Call::Query(query) = call else {
        return None;
    };
    Some(match query {
        Query::Initialize => return None,
        Query::IsOn => Value::One(driver.is_on().into()),
        Query::Busy => Value::One(driver.busy().into()),
        Query::GetAddress => Value::One(driver.get_address().into()),
        Query::GetAddressLong => Value::Eight(driver.get_address_long()),
        Query::GetPan => Value::One(driver.get_pan().into()),
        Query::GetTxPower => Value::One(driver.get_tx_power().into()),
        Query::GetChannel => Value::One(driver.get_channel().into()),
    })
}
