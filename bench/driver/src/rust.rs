//! The Rust driver's side.

use kernel::hil::gpio::Client as _;
use kernel::hil::radio::{RadioChannel, RadioConfig, RadioData};
use kernel::hil::spi::SpiMasterClient;

use crate::rf233::RF233;
use crate::scenario::{Events, Scenario};
use crate::stand_ins::{Around, Pin};

type Driver = RF233<'static, Around>;

static PIN: Pin = Pin;

/// The command that reads IRQ_STATUS.
const READ_IRQ_STATUS: u8 = 0x8F;

pub struct Rig {
    around: &'static Around,
    driver: Driver,
}

impl Rig {
    pub fn new() -> Rig {
        let around = Around::leak();
        Rig {
            around,
            driver: driver(around),
        }
    }

    pub fn make(&mut self, event: &[u8]) {
        match *event {
            [0] => {
                self.around.under_way.set(None);
                self.driver = driver(self.around);
            }
            [1] => drop(self.driver.start()),
            [2] => self.driver.fired(),
            [3, _, ref arrived @ ..] => self.complete(arrived),
            [4, buffer, length, n] => {
                let slice = self.around.pool.lend(buffer.into(), length.into());
                drop(self.driver.transmit(slice, n.into()));
            }
            [5, buffer, length] => {
                let slice = self.around.pool.lend(buffer.into(), length.into());
                self.driver.set_receive_buffer(slice);
            }
            _ => self.listen(),
        }
    }

    fn complete(&mut self, arrived: &[u8]) {
        self.around.first.set(0);
        let (write, mut read) = self
            .around
            .under_way
            .take()
            .expect("a transfer is under way");
        if let Some(read) = &mut read {
            read[..arrived.len()].copy_from_slice(arrived);
        }
        self.driver.read_write_done(write, read, Ok(arrived.len()));
    }

    fn listen(&self) {
        self.driver.set_power_client(self.around);
        self.driver.set_transmit_client(self.around);
        self.driver.set_receive_client(self.around);
        self.driver.set_config_client(self.around);
    }

    fn digest(&self) -> u64 {
        self.around.sent.get() ^ (self.around.told.get() << 1)
    }
}

fn driver(around: &'static Around) -> Driver {
    let register = |buffer| around.pool.lend(buffer, 2).try_into().expect("two bytes");
    RF233::new(
        around,
        around.pool.lend(18, 129),
        register(16),
        register(17),
        &PIN,
        &PIN,
        &PIN,
        RadioChannel::try_from(26).expect("a channel"),
    )
}

pub fn run(scenario: &Scenario, rounds: u32) -> u64 {
    let mut rig = Rig::new();
    Events(&scenario.setup).for_each(|event| rig.make(event));
    for _ in 0..rounds {
        Events(&scenario.events).for_each(|event| rig.make(event));
    }
    rig.digest()
}

/// An event, and the first byte of the transfer that is under way before it.
type Due<'a> = (&'a [u8], u8);

/// The events with a firing before each completion that it leaves as it is: an interrupt between the length and the frame
/// loses the frame, as document 01 says, so there none is put. Where the driver reads the interrupts and the events alone
/// would not have it do so, that read is completed with none.
pub fn detours(setup: &[u8], events: &[u8]) -> Vec<u8> {
    let mut plain = Rig::new();
    Events(setup).for_each(|event| plain.make(event));
    let mut due = Vec::new();
    for event in Events(events) {
        due.push((event, plain.around.first.get()));
        plain.make(event);
    }
    let mut fired = vec![false; due.len()];
    for i in 0..due.len() {
        fired[i] = due[i].0[0] == 3;
        if taken(setup, &due, &fired).is_none() {
            fired[i] = false;
        }
    }
    taken(setup, &due, &fired).expect("the events alone are taken")
}

/// The events with these firings and the reads that they lead to, if the driver then does all that it does without them.
fn taken(setup: &[u8], due: &[Due], fired: &[bool]) -> Option<Vec<u8>> {
    let mut rig = Rig::new();
    Events(setup).for_each(|event| rig.make(event));
    let mut all = Vec::new();
    let mut take = |rig: &mut Rig, event: &[u8]| {
        rig.make(event);
        all.extend_from_slice(event);
    };
    for ((event, first), fires) in due.iter().zip(fired) {
        while rig.around.first.get() == READ_IRQ_STATUS && *first != READ_IRQ_STATUS {
            take(&mut rig, &[3, 2, 22, 0]);
        }
        if rig.around.first.get() != *first {
            return None;
        }
        if *fires {
            take(&mut rig, &[2]);
        }
        take(&mut rig, event);
    }
    while rig.around.first.get() == READ_IRQ_STATUS {
        take(&mut rig, &[3, 2, 22, 0]);
    }
    (rig.around.first.get() == 0).then_some(all)
}
