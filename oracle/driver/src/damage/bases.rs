//! The records of real runs, sorted by what their ranges depend on, and whole blocks made
//! of them.

use crate::generator::{Wish, script_with_pairs};
use crate::line::Line;
use crate::performer::Performer;
use crate::random::Random;
use crate::session::Session;
use crate::trace::block::sealed;
use crate::trace::record::{EVENT, NOTICE, TRANSFER, record};
use crate::trace::{Block, RECORDS, Record};

/// Generated scripts that are run, and lines of each.
const SCRIPTS: u64 = 60;
const LINES: usize = 500;
/// Times in a hundred that a transfer is declined and resumed where it may be.
const PAIRS: u64 = 4;

pub struct Bases {
    /// All records, as they follow each other.
    all: Vec<Record>,
    /// Those of each event, of each notice and of each kind of transfer, none among them.
    sorts: Vec<Vec<Record>>,
}

impl Bases {
    pub fn new(seed: u64) -> Result<Bases, String> {
        let mut session = Session::new(false);
        let mut all = Vec::new();
        for place in 0..SCRIPTS {
            records(&mut session, seed.wrapping_add(place), &mut all)?;
        }
        let sorted = |byte: usize, value: u8| -> Vec<Record> {
            let of_sort = all.iter().filter(|record| record[byte] == value);
            of_sort.copied().collect()
        };
        let events = (1..=10).map(|event| sorted(EVENT, event));
        let notices = (0..=5).map(|notice| sorted(NOTICE, notice));
        let transfers = (0..=4).map(|transfer| sorted(TRANSFER, transfer));
        let sorts: Vec<_> = events.chain(notices).chain(transfers).collect();
        match sorts.iter().all(|sort| !sort.is_empty()) {
            true => Ok(Bases { all, sorts }),
            false => Err("the runs of this seed lack a sort of record".into()),
        }
    }

    /// How many sorts of record there are.
    pub fn sorts(&self) -> usize {
        self.sorts.len()
    }

    /// A record of this sort.
    pub fn of_sort(&self, sort: usize, random: &mut Random) -> Record {
        random.pick(&self.sorts[sort])
    }

    /// A record with a transfer.
    pub fn with_transfer(&self, random: &mut Random) -> Record {
        let kind = random.within(0, 3) as usize;
        self.of_sort(self.sorts.len() - 1 - kind, random)
    }

    /// Any whole block.
    pub fn block(&self, random: &mut Random) -> Block {
        self.block_of(random, 0, RECORDS)
    }

    /// A whole block that holds so many records at least and at most, full more often
    /// than not where it may be.
    pub fn block_of(&self, random: &mut Random, least: usize, most: usize) -> Block {
        let count = match random.percent(40) {
            true => most,
            false => random.within(least as u64, most as u64) as usize,
        };
        let first = random.within(0, (self.all.len() - count) as u64) as usize;
        let number = match random.percent(50) {
            true => random.next() as u32,
            false => random.within(0, 300) as u32,
        };
        sealed(number, &self.all[first..first + count])
    }
}

/// Adds the records that one generated script leaves.
fn records(session: &mut Session, seed: u64, all: &mut Vec<Record>) -> Result<(), String> {
    let wish = Wish {
        seed,
        lines: LINES,
        without_lending: false,
    };
    let script = script_with_pairs(session, wish, PAIRS, |_, _, _| {});
    let (script, _) = script.map_err(|stop| format!("seed {seed}: {stop:?}"))?;
    session.begin();
    for line in script {
        let outcome = session.perform(&line);
        let outcome = outcome.map_err(|stop| format!("seed {seed}: {stop:?}"))?;
        if let (Line::Call(call), Some(outcome)) = (&line, &outcome) {
            all.extend(record(call, outcome, session.flags()));
        }
    }
    Ok(())
}
