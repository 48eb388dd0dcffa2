//! The systematic blocks: each byte of a record set to each value with the check made
//! good, for records of each sort and for unused ones.

use super::bases::Bases;
use super::kind::Kind;
use crate::random::Random;
use crate::trace::block::make_good;
use crate::trace::{Block, COUNT, FIRST_RECORD, RECORD, RECORDS};

const VALUES: usize = 256;
/// From one to the next; a prime, so that all come and a part of them is spread evenly.
const STRIDE: usize = 50_021;

pub struct EveryByte {
    /// How many there are; which comes first; how many were made.
    total: usize,
    first: usize,
    made: usize,
}

impl EveryByte {
    pub fn new(bases: &Bases, random: &mut Random) -> EveryByte {
        // Behind the sorts of used records come the unused ones.
        let total = (bases.sorts() + 1) * RECORD * VALUES;
        assert!(!total.is_multiple_of(STRIDE), "the stride meets them all");
        EveryByte {
            total,
            first: random.within(0, total as u64 - 1) as usize,
            made: 0,
        }
    }

    pub fn made(&self) -> (usize, usize) {
        (self.made, self.total)
    }

    /// The next block, until all are made.
    pub fn next(&mut self, bases: &Bases, random: &mut Random) -> Option<(Kind, Block)> {
        if self.made == self.total {
            return None;
        }
        let place = (self.first + self.made * STRIDE) % self.total;
        self.made += 1;
        let (rest, value) = (place / VALUES, (place % VALUES) as u8);
        let (sort, byte) = (rest / RECORD, rest % RECORD);
        let (kind, mut block, at) = match sort < bases.sorts() {
            true => used(bases, random, sort),
            false => unused(bases, random),
        };
        block[at + byte] = value;
        make_good(&mut block);
        Some((kind, block))
    }
}

/// A block with a used record of this sort, and where that stands.
fn used(bases: &Bases, random: &mut Random, sort: usize) -> (Kind, Block, usize) {
    let mut block = bases.block_of(random, 1, RECORDS);
    let at = used_record(&block, random);
    block[at..at + RECORD].copy_from_slice(&bases.of_sort(sort, random));
    (Kind::RecordByte, block, at)
}

/// A block with an unused record, and where that stands.
fn unused(bases: &Bases, random: &mut Random) -> (Kind, Block, usize) {
    let block = bases.block_of(random, 0, RECORDS - 1);
    let at = unused_record(&block, random);
    (Kind::UnusedByte, block, at)
}

/// Where some used record of a block begins.
pub fn used_record(block: &Block, random: &mut Random) -> usize {
    let record = random.within(0, u64::from(block[COUNT]) - 1);
    FIRST_RECORD + RECORD * record as usize
}

/// Where some unused record of a block begins.
pub fn unused_record(block: &Block, random: &mut Random) -> usize {
    let record = random.within(u64::from(block[COUNT]), RECORDS as u64 - 1);
    FIRST_RECORD + RECORD * record as usize
}
