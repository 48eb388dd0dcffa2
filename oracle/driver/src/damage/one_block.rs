//! One block, damaged at random in one of the ways that leave it 512 bytes long.

use super::Damage;
use super::every_byte::{unused_record, used_record};
use super::kind::Kind;
use crate::trace::block::make_good;
use crate::trace::record::LENGTHS;
use crate::trace::{BLOCK, Block, COUNT, FIRST_RECORD, RECORD, RECORDS, ZEROS};

/// Values at which some range of a record's bytes ends, and those just past it.
const BORDERS: [u8; 21] = [
    0, 1, 2, 3, 4, 5, 6, 10, 11, 14, 15, 16, 21, 22, 23, 68, 69, 159, 160, 161, 255,
];
/// Lengths that are none, and the shortest and longest that are.
const LENGTH_BORDERS: [u8; 4] = [1, 2, 160, 161];

impl Damage {
    /// A block of one of the kinds that damage a block by itself.
    pub fn one_block(&mut self, kind: Kind) -> Block {
        match kind {
            Kind::OneBit => self.flipped(1),
            Kind::TwoBits => self.flipped(2),
            Kind::Count => self.other_count(),
            Kind::Nine => self.not_nine_zeros(),
            Kind::Unused => self.unused_not_zero(),
            Kind::TwoBytes => self.two_bytes(),
            Kind::Length => self.length_border(),
            _ => self.bases.block(&mut self.random),
        }
    }

    /// So many different bits are flipped, and the check is not made good.
    fn flipped(&mut self, bits: usize) -> Block {
        let mut block = self.bases.block(&mut self.random);
        let mut chosen: Vec<usize> = Vec::new();
        while chosen.len() < bits {
            let bit = self.random.within(0, BLOCK as u64 * 8 - 1) as usize;
            if !chosen.contains(&bit) {
                block[bit / 8] ^= 1 << (bit % 8);
                chosen.push(bit);
            }
        }
        block
    }

    fn other_count(&mut self) -> Block {
        let mut block = self.bases.block(&mut self.random);
        let count = block[COUNT];
        while block[COUNT] == count {
            block[COUNT] = match self.random.percent(60) {
                true => self.random.within(0, RECORDS as u64 + 1) as u8,
                false => self.random.byte(),
            };
        }
        make_good(&mut block);
        block
    }

    fn not_nine_zeros(&mut self) -> Block {
        let mut block = self.bases.block(&mut self.random);
        let place = self.random.within(ZEROS as u64, FIRST_RECORD as u64 - 1);
        block[place as usize] = self.random.within(1, 255) as u8;
        make_good(&mut block);
        block
    }

    /// An unused record becomes one of real runs, or has a byte that is not zero.
    fn unused_not_zero(&mut self) -> Block {
        let random = &mut self.random;
        let mut block = self.bases.block_of(random, 0, RECORDS - 1);
        let at = unused_record(&block, random);
        if random.percent(50) {
            let record = self.bases.with_transfer(random);
            block[at..at + RECORD].copy_from_slice(&record);
        } else {
            let byte = random.within(0, RECORD as u64 - 1) as usize;
            block[at + byte] = random.within(1, 255) as u8;
        }
        make_good(&mut block);
        block
    }

    /// Two bytes of a record, each at the border of some range.
    fn two_bytes(&mut self) -> Block {
        let random = &mut self.random;
        let mut block = self.bases.block_of(random, 1, RECORDS);
        let at = used_record(&block, random);
        for _ in 0..2 {
            let byte = random.within(0, RECORD as u64 - 1) as usize;
            block[at + byte] = random.pick(&BORDERS);
        }
        make_good(&mut block);
        block
    }

    /// A transfer with one length at a border, or both.
    fn length_border(&mut self) -> Block {
        let random = &mut self.random;
        let mut block = self.bases.block_of(random, 1, RECORDS);
        let at = used_record(&block, random);
        let mut record = self.bases.with_transfer(random);
        let which = random.within(1, 3);
        for (place, length) in record[LENGTHS].iter_mut().enumerate() {
            if which >> place & 1 == 1 {
                *length = random.pick(&LENGTH_BORDERS);
            }
        }
        block[at..at + RECORD].copy_from_slice(&record);
        make_good(&mut block);
        block
    }
}
