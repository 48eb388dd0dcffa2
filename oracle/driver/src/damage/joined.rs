//! Damage that reaches over a block's end: pieces joined so that blocks are shifted, and
//! inputs that end with a short tail.

use super::kind::Kind;
use super::{Damage, Input};
use crate::trace::BLOCK;

/// Lengths of a short tail, and from one to the next: 511 is 7 times 73, so all come.
const TAILS: usize = BLOCK - 1;
const STRIDE: usize = 100;
/// Blocks that pieces are cut from.
const FEWEST: u64 = 3;
const MOST: u64 = 6;

impl Damage {
    /// Whole blocks with two pieces cut out, of 512 bytes together: between the cuts
    /// everything is shifted, behind the second nothing is any more.
    pub fn joined(&mut self, input: &mut Input) {
        let mut bytes = self.some_blocks();
        let shift = self.shift();
        let rest = BLOCK - shift;
        let first = self.random.within(0, (bytes.len() - BLOCK) as u64) as usize;
        let last = (bytes.len() - BLOCK) as u64;
        let second = self.random.within(first as u64, last) as usize;
        bytes.drain(first..first + shift);
        bytes.drain(second..second + rest);
        let blocks = bytes.len() / BLOCK;
        input.bytes.extend(bytes);
        input.kinds.extend((0..blocks).map(|_| Kind::Joined));
    }

    /// Whole blocks with a piece cut out: from there on all are shifted, and the last one
    /// is short.
    pub fn shifted(&mut self, input: &mut Input) {
        let mut bytes = self.some_blocks();
        let tail = self.next_tail();
        let cut = BLOCK - tail;
        let at = self.random.within(0, (bytes.len() - cut) as u64) as usize;
        bytes.drain(at..at + cut);
        let blocks = bytes.len() / BLOCK;
        input.bytes.extend(bytes);
        input.kinds.extend((0..blocks).map(|_| Kind::Joined));
        input.kinds.push(Kind::Tail);
    }

    /// The beginning of a whole block, as the end of the input.
    pub fn tail(&mut self, input: &mut Input) {
        let length = self.next_tail();
        let block = self.bases.block(&mut self.random);
        input.bytes.extend_from_slice(&block[..length]);
        input.kinds.push(Kind::Tail);
    }

    /// The lengths of tails, one after the other until all have come.
    fn next_tail(&mut self) -> usize {
        self.tails += 1;
        self.tails * STRIDE % TAILS + 1
    }

    fn some_blocks(&mut self) -> Vec<u8> {
        let count = self.random.within(FEWEST, MOST);
        let blocks = (0..count).map(|_| self.bases.block(&mut self.random));
        blocks.flatten().collect()
    }

    /// How far blocks are shifted: often by as much as a record, or by a byte.
    fn shift(&mut self) -> usize {
        match self.random.percent(30) {
            true => self.random.pick(&[1, 2, 14, 16, 32, 496, 510, 511]),
            false => self.random.within(1, TAILS as u64) as usize,
        }
    }
}
