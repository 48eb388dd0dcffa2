//! Blocks for a reader of traces to answer: whole ones made of the records of real runs,
//! and the same damaged in every way that `Kind` names, as inputs of many blocks.

mod bases;
mod every_byte;
mod joined;
mod judged;
mod kind;
mod one_block;
mod tally;

use crate::random::Random;
use crate::trace::Block;

use bases::Bases;
use every_byte::EveryByte;
pub use judged::Judged;
pub use kind::Kind;
pub use tally::Tally;

/// Blocks of a large input; it ends with a short tail.
const BATCH: u64 = 2000;
/// Whole blocks of the longest input, whose records need more than 16 bits to count, and
/// how much longer the run must be to have it.
const LONGEST: u64 = 4000;
const LONGER: u64 = 10;
/// Small inputs after each large one, for the lengths of their tails.
const SMALL: u64 = 5;
/// Whole blocks of a small input before its tail at most.
const BEFORE_TAIL: u64 = 3;

/// How often a block of each kind comes, while the systematic ones last.
const WEIGHTS: &[(u64, Kind)] = &[
    (50, Kind::RecordByte),
    (9, Kind::Whole),
    (8, Kind::OneBit),
    (7, Kind::TwoBits),
    (6, Kind::TwoBytes),
    (5, Kind::Count),
    (5, Kind::Nine),
    (4, Kind::Unused),
    (4, Kind::Length),
    (2, Kind::Joined),
];

/// What a reader is given, with the kind of each block; the last may be a short tail.
#[derive(Default)]
pub struct Input {
    pub bytes: Vec<u8>,
    pub kinds: Vec<Kind>,
}

impl Input {
    fn add(&mut self, kind: Kind, block: &Block) {
        self.bytes.extend_from_slice(block);
        self.kinds.push(kind);
    }
}

/// Makes inputs until so many blocks have been made.
pub struct Damage {
    bases: Bases,
    random: Random,
    every_byte: EveryByte,
    /// Blocks still to be made.
    left: u64,
    /// Inputs made so far, and short tails.
    inputs: u64,
    tails: usize,
}

impl Damage {
    /// The same seed makes the same inputs.
    pub fn new(seed: u64, blocks: u64) -> Result<Damage, String> {
        let bases = Bases::new(seed)?;
        let mut random = Random::new(seed);
        Ok(Damage {
            every_byte: EveryByte::new(&bases, &mut random),
            bases,
            random,
            left: blocks,
            inputs: 0,
            tails: 0,
        })
    }

    /// How many of the systematic blocks were made, and how many there are.
    pub fn every_byte(&self) -> (usize, usize) {
        self.every_byte.made()
    }

    /// The next input; the first is empty.
    fn input(&mut self) -> Input {
        let mut input = Input::default();
        match self.inputs {
            0 => return input,
            1 if self.left >= LONGER * LONGEST => self.whole(&mut input, LONGEST),
            place if place % (SMALL + 1) == 2 => self.fill(&mut input),
            _ if self.random.percent(50) => self.shifted(&mut input),
            _ => {
                let blocks = self.random.within(0, BEFORE_TAIL);
                self.whole(&mut input, blocks);
                self.tail(&mut input);
            }
        }
        input
    }

    fn whole(&mut self, input: &mut Input, blocks: u64) {
        for _ in 0..blocks {
            input.add(Kind::Whole, &self.one_block(Kind::Whole));
        }
    }

    /// A large input of all kinds.
    fn fill(&mut self, input: &mut Input) {
        let blocks = BATCH.min(self.left) as usize;
        while input.kinds.len() + 1 < blocks {
            match self.random.weighted(WEIGHTS) {
                Kind::Joined => self.joined(input),
                Kind::RecordByte => self.record_byte(input),
                kind => input.add(kind, &self.one_block(kind)),
            }
        }
        self.tail(input);
    }

    /// The next of the systematic blocks; when all are made, a block of another kind.
    fn record_byte(&mut self, input: &mut Input) {
        match self.every_byte.next(&self.bases, &mut self.random) {
            Some((kind, block)) => input.add(kind, &block),
            None => input.add(Kind::TwoBytes, &self.one_block(Kind::TwoBytes)),
        }
    }
}

impl Iterator for Damage {
    type Item = Input;

    fn next(&mut self) -> Option<Input> {
        if self.left == 0 {
            return None;
        }
        let input = self.input();
        self.inputs += 1;
        self.left = self.left.saturating_sub(input.kinds.len() as u64);
        Some(input)
    }
}

#[cfg(test)]
mod tests {
    use super::{Damage, Judged, Kind, Tally};
    use crate::trace::BLOCK;

    #[test]
    fn each_kind_is_answered_as_its_name_says() {
        let mut tally = Tally::default();
        for input in Damage::new(1, 6000).expect("all kinds of record") {
            let blocks = input.bytes.len().div_ceil(BLOCK);
            assert_eq!(blocks, input.kinds.len());
            let judged = Judged::new(&input.bytes);
            assert_eq!(judged.answers.len(), blocks);
            for (kind, answer) in input.kinds.iter().zip(&judged.answers) {
                let expected: &[u8] = match kind {
                    Kind::Whole => &[0],
                    Kind::OneBit | Kind::TwoBits => &[17],
                    Kind::Count | Kind::Nine | Kind::Unused => &[18],
                    Kind::Tail => &[16],
                    Kind::Joined => &[0, 17, 18],
                    Kind::RecordByte | Kind::UnusedByte | Kind::TwoBytes | Kind::Length => &[0, 18],
                };
                assert!(expected.contains(answer), "{}: {answer}", kind.name());
            }
            tally.add(&input, &judged);
        }
        let said = tally.to_string();
        assert!(tally.blocks() >= 6000 && !said.contains(" 0,"), "{said}");
    }

    #[test]
    fn a_seed_makes_the_same_inputs_each_time() {
        let bytes = |seed| -> Vec<u8> {
            let damage = Damage::new(seed, 300).expect("all kinds of record");
            damage.flat_map(|input| input.bytes).collect()
        };
        assert!(bytes(5) == bytes(5) && bytes(5) != bytes(6));
    }
}
