//! Counts the blocks of each kind, and what was answered to them.

use std::fmt;

use super::Input;
use super::judged::Judged;
use super::kind::Kind;

/// What a block is answered.
const ANSWERS: [u8; 4] = [0, 16, 17, 18];

#[derive(Default)]
pub struct Tally {
    inputs: u64,
    kinds: [u64; Kind::ALL.len()],
    answers: [u64; ANSWERS.len()],
}

impl Tally {
    pub fn add(&mut self, input: &Input, judged: &Judged) {
        self.inputs += 1;
        for kind in &input.kinds {
            self.kinds[*kind as usize] += 1;
        }
        for (count, number) in self.answers.iter_mut().zip(ANSWERS) {
            let same = judged.answers.iter().filter(|answer| **answer == number);
            *count += same.count() as u64;
        }
    }

    pub fn blocks(&self) -> u64 {
        self.kinds.iter().sum()
    }
}

impl fmt::Display for Tally {
    fn fmt(&self, f: &mut fmt::Formatter) -> fmt::Result {
        write!(f, "{} blocks in {} inputs; ", self.blocks(), self.inputs)?;
        for (kind, count) in Kind::ALL.iter().zip(self.kinds) {
            write!(f, "{} {count}, ", kind.name())?;
        }
        f.write_str("answers")?;
        for (number, count) in ANSWERS.iter().zip(self.answers) {
            let comma = if *number == 0 { "" } else { "," };
            write!(f, "{comma} {number}: {count}")?;
        }
        Ok(())
    }
}
