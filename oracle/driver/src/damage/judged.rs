//! What the oracle's own reader says to an input, and which block a difference is in.

use crate::trace::listing::{HEADER, Listing};
use crate::trace::reader::blocks;

pub struct Judged {
    /// The whole listing.
    pub output: String,
    /// 0 or the number of the refusal, for each block.
    pub answers: Vec<u8>,
    /// Where each block's lines begin in the listing.
    begins: Vec<usize>,
}

impl Judged {
    pub fn new(input: &[u8]) -> Judged {
        let mut listing = Listing::default();
        let mut output = HEADER.to_string();
        let (mut answers, mut begins) = (Vec::new(), Vec::new());
        for block in blocks(input) {
            begins.push(output.len());
            answers.push(listing.add(block, &mut output));
        }
        Judged {
            output,
            answers,
            begins,
        }
    }

    /// The block at whose lines another listing first differs, if there is any block. A
    /// block that holds no record has no lines: then it is one of those before.
    pub fn block_that_differs(&self, output: &[u8]) -> Option<usize> {
        let pairs = self.output.bytes().zip(output);
        let same = pairs.take_while(|(judge, other)| judge == *other).count();
        let after = self.begins.partition_point(|begin| *begin <= same);
        (!self.begins.is_empty()).then(|| after.saturating_sub(1))
    }
}

#[cfg(test)]
mod tests {
    use super::Judged;
    use crate::trace::BLOCK;
    use crate::trace::block::sealed;

    #[test]
    fn the_block_that_differs_is_found() {
        let record = [2, 0, 0, 0, 0, 0, 1, 0x9C, 0, 2, 2, 0, 0, 0, 8, 0];
        let block = sealed(0, &[record, record]);
        let judged = Judged::new(&[block, [1; BLOCK], block].concat());
        assert_eq!(judged.answers, [0, 17, 0]);
        for (line, block) in [(1, 0), (2, 0), (3, 1), (4, 2), (5, 2)] {
            let mut lines: Vec<String> = judged
                .output
                .lines()
                .map(|line| format!("{line}\n"))
                .collect();
            lines[line].insert(0, '?');
            assert_eq!(
                judged.block_that_differs(lines.concat().as_bytes()),
                Some(block)
            );
        }
        assert_eq!(judged.block_that_differs(judged.output.as_bytes()), Some(2));
        assert_eq!(Judged::new(&[]).block_that_differs(b""), None);
    }
}
