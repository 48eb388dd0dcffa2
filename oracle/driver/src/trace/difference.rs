//! Where another's trace first differs from the oracle's, in words.

use super::record::NAMES;
use super::{BLOCK, CHECKED, COUNT, FIRST_RECORD, RECORD, ZEROS};
use crate::command::Ran;

/// What differs, if anything does: the first byte, what it is part of, and what both have.
pub fn between(judge: &[u8], ran: &Ran) -> Option<String> {
    if judge == ran.output && ran.status.is_none() {
        return None;
    }
    let pairs = judge.iter().zip(&ran.output);
    let same = pairs.take_while(|(judge, other)| judge == other).count();
    let mut said = match (judge.get(same), ran.output.get(same)) {
        (Some(expected), Some(got)) => {
            let name = name(same);
            format!("{name}: expected {expected}, got {got}\n") + &records(judge, ran, same)
        }
        _ => String::new(),
    };
    if judge.len() != ran.output.len() {
        let (expected, got) = (judge.len(), ran.output.len());
        said += &format!("the trace: expected {expected} bytes, got {got}\n");
    }
    if let Some(status) = &ran.status {
        said += &format!("the command ended with {status}\n");
    }
    Some(said)
}

/// What a byte of a trace is.
fn name(at: usize) -> String {
    let (block, byte) = (at / BLOCK, at % BLOCK);
    let part = match byte {
        ..COUNT => format!("byte {byte} of its number"),
        COUNT => "its count".into(),
        ZEROS..FIRST_RECORD => format!("zero {}", byte - ZEROS),
        FIRST_RECORD..CHECKED => {
            let (record, byte) = place(byte);
            format!("record {record}, byte {byte} ({})", NAMES[byte])
        }
        _ => format!("byte {} of its check", byte - CHECKED),
    };
    format!("block {block}, {part}")
}

/// A record's place in its block, and a byte's place in its record.
fn place(byte: usize) -> (usize, usize) {
    let at = byte - FIRST_RECORD;
    (at / RECORD, at % RECORD)
}

/// Both records whole, where the byte is part of one.
fn records(judge: &[u8], ran: &Ran, at: usize) -> String {
    let byte = at % BLOCK;
    if !(FIRST_RECORD..CHECKED).contains(&byte) {
        return String::new();
    }
    let begin = at - place(byte).1;
    let shown = |bytes: &[u8]| match bytes.get(begin..begin + RECORD) {
        Some(record) => format!("{record:?}"),
        None => "cut short".into(),
    };
    let (expected, got) = (shown(judge), shown(&ran.output));
    format!("the record: expected {expected}\n            got      {got}\n")
}

#[cfg(test)]
mod tests {
    use super::between;
    use crate::command::Ran;
    use crate::trace::block::sealed;

    /// What is said of two blocks, when byte `at` is another.
    fn said(at: usize) -> String {
        let record = [2, 0, 0, 0, 0, 0, 1, 0x9C, 0, 2, 2, 0, 0, 0, 8, 0];
        let judge = [sealed(0, &[record; 31]), sealed(1, &[record])].concat();
        let mut output = judge.clone();
        output[at] ^= 1;
        let status = None;
        between(&judge, &Ran { output, status }).expect("a difference")
    }

    #[test]
    fn the_first_byte_that_differs_is_named() {
        for (at, beginning) in [
            (0, "block 0, byte 0 of its number: expected 0, got 1\n"),
            (516, "block 1, its count: expected 1, got 0\n"),
            (13, "block 0, zero 8: expected 0, got 1\n"),
            (
                44,
                "block 0, record 1, byte 14 (flags): expected 8, got 9\n",
            ),
            (
                509,
                "block 0, record 30, byte 15 (zero): expected 0, got 1\n",
            ),
            (1023, "block 1, byte 1 of its check: "),
        ] {
            let said = said(at);
            assert!(said.starts_with(beginning), "{said}");
        }
    }

    #[test]
    fn a_trace_that_ends_early_differs() {
        let judge = sealed(0, &[]);
        let output = judge[..100].to_vec();
        let status = Some("exit status: 1".to_string());
        let said = between(&judge, &Ran { output, status });
        let expected = "the trace: expected 512 bytes, got 100\n\
                        the command ended with exit status: 1\n";
        assert_eq!(said.as_deref(), Some(expected));
        let same = Ran {
            output: judge.to_vec(),
            status: None,
        };
        assert_eq!(between(&judge, &same), None);
    }
}
