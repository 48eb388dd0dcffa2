//! Reads one line of a script. Whatever is not exactly as the format has it is refused.

use crate::area::AREA;
use crate::line::{Call, Client, Line, Query};

/// The longest line, without its line feed.
pub const LONGEST: usize = 1024;
/// The most bytes that one completion brings.
const MOST_ARRIVED: usize = 160;

/// The line, or nothing where it is malformed.
pub fn parse(text: &[u8]) -> Option<Line> {
    if text.len() > LONGEST {
        return None;
    }
    if text.is_empty() || text.starts_with(b"#") {
        let text = String::from_utf8_lossy(text).into_owned();
        return Some(Line::Passed(text));
    }
    let mut words = Words(text.split(|byte| *byte == b' '));
    let name = words.word()?;
    let line = around_calls(name, &mut words).or_else(|| {
        let call = call(name, &mut words)?;
        Some(Line::Call(call))
    })?;
    words.end().then_some(line)
}

/// The lines that are not calls.
fn around_calls<'a>(
    name: &[u8],
    words: &mut Words<impl Iterator<Item = &'a [u8]>>,
) -> Option<Line> {
    match name {
        b"pool" => {
            let at = words.number(AREA as u64)? as usize;
            let bytes = words.bytes(AREA - at)?;
            Some(Line::Pool { at, bytes })
        }
        b"pool_length" => Some(Line::PoolLength(words.number(AREA as u64)? as usize)),
        b"mark" => Some(Line::Mark),
        b"back" => Some(Line::Back),
        _ => None,
    }
}

fn call<'a>(name: &[u8], words: &mut Words<impl Iterator<Item = &'a [u8]>>) -> Option<Call> {
    Some(match name {
        b"new" => Call::New {
            length: words.number(u64::MAX)?,
            channel: words.byte()?,
        },
        b"start" => Call::Start,
        b"stop" => Call::Stop,
        b"config_commit" => Call::ConfigCommit,
        b"fired" => Call::Fired,
        b"read_write_done" => Call::ReadWriteDone(words.bytes(MOST_ARRIVED)?),
        b"declined" => Call::Declined,
        b"resume" => Call::Resume,
        b"transmit" => Call::Transmit {
            buffer: words.number(u64::MAX)?,
            length: words.number(u64::MAX)?,
            n: words.number(u64::MAX)?,
        },
        b"set_receive_buffer" => Call::SetReceiveBuffer {
            buffer: words.number(u64::MAX)?,
            length: words.number(u64::MAX)?,
        },
        b"reset" => Call::Reset {
            configured: words.flag()?,
        },
        _ => return setting(name, words),
    })
}

fn setting<'a>(name: &[u8], words: &mut Words<impl Iterator<Item = &'a [u8]>>) -> Option<Call> {
    Some(match name {
        b"set_address" => Call::SetAddress(words.number(u64::from(u16::MAX))? as u16),
        b"set_pan" => Call::SetPan(words.number(u64::from(u16::MAX))? as u16),
        b"set_address_long" => {
            let bytes = words.bytes(8)?;
            Call::SetAddressLong(bytes.try_into().ok()?)
        }
        b"set_tx_power" => Call::SetTxPower(words.signed()?),
        b"set_channel" => Call::SetChannel(words.byte()?),
        _ => return listener(name, words).or_else(|| query(name)),
    })
}

fn listener<'a>(name: &[u8], words: &mut Words<impl Iterator<Item = &'a [u8]>>) -> Option<Call> {
    let mut clients = Client::ALL.into_iter();
    let client = clients.find(|client| client.call().as_bytes() == name)?;
    Some(Call::SetClient {
        client,
        present: words.flag()?,
    })
}

fn query(name: &[u8]) -> Option<Call> {
    let mut queries = Query::ALL.into_iter();
    let query = queries.find(|query| query.name().as_bytes() == name)?;
    Some(Call::Query(query))
}

/// The words of a line. A second space makes an empty word, which nothing accepts.
struct Words<I>(I);

impl<'a, I: Iterator<Item = &'a [u8]>> Words<I> {
    fn word(&mut self) -> Option<&'a [u8]> {
        self.0.next()
    }

    /// Whether no word is left.
    fn end(&mut self) -> bool {
        self.word().is_none()
    }

    fn number(&mut self, greatest: u64) -> Option<u64> {
        digits(self.word()?).filter(|number| *number <= greatest)
    }

    fn byte(&mut self) -> Option<u8> {
        self.number(u64::from(u8::MAX))?.try_into().ok()
    }

    fn flag(&mut self) -> Option<bool> {
        Some(self.number(1)? == 1)
    }

    /// A number of -128 to 127. `-0` is 0.
    fn signed(&mut self) -> Option<i8> {
        let word = self.word()?;
        let (minus, word) = match word.strip_prefix(b"-") {
            Some(rest) => (true, rest),
            None => (false, word),
        };
        let size = i64::try_from(digits(word)?).ok()?;
        i8::try_from(if minus { -size } else { size }).ok()
    }

    /// All words that are left, each a byte, at most so many.
    fn bytes(&mut self, most: usize) -> Option<Vec<u8>> {
        let mut bytes = Vec::new();
        while let Some(word) = self.word() {
            let number = digits(word)?;
            bytes.push(u8::try_from(number).ok()?);
        }
        (bytes.len() <= most).then_some(bytes)
    }
}

/// Decimal digits, one or more, leading zeros allowed, below 2^64.
fn digits(word: &[u8]) -> Option<u64> {
    if word.is_empty() {
        return None;
    }
    word.iter().try_fold(0u64, |number, byte| {
        let digit = byte.is_ascii_digit().then(|| u64::from(byte - b'0'))?;
        number.checked_mul(10)?.checked_add(digit)
    })
}

#[cfg(test)]
mod tests {
    use super::{LONGEST, parse};
    use crate::line::{Call, Line};

    fn malformed(text: &str) -> bool {
        parse(text.as_bytes()).is_none()
    }

    const EVERY_SORT: [&str; 36] = [
        "",
        "# a remark",
        "new 129 26",
        "start",
        "stop",
        "config_commit",
        "fired",
        "read_write_done",
        "read_write_done 0 255",
        "declined",
        "resume",
        "transmit 18446744073709551615 160 125",
        "set_receive_buffer 3 129",
        "reset 0",
        "set_address 65535",
        "set_pan 4660",
        "set_address_long 1 2 3 4 5 6 7 8",
        "set_tx_power -17",
        "set_channel 11",
        "set_power_client 1",
        "set_transmit_client 0",
        "set_receive_client 1",
        "set_config_client 0",
        "initialize",
        "is_on",
        "busy",
        "get_address",
        "get_address_long",
        "get_pan",
        "get_tx_power",
        "get_channel",
        "pool 4095 7",
        "pool 4096",
        "pool_length 0",
        "mark",
        "back",
    ];

    #[test]
    fn every_line_prints_as_it_was_read() {
        for text in EVERY_SORT {
            let line = parse(text.as_bytes()).expect(text);
            assert_eq!(line.to_string(), text);
        }
    }

    #[test]
    fn spaces_and_carriage_returns_are_malformed() {
        for text in [
            " start",
            "start ",
            "set_pan  1",
            "start\r",
            "\t",
            "set_pan 1\r",
        ] {
            assert!(malformed(text), "{text:?}");
        }
    }

    #[test]
    fn words_and_ranges_are_exact() {
        for text in [
            "Start",
            "start 1",
            "new 129",
            "new 129 256",
            "new -1 26",
            "new 18446744073709551616 26",
            "reset 2",
            "reset",
            "set_pan 65536",
            "set_pan -1",
            "set_pan +1",
            "set_address_long 1 2 3 4 5 6 7",
            "set_address_long 1 2 3 4 5 6 7 8 9",
            "set_tx_power 128",
            "set_tx_power -129",
            "set_tx_power -",
            "set_tx_power --1",
            "read_write_done 256",
            "declined 0",
            "resume 0",
            "decline",
            "pool",
            "pool 4095 1 2",
            "pool 4097",
            "pool_length 4097",
            "mark 1",
        ] {
            assert!(malformed(text), "{text:?}");
        }
    }

    #[test]
    fn leading_zeros_and_minus_nought_are_numbers() {
        let power = |power| Some(Line::Call(Call::SetTxPower(power)));
        assert_eq!(parse(b"set_tx_power -0"), power(0));
        assert_eq!(
            parse(b"set_tx_power -0000000000000000000000128"),
            power(-128)
        );
        assert_eq!(
            parse(b"set_pan 000000000000000000000000001"),
            parse(b"set_pan 1")
        );
    }

    #[test]
    fn a_long_line_is_malformed_whatever_it_holds() {
        let remark = |length| format!("#{}", " ".repeat(length - 1));
        assert!(!malformed(&remark(LONGEST)));
        assert!(malformed(&remark(LONGEST + 1)));
        assert!(parse(b"#\r\xff").is_some());
    }

    #[test]
    fn at_most_160_bytes_arrive() {
        let done = |count| format!("read_write_done{}", " 0".repeat(count));
        assert!(!malformed(&done(160)));
        assert!(malformed(&done(161)));
    }
}
