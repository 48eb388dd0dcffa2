//! The driver values that refusal 12 describes, clause by clause as the readings have it,
//! with request 2026-07's for the line, 2026-13's for the held length and 2026-05's for a
//! transfer that waits. No driver that came from a new one is such a value, so through the calls
//! only the pool's length can show.

use std::ops::RangeInclusive;

use super::driver::{Driver, Lent, MOST_RECEIVE, What};
use super::receiving::FRAME_LENGTHS;
use super::states::*;
use crate::action::Kind;
use crate::area::{BUFFER, CLIENT_BUFFERS, SPI_BUF, SPI_RX, SPI_TX};

const SPI_BUF_LENGTHS: RangeInclusive<usize> = 129..=BUFFER;
const RECEIVE_LENGTHS: RangeInclusive<usize> = 129..=BUFFER;
const SHORTEST: usize = 2;
/// n at transmit, and how much more its buffer has at least.
const SENT: RangeInclusive<u8> = 2..=127;
const MORE: usize = 3;
/// Bytes of a frame transfer before the frame's own.
const PSDU_OFFSET: usize = 2;

pub fn described(driver: &Driver) -> bool {
    recorded_wrongly(driver)
        || wrong_lengths(driver)
        || wrong_transfer(driver)
        || waits_without_buffers(driver)
        || buffer_missing(driver)
        || wrong_held_length(driver)
}

/// A buffer recorded twice, an own buffer nowhere, a client's place with another's buffer,
/// or more in a client's place than it takes.
fn recorded_wrongly(driver: &Driver) -> bool {
    let places = driver.places();
    let count = |buffer| places.iter().filter(|(held, _)| *held == buffer).count();
    let twice = places.iter().any(|(buffer, _)| count(*buffer) > 1);
    let nowhere = [SPI_TX, SPI_RX, SPI_BUF].iter().any(|own| count(*own) == 0);
    let (sent, received) = lent(driver);
    let foreign = |lent: &Lent| lent.buffer >= CLIENT_BUFFERS;
    let others = sent.iter().chain(&received).any(foreign);
    twice || nowhere || others || sent.len() > 1 || received.len() > MOST_RECEIVE
}

/// What clients lent for sending and for receiving, held or under way.
fn lent(driver: &Driver) -> (Vec<Lent>, Vec<Lent>) {
    let mut sent: Vec<Lent> = driver.tx_buf.into_iter().collect();
    let mut received = driver.line.clone();
    match driver.under_way.as_ref().map(|under_way| under_way.what) {
        Some(What::FrameWrite(lent)) => sent.push(lent),
        Some(What::FrameRead(lent)) => received.push(lent),
        _ => {}
    }
    (sent, received)
}

/// A length out of bounds.
fn wrong_lengths(driver: &Driver) -> bool {
    let spi_buf = &driver.spi_buf;
    let own = SPI_BUF_LENGTHS.contains(&spi_buf.whole)
        && (SHORTEST..=spi_buf.whole).contains(&spi_buf.present);
    let (sent, received) = lent(driver);
    let least = usize::from(driver.tx_len) + MORE;
    let fits =
        |lent: &Lent| SENT.contains(&driver.tx_len) && (least..=BUFFER).contains(&lent.length);
    let long = |lent: &Lent| RECEIVE_LENGTHS.contains(&lent.length);
    !(own && sent.iter().all(fits) && received.iter().all(long))
}

/// A frame transfer in another state than its own, of the other kind, with handling set or
/// with other lengths; or such a state without its transfer.
fn wrong_transfer(driver: &Driver) -> bool {
    let needed = matches!(
        driver.state,
        TX_WRITING_FRAME | RX_READING_FRAME_LEN | RX_READING_FRAME
    );
    let Some((kind, lengths)) = transfer(driver) else {
        return needed;
    };
    let (state, table) = match kind {
        Kind::FrameRead => (
            matches!(driver.state, RX_READING_FRAME_LEN | RX_READING_FRAME),
            read_into(driver).map(|lent| (driver.spi_buf.present, lent.length)),
        ),
        Kind::FrameWrite => {
            let write_length = PSDU_OFFSET + usize::from(driver.tx_len);
            let lengths = (write_length, driver.spi_buf.present);
            (driver.state == TX_WRITING_FRAME, Some(lengths))
        }
        Kind::RegisterRead | Kind::RegisterWrite => return needed,
    };
    !state || driver.flags.interrupt_handling || table != Some(lengths)
}

/// The kind and the two lengths of the transfer under way or of the one that waits.
fn transfer(driver: &Driver) -> Option<(Kind, (usize, usize))> {
    let under_way = driver.under_way.as_ref().map(|transfer| {
        let lengths = (transfer.write_length, transfer.read_length);
        (transfer.what.kind(), lengths)
    });
    under_way.or_else(|| {
        let transfer = driver.waiting.as_ref()?;
        Some((transfer.kind, (transfer.write_length, transfer.read_length)))
    })
}

/// The receive buffer of a frame read: while it waits, the front of the line.
fn read_into(driver: &Driver) -> Option<Lent> {
    match driver.under_way.as_ref().map(|under_way| under_way.what) {
        Some(What::FrameRead(lent)) => Some(lent),
        _ => driver.line.first().copied(),
    }
}

/// A transfer that waits, one of whose buffers is not in its place.
fn waits_without_buffers(driver: &Driver) -> bool {
    let own = &driver.own;
    match driver.waiting.as_ref().map(|waiting| waiting.kind) {
        None => false,
        Some(Kind::RegisterRead | Kind::RegisterWrite) => !(own.spi_tx && own.spi_rx),
        Some(Kind::FrameRead) => !own.spi_buf || driver.line.is_empty(),
        Some(Kind::FrameWrite) => !own.spi_buf || driver.tx_buf.is_none(),
    }
}

/// No buffer where the state takes one.
fn buffer_missing(driver: &Driver) -> bool {
    match driver.state {
        TX_STATUS_PRECHECK1 | TX_RETURN_TO_RX => driver.tx_buf.is_none(),
        RX_START_READING | RX_READING_FRAME_LEN_DONE | RX_ENABLING_RECEPTION => {
            driver.line.is_empty()
        }
        _ => false,
    }
}

/// A held length that is not read out, in a state that comes after that was decided.
fn wrong_held_length(driver: &Driver) -> bool {
    (RX_READING_FRAME..=RX_ENABLING_RECEPTION).contains(&driver.state)
        && !FRAME_LENGTHS.contains(&driver.reception.held_length)
}

#[cfg(test)]
mod tests {
    use super::{described, waits_without_buffers};
    use crate::action::Kind;
    use crate::model::driver::{Driver, Lent, UnderWay, Waiting, What};
    use crate::model::states::*;

    type Change = fn(&mut Driver);

    const FIRST: Lent = Lent {
        buffer: 1,
        length: 160,
    };
    const SECOND: Lent = Lent {
        buffer: 2,
        length: 129,
    };

    fn transfer(what: What, write_length: usize, read_length: usize) -> Option<UnderWay> {
        Some(UnderWay {
            what,
            command: [0, 0],
            write_length,
            read_length,
        })
    }

    fn waiting(kind: Kind, write_length: usize, read_length: usize) -> Option<Waiting> {
        Some(Waiting {
            kind,
            command: [0, 0],
            write_length,
            read_length,
        })
    }

    /// In READY, with a frame to send and two receive buffers.
    fn ready() -> Driver {
        let mut driver = Driver::new(140, 26);
        driver.state = READY;
        driver.tx_buf = Some(FIRST);
        driver.tx_len = 10;
        driver.line = vec![
            SECOND,
            Lent {
                buffer: 3,
                ..SECOND
            },
        ];
        driver.reception.held_length = 20;
        driver
    }

    /// With the frame under way to the radio.
    fn writing() -> Driver {
        let mut driver = ready();
        driver.state = TX_WRITING_FRAME;
        driver.tx_buf = None;
        driver.own.spi_buf = false;
        driver.under_way = transfer(What::FrameWrite(FIRST), 12, 140);
        driver
    }

    /// With a length read under way.
    fn reading() -> Driver {
        let mut driver = ready();
        driver.state = RX_READING_FRAME_LEN;
        driver.line.remove(0);
        driver.own.spi_buf = false;
        driver.spi_buf.present = 2;
        driver.under_way = transfer(What::FrameRead(SECOND), 2, 129);
        driver
    }

    /// With a frame of the held length under way from the radio.
    fn reading_out() -> Driver {
        let mut driver = reading();
        driver.state = RX_READING_FRAME;
        driver.spi_buf.present = 22;
        driver.under_way = transfer(What::FrameRead(SECOND), 22, 129);
        driver
    }

    /// With a register transfer under way.
    fn with_register(mut driver: Driver) -> Driver {
        driver.own.spi_tx = false;
        driver.own.spi_rx = false;
        driver.under_way = transfer(What::RegisterRead, 2, 2);
        driver
    }

    /// With the frame to be written declined.
    fn waits_to_write() -> Driver {
        let mut driver = ready();
        driver.state = TX_WRITING_FRAME;
        driver.waiting = waiting(Kind::FrameWrite, 12, 140);
        driver
    }

    /// With the length read declined.
    fn waits_to_read() -> Driver {
        let mut driver = ready();
        driver.state = RX_READING_FRAME_LEN;
        driver.spi_buf.present = 2;
        driver.waiting = waiting(Kind::FrameRead, 2, 129);
        driver
    }

    /// With the frame read declined.
    fn waits_to_read_out() -> Driver {
        let mut driver = waits_to_read();
        driver.state = RX_READING_FRAME;
        driver.spi_buf.present = 22;
        driver.waiting = waiting(Kind::FrameRead, 22, 129);
        driver
    }

    /// With a register transfer declined.
    fn waits_for_a_register() -> Driver {
        let mut driver = ready();
        driver.waiting = waiting(Kind::RegisterWrite, 2, 2);
        driver
    }

    #[test]
    fn what_calls_lead_to_is_not_described() {
        for driver in [
            Driver::new(129, 11),
            ready(),
            writing(),
            reading(),
            reading_out(),
            with_register(ready()),
            waits_to_write(),
            waits_to_read(),
            waits_to_read_out(),
            waits_for_a_register(),
        ] {
            assert!(!described(&driver), "{driver:?}");
        }
        let mut four = reading();
        four.line
            .extend([4, 5].map(|buffer| Lent { buffer, ..FIRST }));
        assert!(!described(&four));
        // One of the four is that of the waiting frame read.
        let mut waits = waits_to_read();
        waits
            .line
            .extend([4, 5].map(|buffer| Lent { buffer, ..FIRST }));
        assert!(!described(&waits));
        // While a register transfer waits, each state without a frame transfer will do.
        for state in (0..=68).filter(|state| ![34, 63, 65].contains(state)) {
            for handling in [false, true] {
                let mut driver = waits_for_a_register();
                driver.state = state;
                driver.flags.interrupt_handling = handling;
                assert!(!described(&driver), "{state}");
            }
        }
    }

    /// Changes that make a described driver value of one that is not.
    fn all_described(driver: fn() -> Driver, changes: &[Change]) {
        for (place, change) in changes.iter().enumerate() {
            let mut driver = driver();
            change(&mut driver);
            assert!(described(&driver), "change {place}: {driver:?}");
        }
    }

    #[test]
    fn each_clause_of_places_and_lengths() {
        all_described(
            ready,
            &[
                |driver| driver.line[0].buffer = 1,
                |driver| driver.line[0].buffer = 3,
                |driver| driver.own.spi_tx = false,
                |driver| driver.own.spi_buf = false,
                |driver| driver.line[1].buffer = 16,
                |driver| {
                    driver.tx_buf = Some(Lent {
                        buffer: 19,
                        ..FIRST
                    })
                },
                |driver| driver.spi_buf.whole = 128,
                |driver| driver.spi_buf.whole = 161,
                |driver| driver.spi_buf.present = 1,
                |driver| driver.spi_buf.present = 141,
                |driver| driver.tx_len = 1,
                |driver| driver.tx_len = 128,
                |driver| {
                    driver.tx_buf = Some(Lent {
                        length: 12,
                        ..FIRST
                    })
                },
                |driver| {
                    driver.tx_buf = Some(Lent {
                        length: 161,
                        ..FIRST
                    })
                },
                |driver| driver.line[0].length = 128,
                |driver| driver.line[1].length = 161,
                |driver| {
                    let more = [4, 5, 6].map(|buffer| Lent { buffer, ..SECOND });
                    driver.line.extend(more);
                },
            ],
        );
    }

    #[test]
    fn each_clause_of_states() {
        all_described(
            ready,
            &[
                |driver| driver.state = TX_WRITING_FRAME,
                |driver| driver.state = RX_READING_FRAME_LEN,
                |driver| driver.state = RX_READING_FRAME,
                |driver| (driver.state, driver.tx_buf) = (TX_STATUS_PRECHECK1, None),
                |driver| (driver.state, driver.tx_buf) = (TX_RETURN_TO_RX, None),
                |driver| (driver.state, driver.line) = (RX_START_READING, vec![]),
                |driver| (driver.state, driver.line) = (RX_READING_FRAME_LEN_DONE, vec![]),
                |driver| (driver.state, driver.line) = (RX_ENABLING_RECEPTION, vec![]),
            ],
        );
    }

    /// Whether a driver that differs only in its state and its held length is described.
    fn described_in(mut driver: Driver, state: u8, held_length: u8) -> bool {
        driver.state = state;
        driver.reception.held_length = held_length;
        described(&driver)
    }

    #[test]
    fn the_held_length_from_65_to_68() {
        for (held_length, wrong) in [
            (0, true),
            (10, true),
            (11, false),
            (20, false),
            (127, false),
            (128, true),
            (255, true),
        ] {
            for driver in [reading_out(), waits_to_read_out()] {
                assert_eq!(described_in(driver, 65, held_length), wrong);
            }
            for state in [66, 67, 68] {
                for driver in [ready(), with_register(ready()), waits_for_a_register()] {
                    let said = described_in(driver, state, held_length);
                    assert_eq!(said, wrong, "{held_length} in {state}");
                }
            }
        }
    }

    #[test]
    fn elsewhere_any_held_length_will_do() {
        for held_length in 0..=255 {
            for state in 0..=64 {
                let drivers = match state {
                    34 => [writing(), waits_to_write()],
                    63 => [reading(), waits_to_read()],
                    _ => [ready(), waits_for_a_register()],
                };
                for driver in drivers {
                    let said = described_in(driver, state, held_length);
                    assert!(!said, "{held_length} in {state}");
                }
            }
        }
    }

    #[test]
    fn each_clause_during_a_frame_transfer() {
        let both: &[Change] = &[
            |driver| driver.state = READY,
            |driver| driver.flags.interrupt_handling = true,
            |driver| driver.spi_buf.present = 3,
            |driver| driver.own.spi_buf = true,
            |driver| driver.under_way.as_mut().unwrap().write_length += 1,
            |driver| driver.under_way.as_mut().unwrap().read_length -= 1,
        ];
        all_described(writing, both);
        all_described(reading, both);
        all_described(reading_out, both);
        all_described(
            writing,
            &[
                |driver| driver.state = RX_READING_FRAME,
                |driver| driver.tx_buf = Some(Lent { buffer: 9, ..FIRST }),
                |driver| driver.line[0] = FIRST,
                |driver| driver.tx_len = 11,
            ],
        );
        all_described(
            reading,
            &[
                |driver| driver.state = TX_WRITING_FRAME,
                |driver| {
                    driver
                        .line
                        .extend([5, 6, 7].map(|buffer| Lent { buffer, ..FIRST }))
                },
                |driver| driver.line[0] = SECOND,
            ],
        );
    }

    #[test]
    fn each_clause_while_a_frame_transfer_waits() {
        let both: &[Change] = &[
            |driver| driver.state = READY,
            |driver| driver.flags.interrupt_handling = true,
            |driver| driver.spi_buf.present = 3,
            |driver| driver.own.spi_buf = false,
            |driver| driver.waiting = None,
            |driver| driver.waiting = waiting(Kind::RegisterRead, 2, 2),
            |driver| driver.waiting.as_mut().unwrap().write_length += 1,
            |driver| driver.waiting.as_mut().unwrap().read_length -= 1,
        ];
        all_described(waits_to_write, both);
        all_described(waits_to_read, both);
        all_described(waits_to_read_out, both);
        all_described(
            waits_to_write,
            &[
                |driver| driver.state = RX_READING_FRAME,
                |driver| driver.tx_buf = None,
                |driver| driver.tx_len = 11,
            ],
        );
        all_described(
            waits_to_read,
            &[
                |driver| driver.state = TX_WRITING_FRAME,
                |driver| driver.line.clear(),
                |driver| driver.line[0].length = 130,
                |driver| {
                    driver
                        .line
                        .extend([5, 6, 7].map(|buffer| Lent { buffer, ..FIRST }))
                },
            ],
        );
    }

    #[test]
    fn each_clause_while_a_register_transfer_waits() {
        all_described(
            waits_for_a_register,
            &[
                |driver| driver.own.spi_tx = false,
                |driver| driver.own.spi_rx = false,
                |driver| driver.state = TX_WRITING_FRAME,
                |driver| driver.state = RX_READING_FRAME_LEN,
                |driver| (driver.state, driver.tx_buf) = (TX_STATUS_PRECHECK1, None),
            ],
        );
    }

    #[test]
    fn the_clause_of_a_waiting_transfers_buffers_by_itself() {
        let missing: [(fn() -> Driver, Change); 6] = [
            (waits_for_a_register, |driver| driver.own.spi_tx = false),
            (waits_for_a_register, |driver| driver.own.spi_rx = false),
            (waits_to_read, |driver| driver.own.spi_buf = false),
            (waits_to_read, |driver| driver.line.clear()),
            (waits_to_write, |driver| driver.own.spi_buf = false),
            (waits_to_write, |driver| driver.tx_buf = None),
        ];
        for (driver, change) in missing {
            let mut driver = driver();
            assert!(!waits_without_buffers(&driver));
            change(&mut driver);
            assert!(waits_without_buffers(&driver), "{driver:?}");
        }
    }
}
