//! The book of custody: where each buffer is, by calls, answers, actions and transfers
//! alone. It never looks at the driver.

use crate::action::{Action, Kind, Transfer};
use crate::answer::Answer;
use crate::area::{BUFFERS, CLIENT_BUFFERS, SPI_BUF, SPI_RX, SPI_TX};
use crate::line::Call;

/// Where a buffer is. The numbers are those of the output.
#[derive(Clone, Copy, Debug, Default, PartialEq, Eq)]
pub enum Place {
    #[default]
    Client = 0,
    Own = 1,
    Transmit = 2,
    Receive = 3,
    UnderWay = 4,
}

impl Place {
    /// How many buffers the transmit place holds, and by request 2026-07 the receive place;
    /// one that a transfer took from there is counted.
    fn holds(self) -> usize {
        match self {
            Place::Transmit => 1,
            Place::Receive => 4,
            Place::Client | Place::Own | Place::UnderWay => BUFFERS,
        }
    }
}

/// The place of each buffer.
pub type Places = [Place; BUFFERS];

#[derive(Clone, Debug, PartialEq, Eq)]
pub struct Book {
    pub places: Places,
    /// The transfer under way: its kind, what it writes from and what it reads into.
    pub transfer: Option<(Kind, usize, usize)>,
    /// The kind of the transfer that waits, its buffers in their places (request 2026-05).
    pub waiting: Option<Kind>,
    pub accepted: u64,
    pub handed: u64,
    pub dropped: u64,
}

impl Default for Book {
    fn default() -> Self {
        let mut places = [Place::Client; BUFFERS];
        places[CLIENT_BUFFERS..].fill(Place::Own);
        Book {
            places,
            transfer: None,
            waiting: None,
            accepted: 0,
            handed: 0,
            dropped: 0,
        }
    }
}

impl Book {
    /// Enters one call and what came of it. True where that cannot be: a fault.
    pub fn enter(
        &mut self,
        call: &Call,
        answer: Answer,
        actions: &[Action],
        transfer: Option<&Transfer>,
    ) -> bool {
        if let Call::New { .. } = call {
            *self = Book::default();
            return false;
        }
        if answer != Answer::Done {
            return !actions.is_empty() || transfer.is_some();
        }
        let mut fault = self.called(call);
        for action in actions {
            fault |= self.acted(action);
        }
        if let Some(transfer) = transfer {
            fault |= self.began(transfer, *call == Call::Resume);
        }
        fault
    }

    /// What the call itself moves.
    fn called(&mut self, call: &Call) -> bool {
        match call {
            Call::Transmit { buffer, .. } => self.brought(*buffer, Place::Transmit),
            Call::SetReceiveBuffer { buffer, .. } => self.brought(*buffer, Place::Receive),
            Call::ReadWriteDone(_) => self.ended().is_none(),
            Call::Declined => {
                let ended = self.ended();
                self.waiting = ended.or(self.waiting);
                ended.is_none()
            }
            _ => false,
        }
    }

    /// A buffer goes from the client to a client's place; more than it holds is a fault.
    fn brought(&mut self, buffer: u64, place: Place) -> bool {
        self.accepted += 1;
        let full = self.occupied(place) >= place.holds();
        let buffer = usize::try_from(buffer).unwrap_or(BUFFERS);
        full | (buffer >= CLIENT_BUFFERS || self.moved(buffer, Place::Client, place))
    }

    /// The buffers at a client's place, with the one that the transfer under way took from there.
    fn occupied(&self, place: Place) -> usize {
        let there = self.places.iter().filter(|at| **at == place).count();
        let away = self.transfer.is_some_and(|(kind, _, _)| {
            let (write, read) = origins(kind);
            write == place || read == place
        });
        there + usize::from(away)
    }

    /// The transfer under way ends, if there is one: its buffers go where they came from.
    fn ended(&mut self) -> Option<Kind> {
        let (kind, write, read) = self.transfer.take()?;
        let (write_place, read_place) = origins(kind);
        self.places[write] = write_place;
        self.places[read] = read_place;
        Some(kind)
    }

    fn acted(&mut self, action: &Action) -> bool {
        match *action {
            Action::Sent { buffer, .. } => {
                self.handed += 1;
                self.moved(buffer, Place::Transmit, Place::Client)
            }
            Action::Received { buffer, .. } => {
                self.handed += 1;
                self.moved(buffer, Place::Receive, Place::Client)
            }
            Action::Dropped { buffer } => {
                self.dropped += 1;
                self.moved(buffer, Place::Transmit, Place::Client)
            }
            _ => false,
        }
    }

    /// A transfer begins. While one waits only a resume may begin one, which ends the waiting;
    /// that it is the one that waited is no affair of the book's.
    fn began(&mut self, transfer: &Transfer, resumed: bool) -> bool {
        let (write, read) = (transfer.write_buffer, transfer.read_buffer);
        let named = match transfer.kind {
            Kind::RegisterRead | Kind::RegisterWrite => (write, read) == (SPI_TX, SPI_RX),
            Kind::FrameRead => write == SPI_BUF,
            Kind::FrameWrite => read == SPI_BUF,
        };
        let (write_place, read_place) = origins(transfer.kind);
        if resumed {
            self.waiting = None;
        }
        let mut fault = !named || self.transfer.is_some() || self.waiting.is_some();
        fault |= self.moved(write, write_place, Place::UnderWay);
        fault |= self.moved(read, read_place, Place::UnderWay);
        self.transfer = Some((transfer.kind, write, read));
        fault
    }

    /// Moves a buffer. True where it was not at the place it is to come from.
    fn moved(&mut self, buffer: usize, from: Place, to: Place) -> bool {
        let before = std::mem::replace(&mut self.places[buffer], to);
        before != from
    }
}

/// The places that a transfer's write buffer and read buffer come from and go back to.
pub fn origins(kind: Kind) -> (Place, Place) {
    match kind {
        Kind::RegisterRead | Kind::RegisterWrite => (Place::Own, Place::Own),
        Kind::FrameRead => (Place::Own, Place::Receive),
        Kind::FrameWrite => (Place::Transmit, Place::Own),
    }
}

#[cfg(test)]
mod tests {
    use super::{Book, Place};
    use crate::action::{Action, Kind, Transfer};
    use crate::answer::Answer;
    use crate::line::Call;

    const TRANSMIT: Call = Call::Transmit {
        buffer: 4,
        length: 160,
        n: 10,
    };
    const SENT: Action = Action::Sent {
        buffer: 4,
        ack: true,
        fail: false,
    };

    fn receive(buffer: u64) -> Call {
        Call::SetReceiveBuffer {
            buffer,
            length: 160,
        }
    }

    fn transfer(kind: Kind, write_buffer: usize, read_buffer: usize) -> Transfer {
        Transfer {
            kind,
            write_buffer,
            read_buffer,
            read_length: 2,
            sent: vec![0, 0],
        }
    }

    #[test]
    fn a_sent_buffer_goes_out_and_comes_back() {
        let mut book = Book::default();
        let write = transfer(Kind::FrameWrite, 4, 18);
        let done = Call::ReadWriteDone(vec![0, 0]);
        assert!(!book.enter(&TRANSMIT, Answer::Done, &[], None));
        assert!(!book.enter(&Call::Fired, Answer::Done, &[], Some(&write)));
        assert_eq!(book.places[4], Place::UnderWay);
        assert!(!book.enter(&done, Answer::Done, &[], None));
        assert_eq!(book.places[4], Place::Transmit);
        assert!(!book.enter(&Call::Start, Answer::Done, &[SENT], None));
        assert_eq!((book.accepted, book.handed, book.dropped), (1, 1, 0));
        assert_eq!(book.places, Book::default().places);
    }

    #[test]
    fn a_drop_is_counted_by_itself() {
        let mut book = Book::default();
        let drop = Action::Dropped { buffer: 4 };
        assert!(!book.enter(&TRANSMIT, Answer::Done, &[], None));
        assert!(!book.enter(&Call::Start, Answer::Done, &[drop], None));
        assert_eq!((book.accepted, book.handed, book.dropped), (1, 0, 1));
    }

    #[test]
    fn a_refused_call_moves_nothing_and_comes_with_nothing() {
        let mut book = Book::default();
        let read = transfer(Kind::RegisterRead, 16, 17);
        assert!(!book.enter(&TRANSMIT, Answer::Busy, &[], None));
        assert_eq!(book.accepted, 0);
        assert!(book.enter(&TRANSMIT, Answer::Busy, &[SENT], None));
        assert!(book.enter(&TRANSMIT, Answer::Busy, &[], Some(&read)));
    }

    #[test]
    fn what_cannot_be_is_a_fault() {
        let register = transfer(Kind::RegisterRead, 16, 17);
        let wrong = transfer(Kind::RegisterRead, 17, 16);
        let frame = transfer(Kind::FrameRead, 18, 3);
        let mut book = Book::default();
        assert!(
            book.clone()
                .enter(&Call::ReadWriteDone(vec![]), Answer::Done, &[], None)
        );
        assert!(
            book.clone()
                .enter(&Call::Start, Answer::Done, &[SENT], None)
        );
        assert!(
            book.clone()
                .enter(&Call::Start, Answer::Done, &[], Some(&wrong))
        );
        assert!(
            book.clone()
                .enter(&Call::Start, Answer::Done, &[], Some(&frame))
        );
        assert!(!book.enter(&Call::Start, Answer::Done, &[], Some(&register)));
        assert!(book.enter(&Call::Start, Answer::Done, &[], Some(&register)));
    }

    #[test]
    fn the_transmit_place_holds_one_buffer() {
        let second = Call::Transmit {
            buffer: 5,
            length: 160,
            n: 10,
        };
        let write = transfer(Kind::FrameWrite, 4, 18);
        let mut book = Book::default();
        assert!(!book.enter(&TRANSMIT, Answer::Done, &[], None));
        assert!(book.clone().enter(&second, Answer::Done, &[], None));
        assert!(!book.enter(&Call::Start, Answer::Done, &[], Some(&write)));
        assert!(book.clone().enter(&second, Answer::Done, &[], None));
        assert!(!book.enter(&receive(5), Answer::Done, &[], None));
    }

    #[test]
    fn the_receive_place_holds_four_buffers() {
        let read = transfer(Kind::FrameRead, 18, 3);
        let given = |buffer| Action::Received {
            buffer,
            length: 9,
            crc: true,
        };
        let done = Call::ReadWriteDone(vec![0, 0]);
        let mut book = Book::default();
        for buffer in [3, 5, 6] {
            assert!(!book.enter(&receive(buffer), Answer::Done, &[], None));
        }
        assert!(!book.enter(&Call::Start, Answer::Done, &[], Some(&read)));
        // The one under way counts: a fourth fits, a fifth is a fault.
        assert!(!book.enter(&receive(7), Answer::Done, &[], None));
        assert!(book.clone().enter(&receive(8), Answer::Done, &[], None));
        // The book keeps no order: any of the four may be handed back.
        assert!(!book.enter(&done, Answer::Done, &[given(6)], None));
        assert!(!book.enter(&receive(8), Answer::Done, &[], None));
        assert!(book.enter(&receive(9), Answer::Done, &[], None));
        assert_eq!((book.accepted, book.handed), (6, 1));
    }

    const DONE: Answer = Answer::Done;

    fn register() -> Transfer {
        transfer(Kind::RegisterRead, 16, 17)
    }

    /// A book with this transfer under way, and one of the same with it waiting.
    fn under_way_and_waiting(transfer: &Transfer) -> (Book, Book) {
        let mut book = Book::default();
        assert!(!book.enter(&TRANSMIT, DONE, &[], None));
        assert!(!book.enter(&receive(3), DONE, &[], None));
        assert!(!book.enter(&Call::Start, DONE, &[], Some(transfer)));
        let mut waiting = book.clone();
        assert!(!waiting.enter(&Call::Declined, DONE, &[], None));
        (book, waiting)
    }

    fn all_kinds() -> [Transfer; 4] {
        [
            register(),
            transfer(Kind::RegisterWrite, 16, 17),
            transfer(Kind::FrameRead, 18, 3),
            transfer(Kind::FrameWrite, 4, 18),
        ]
    }

    #[test]
    fn a_decline_puts_the_buffers_back_and_a_resume_takes_them_again() {
        for transfer in all_kinds() {
            let (under_way, mut book) = under_way_and_waiting(&transfer);
            let kind = Some(transfer.kind);
            assert_eq!((book.transfer, book.waiting), (None, kind));
            let places = [3, 4, 16, 17, 18].map(|buffer| book.places[buffer]);
            let (own, sent, received) = (Place::Own, Place::Transmit, Place::Receive);
            assert_eq!(places, [received, sent, own, own, own]);
            assert!(!book.enter(&Call::Resume, DONE, &[], Some(&transfer)));
            assert_eq!(book, under_way);
            // Once more.
            assert!(!book.enter(&Call::Declined, DONE, &[], None));
            assert!(!book.enter(&Call::Resume, DONE, &[], Some(&transfer)));
            let done = Call::ReadWriteDone(vec![0, 0]);
            assert!(!book.enter(&done, DONE, &[], None));
            assert_eq!((book.transfer, book.waiting), (None, None));
        }
    }

    #[test]
    fn an_end_with_none_under_way_is_a_fault() {
        for call in [Call::ReadWriteDone(vec![0, 0]), Call::Declined] {
            assert!(Book::default().enter(&call, DONE, &[], None));
            for transfer in all_kinds() {
                let (mut under_way, mut book) = under_way_and_waiting(&transfer);
                let before = book.clone();
                assert!(book.enter(&call, DONE, &[], None));
                assert_eq!(book, before);
                assert!(!under_way.enter(&call, DONE, &[], None));
                // Refused, it is none.
                assert!(!before.clone().enter(&call, Answer::Idle, &[], None));
            }
        }
    }

    #[test]
    fn a_transfer_of_another_call_while_one_waits_is_a_fault() {
        for transfer in all_kinds() {
            let (_, book) = under_way_and_waiting(&transfer);
            for call in [Call::Start, Call::Fired, Call::ConfigCommit, Call::Stop] {
                for other in all_kinds() {
                    assert!(book.clone().enter(&call, DONE, &[], Some(&other)));
                }
                assert!(!book.clone().enter(&call, DONE, &[], None));
            }
            // The waiting one's buffer is at the transmit place: a notice may take it, another
            // buffer may not come.
            let second = Call::Transmit {
                buffer: 5,
                length: 160,
                n: 10,
            };
            assert!(book.clone().enter(&second, DONE, &[], None));
            assert!(!book.clone().enter(&receive(5), DONE, &[], None));
        }
    }

    #[test]
    fn a_resumed_transfer_takes_its_buffers_from_their_places() {
        for transfer in all_kinds() {
            // While it is under way they are not there.
            let (mut book, _) = under_way_and_waiting(&transfer);
            assert!(book.enter(&Call::Resume, DONE, &[], Some(&transfer)));
        }
        for (kind, write, read) in [
            (Kind::FrameRead, 18, 4),
            (Kind::FrameRead, 18, 5),
            (Kind::FrameWrite, 3, 18),
            (Kind::FrameWrite, 5, 18),
            (Kind::RegisterRead, 17, 16),
        ] {
            let (_, mut book) = under_way_and_waiting(&register());
            let wrong = transfer(kind, write, read);
            assert!(book.enter(&Call::Resume, DONE, &[], Some(&wrong)));
        }
        // That the transfer is the one that waited is no affair of the book's.
        for other in all_kinds() {
            let (_, mut book) = under_way_and_waiting(&register());
            assert!(!book.enter(&Call::Resume, DONE, &[], Some(&other)));
            assert_eq!(book.waiting, None);
        }
    }

    #[test]
    fn the_receive_place_holds_four_while_one_of_them_waits() {
        let read = transfer(Kind::FrameRead, 18, 3);
        let (_, mut book) = under_way_and_waiting(&read);
        for buffer in [5, 6, 7] {
            assert!(!book.enter(&receive(buffer), DONE, &[], None));
        }
        assert!(book.clone().enter(&receive(8), DONE, &[], None));
        assert!(!book.enter(&Call::Resume, DONE, &[], Some(&read)));
        assert!(book.enter(&receive(8), DONE, &[], None));
    }
}
