//! One driver with its book, its area and its mark: performs a script line by line.

mod declining;

use crate::action::{Action, Kind};
use crate::answer::{Answer, Value};
use crate::area::{AREA, CLIENT_BUFFERS, POOL};
use crate::bench::Bench;
use crate::book::{Book, Place, Places};
use crate::calls;
use crate::domain::{self, Edge};
use crate::line::{Call, Line};
use crate::outcome::{Ending, Outcome};
use crate::panics::caught;
use crate::performer::{Performer, Stop};
use crate::rf233::probe::Driver;
use crate::view::View;
use declining::Offer;

/// The driver that is there before any `new`.
const FIRST_LENGTH: usize = 129;
const FIRST_CHANNEL: u8 = 26;

/// The state whose case may drop a sent buffer.
const TX_RETURN_TO_RX: u8 = 43;

/// What `mark` keeps.
struct Mark {
    view: View,
    book: Book,
    area: [u8; AREA],
}

pub struct Session {
    bench: &'static Bench,
    driver: Option<Driver>,
    view: View,
    book: Book,
    mark: Option<Box<Mark>>,
    calls: u64,
    past_domain: bool,
    /// Whether the SPI layer may decline as the Rust offers a transfer, and the last offer.
    declining: bool,
    offer: Option<Offer>,
    /// Whether a line was performed that is outside the domain: then nothing need agree.
    left: bool,
}

impl Session {
    /// At the beginning of a script. `past_domain`: goes on outside the domain wherever
    /// the Rust can.
    pub fn new(past_domain: bool) -> Session {
        let bench = Bench::leak();
        let driver = calls::new(bench, FIRST_LENGTH, FIRST_CHANNEL);
        Session {
            view: View::of(&driver, bench, POOL),
            bench,
            driver: Some(driver),
            book: Book::default(),
            mark: None,
            calls: 0,
            past_domain,
            declining: false,
            offer: None,
            left: false,
        }
    }

    pub fn view(&self) -> &View {
        &self.view
    }

    /// Stops at the domain's edge, or takes note that it is passed.
    fn pass(&mut self, edge: Option<Edge>) -> Result<(), Stop> {
        match edge {
            Some(edge) if !(self.past_domain && edge.passable) => Err(Stop::Outside(edge.reason)),
            Some(_) => {
                self.left = true;
                Ok(())
            }
            None => Ok(()),
        }
    }

    fn call(&mut self, call: &Call) -> Result<Outcome, Stop> {
        self.pass(domain::edge(&self.view, call))?;
        let (answer, value) = self.make(call)?;
        let driver = self.driver.as_ref().expect("a driver is in place");
        let mut view = View::of(driver, self.bench, self.view.pool_length);
        view.waits = *call == Call::Declined;
        let before = std::mem::replace(&mut self.view, view);
        let (mut actions, transfer) = self.bench.log.take();
        let lost = self.vanished(call, &before, &mut actions);
        let fault = self.book.enter(call, answer, &actions, transfer.as_ref());
        self.calls += 1;
        let outcome = Outcome {
            place: self.calls - 1,
            answer,
            from: before.state(),
            to: self.view.state(),
            transfer,
            actions,
            value,
            lost,
            fault,
        };
        self.agree(call, &before, &outcome)?;
        Ok(outcome)
    }

    /// Makes the call on the Rust.
    fn make(&mut self, call: &Call) -> Result<(Answer, Option<Value>), Stop> {
        if let Call::New { length, channel } = *call {
            self.let_go();
            self.driver = Some(calls::new(self.bench, length as usize, channel));
            return Ok((Answer::Done, None));
        }
        let has = match call {
            Call::Transmit { buffer, .. } => self.view.has(*buffer),
            _ => false,
        };
        let driver = self.driver.as_ref().expect("a driver is in place");
        let made = caught(|| {
            let answer = calls::make(driver, self.bench, call, has);
            (answer, calls::value(driver, call))
        });
        made.map_err(|message| self.panicked(message))
    }

    /// Lets go of the driver and of every slice of the pool.
    fn let_go(&mut self) {
        self.driver = None;
        self.bench.spi.replace(None);
        self.bench.log.take();
    }

    fn panicked(&self, message: String) -> Stop {
        if self.past_domain {
            Stop::Panicked(message)
        } else {
            Stop::Disagreement(format!("the Rust panics inside the domain: {message}"))
        }
    }

    /// Finds client buffers that the driver had and that are nowhere any more. In the
    /// step that ends a send the Rust lets go of its buffer where there is no listener:
    /// that is document 01's drop, an action. The others are given back.
    fn vanished(&self, call: &Call, before: &View, actions: &mut Vec<Action>) -> Vec<usize> {
        if let Call::New { .. } = call {
            return Vec::new();
        }
        let (had, has) = (before.record(), self.view.record());
        let gone = |buffer: &usize| {
            had[*buffer] != Place::Client
                && has[*buffer] == Place::Client
                && !actions.iter().any(|action| hands_back(action, *buffer))
        };
        let mut lost: Vec<usize> = (0..CLIENT_BUFFERS).filter(gone).collect();
        if before.state() == TX_RETURN_TO_RX {
            let dropped = lost.extract_if(.., |buffer| had[*buffer] == Place::Transmit);
            actions.extend(dropped.map(|buffer| Action::Dropped { buffer }));
        }
        lost
    }

    /// Inside the domain the Rust answers as document 01 has it, no buffer is lost, and
    /// the driver's record is what the book says.
    fn agree(&self, call: &Call, before: &View, outcome: &Outcome) -> Result<(), Stop> {
        if self.left {
            return Ok(());
        }
        let expected = domain::answer(before, call);
        let record: Places = self.view.record();
        let with = self.view.with_driver() as u64;
        let book = &self.book;
        let said = if outcome.answer != expected {
            let answer = outcome.answer as u8;
            format!("the Rust answers {answer}, document 01 {}", expected as u8)
        } else if !outcome.lost.is_empty() {
            format!("the Rust loses buffers {:?}", outcome.lost)
        } else if outcome.fault {
            "the book finds a fault".into()
        } else if record != book.places {
            format!("the record is {record:?}, the book {:?}", book.places)
        } else if self.transfer() != (book.transfer.map(|(kind, _, _)| kind), book.waiting) {
            "record and book disagree about a transfer under way or waiting".into()
        } else if book.accepted != book.handed + book.dropped + with {
            format!("the book's counts do not add up with {with} buffers held")
        } else {
            return Ok(());
        };
        Err(Stop::Disagreement(said))
    }

    /// The kind of the transfer under way, and of the one that waits.
    fn transfer(&self) -> (Option<Kind>, Option<Kind>) {
        let kind = self.view.kind();
        match self.view.waits {
            true => (None, kind),
            false => (kind, None),
        }
    }

    fn standing(&self) -> Box<Mark> {
        Box::new(Mark {
            view: self.view.clone(),
            book: self.book.clone(),
            area: self.bench.area.bytes(),
        })
    }

    /// Puts a driver in place that stands so. No slice of the pool may be out any more.
    fn return_to(&mut self, mark: &Mark) {
        self.bench.area.write(0, &mark.area);
        self.driver = Some(mark.view.driver(self.bench));
        self.view = mark.view.clone();
        self.book = mark.book.clone();
    }

    /// Returns to the mark, or to the beginning where there is none.
    fn back(&mut self) {
        self.let_go();
        if let Some(mark) = self.mark.take() {
            self.return_to(&mark);
            self.mark = Some(mark);
            return;
        }
        self.bench.area.write(0, &[0; AREA]);
        let driver = calls::new(self.bench, FIRST_LENGTH, FIRST_CHANNEL);
        self.view = View::of(&driver, self.bench, POOL);
        self.driver = Some(driver);
        self.book = Book::default();
    }
}

impl Performer for Session {
    fn begin(&mut self) {
        self.mark = None;
        self.calls = 0;
        self.left = false;
        self.offer = None;
        self.back();
    }

    fn perform(&mut self, line: &Line) -> Result<Option<Outcome>, Stop> {
        match line {
            Line::Call(call) if self.declining => return self.call_declining(call).map(Some),
            Line::Call(call) => return self.call(call).map(Some),
            Line::Passed(_) => return Ok(None),
            _ => self.offer = None,
        }
        self.pass(domain::edge_around(&self.view, line))?;
        match line {
            Line::Passed(_) | Line::Call(_) => {}
            Line::Pool { at, bytes } => self.bench.area.write(*at, bytes),
            Line::PoolLength(length) => self.view.pool_length = *length,
            Line::Mark => self.mark = Some(self.standing()),
            Line::Back => self.back(),
        }
        Ok(None)
    }

    fn ending(&self) -> Ending<'_> {
        Ending {
            book: &self.book,
            with: self.view.with_driver(),
            record: self.view.record(),
        }
    }

    fn flags(&self) -> [bool; 8] {
        self.view.trace_flags()
    }
}

/// Whether an action gives a buffer back to its client.
fn hands_back(action: &Action, buffer: usize) -> bool {
    match *action {
        Action::Sent { buffer: given, .. } | Action::Received { buffer: given, .. } => {
            given == buffer
        }
        _ => false,
    }
}
