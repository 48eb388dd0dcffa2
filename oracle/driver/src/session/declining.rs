//! What the Rust does where the SPI layer declines, for the option `--declining`. It is told as
//! it offers the transfer, by the error that `read_write_bytes` returns with both buffers, and
//! lets go of them there. So the call that offered the transfer is made once more, from where
//! the driver stood before it, on a stand-in that declines.

use super::{Mark, Session};
use crate::answer::Answer;
use crate::area::BUFFERS;
use crate::book::Place;
use crate::line::Call;
use crate::outcome::Outcome;
use crate::performer::Stop;
use crate::view::View;

const TOO_LATE: &str = "the Rust is told of a decline only as it offers the transfer";

/// The call that offered the transfer under way, and where the driver stood before it.
pub struct Offer {
    call: Call,
    before: Box<Mark>,
}

impl Session {
    /// At the beginning of a script, past the domain, on an SPI layer that may decline.
    pub fn declining() -> Session {
        Session {
            declining: true,
            ..Session::new(true)
        }
    }

    /// Any call; `declined` is for the transfer that the call just before it offered.
    pub(super) fn call_declining(&mut self, call: &Call) -> Result<Outcome, Stop> {
        let offer = self.offer.take();
        if *call == Call::Declined {
            let offer = offer.ok_or(Stop::Outside(TOO_LATE.into()))?;
            return self.decline(&offer);
        }
        let before = self.standing();
        let outcome = self.call(call)?;
        let call = call.clone();
        let offered = outcome.transfer.is_some();
        self.offer = offered.then_some(Offer { call, before });
        Ok(outcome)
    }

    fn decline(&mut self, offer: &Offer) -> Result<Outcome, Stop> {
        let (had, book) = (self.view.record(), self.book.clone());
        self.let_go();
        self.return_to(&offer.before);
        self.bench.spi.decline_next();
        self.make(&offer.call)?;
        // What the call yields was said before.
        self.bench.log.take();
        self.left = true;
        let driver = self.driver.as_ref().expect("a driver is in place");
        self.view = View::of(driver, self.bench, self.view.pool_length);
        self.book = book;
        let has = self.view.record();
        let gone = |buffer: &usize| had[*buffer] != has[*buffer] && has[*buffer] == Place::Client;
        self.calls += 1;
        Ok(Outcome {
            place: self.calls - 1,
            answer: Answer::Done,
            from: self.view.state(),
            to: self.view.state(),
            transfer: None,
            actions: Vec::new(),
            value: None,
            lost: (0..BUFFERS).filter(gone).collect(),
            fault: self.book.enter(&Call::Declined, Answer::Done, &[], None),
        })
    }
}
