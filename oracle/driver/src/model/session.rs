//! The model with its book, its area and its mark: performs a script line by line.

use super::calls::{self, FIRST_CHANNEL, FIRST_LENGTH};
use super::driver::Driver;
use crate::area::{AREA, POOL};
use crate::book::Book;
use crate::line::{Call, Line};
use crate::outcome::{Ending, Outcome};
use crate::performer::{Performer, Stop};

/// All that `mark` keeps and `back` returns to.
#[derive(Clone, Debug, PartialEq, Eq)]
pub struct Standing {
    pub driver: Driver,
    pub book: Book,
    pub area: Box<[u8; AREA]>,
    /// How much of the area the calls are lent.
    pub pool_length: usize,
}

/// Where every script begins.
impl Default for Standing {
    fn default() -> Standing {
        Standing {
            driver: Driver::new(FIRST_LENGTH, FIRST_CHANNEL),
            book: Book::default(),
            area: Box::new([0; AREA]),
            pool_length: POOL,
        }
    }
}

#[derive(Clone, Default)]
pub struct Session {
    now: Standing,
    mark: Option<Standing>,
    calls: u64,
}

impl Session {
    /// Where the driver stands.
    pub fn now(&self) -> &Standing {
        &self.now
    }

    fn call(&mut self, call: &Call) -> Outcome {
        let now = &mut self.now;
        let from = now.driver.state;
        let area = now.area.as_mut_slice();
        let made = calls::make(&mut now.driver, area, now.pool_length, call);
        let transfer = made.transfer.as_ref();
        let fault = now.book.enter(call, made.answer, &made.actions, transfer);
        self.calls += 1;
        Outcome {
            place: self.calls - 1,
            answer: made.answer,
            from,
            to: now.driver.state,
            transfer: made.transfer,
            actions: made.actions,
            value: made.value,
            lost: Vec::new(),
            fault,
        }
    }
}

impl Performer for Session {
    fn begin(&mut self) {
        *self = Session::default();
    }

    /// Performs any line; the model goes on wherever the calls lead.
    fn perform(&mut self, line: &Line) -> Result<Option<Outcome>, Stop> {
        match line {
            Line::Passed(_) => {}
            Line::Call(call) => return Ok(Some(self.call(call))),
            Line::Pool { at, bytes } => {
                self.now.area[*at..*at + bytes.len()].copy_from_slice(bytes);
            }
            Line::PoolLength(length) => self.now.pool_length = *length,
            Line::Mark => self.mark = Some(self.now.clone()),
            Line::Back => self.now = self.mark.clone().unwrap_or_default(),
        }
        Ok(None)
    }

    fn ending(&self) -> Ending<'_> {
        Ending {
            book: &self.now.book,
            with: self.now.driver.with_driver(),
            record: self.now.driver.record(),
        }
    }

    fn flags(&self) -> [bool; 8] {
        self.now.driver.trace_flags()
    }
}
