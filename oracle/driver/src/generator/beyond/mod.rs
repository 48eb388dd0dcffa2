//! Makes scripts that leave the domain of the comparison with the Rust wherever documents
//! 01 and 02 go on: several receive buffers, refused calls of every kind, pool bytes altered
//! from outside, declined transfers. It runs the model beside itself and chooses each line by where the driver
//! stands.

mod around;
mod arrived;
mod calls;
mod declines;
mod group;
mod pool_bytes;
mod receptions;
mod refused;
mod stretch;
mod tally;
mod waiting;

use std::collections::VecDeque;

use crate::action::Action;
use crate::line::{Call, Line};
use crate::model::Session;
use crate::model::driver::Driver;
use crate::outcome::Outcome;
use crate::performer::Performer;
use crate::random::Random;
use stretch::Stretch;
pub use tally::Tally;

/// Makes the script of a seed. `watch` is shown each line, the driver before it, and what
/// it yielded.
pub fn script(
    session: &mut Session,
    seed: u64,
    lines: usize,
    mut watch: impl FnMut(&Driver, &Line, Option<&Outcome>),
) -> Vec<Line> {
    session.begin();
    let mut random = Random::new(seed);
    let mut generator = Generator {
        session,
        stretch: Stretch::any(&mut random),
        random,
        planned: VecDeque::new(),
        received: None,
    };
    generator.settle();
    let mut script = Vec::with_capacity(lines);
    while script.len() < lines {
        let line = generator.next();
        let before = generator.driver().clone();
        let outcome = generator.session.perform(&line);
        let outcome = outcome.expect("the model performs every line");
        watch(&before, &line, outcome.as_ref());
        generator.hear(outcome.as_ref());
        script.push(line);
    }
    script
}

struct Generator<'a> {
    session: &'a mut Session,
    random: Random,
    stretch: Stretch,
    /// Lines that are to come next.
    planned: VecDeque<Line>,
    /// The buffer of the last received frame.
    received: Option<usize>,
}

impl Generator<'_> {
    fn driver(&self) -> &Driver {
        &self.session.now().driver
    }

    /// Takes note of a received frame.
    fn hear(&mut self, outcome: Option<&Outcome>) {
        for action in outcome.map_or(&[] as &[Action], |outcome| &outcome.actions) {
            if let Action::Received { buffer, .. } = *action {
                self.received = Some(buffer);
            }
        }
    }

    fn next(&mut self) -> Line {
        if let Some(line) = self.planned.pop_front() {
            return line;
        }
        if self.random.percent(2) {
            self.stretch = Stretch::any(&mut self.random);
        }
        if self.random.percent(4) {
            return self.around();
        }
        if self.random.percent(self.stretch.unrest) {
            return self.one_of(stretch::DISTURBANCES);
        }
        self.advance()
    }

    /// The next line of what is going on.
    fn advance(&mut self) -> Line {
        if self.driver().waiting.is_some() {
            return self.while_one_waits();
        }
        if self.driver().under_way.is_some() {
            return self.end();
        }
        let (state, none) = (self.driver().state, self.driver().line.is_empty());
        match state {
            // START, SLEEP and READY; in the others only an interrupt goes on.
            0 => self.one_of(stretch::FROM_START),
            31 => self.one_of(stretch::FROM_SLEEP),
            29 if none && self.random.percent(40) => self.lend_several(),
            29 => self.one_of(self.stretch.beginnings),
            _ => Line::Call(Call::Fired),
        }
    }

    /// Plans lines that are to come together, and gives the first of them.
    fn plan(&mut self, lines: impl IntoIterator<Item = Line>) -> Line {
        self.planned.extend(lines);
        self.planned.pop_front().expect("at least one line")
    }
}
