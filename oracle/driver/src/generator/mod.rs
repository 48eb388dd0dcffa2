//! Makes scripts that stay inside the domain and reach all of it. It runs the driver
//! beside itself and chooses each line by where the driver stands.

mod around;
mod arrived;
pub mod beyond;
mod bytes;
pub mod pairs;
mod plain;
mod proposals;

use std::collections::VecDeque;

use crate::line::Line;
use crate::outcome::Outcome;
use crate::performer::{Performer, Stop};
use crate::random::Random;
use crate::session::Session;
use crate::view::View;
use proposals::Proposal;

/// Which script.
#[derive(Clone, Copy, Debug)]
pub struct Wish {
    pub seed: u64,
    pub lines: usize,
    /// Leaves out `transmit` and `set_receive_buffer`.
    pub without_lending: bool,
}

/// Makes one script. `watch` is shown each line, where the driver stood before it and
/// what it yielded.
pub fn script(
    session: &mut Session,
    wish: Wish,
    mut watch: impl FnMut(&View, &Line, Option<&Outcome>),
) -> Result<Vec<Line>, Stop> {
    session.begin();
    let mut generator = Generator {
        session,
        random: Random::new(wish.seed),
        without_lending: wish.without_lending,
        planned: VecDeque::new(),
        unrest: 0,
    };
    generator.settle();
    let mut lines = Vec::with_capacity(wish.lines);
    while lines.len() < wish.lines {
        let line = generator.next();
        let before = generator.view().clone();
        let outcome = generator.session.perform(&line)?;
        watch(&before, &line, outcome.as_ref());
        lines.push(line);
    }
    Ok(lines)
}

/// Makes one script and puts pairs of `declined` and `resume` into it; says how many.
pub fn script_with_pairs(
    session: &mut Session,
    wish: Wish,
    density: u64,
    mut watch: impl FnMut(&View, &Line, Option<&Outcome>),
) -> Result<(Vec<Line>, u64), Stop> {
    let mut may_stand = Vec::with_capacity(wish.lines);
    let lines = script(session, wish, |before, line, outcome| {
        may_stand.push(pairs::may_stand(before));
        watch(before, line, outcome);
    })?;
    let lines = lines.into_iter().zip(may_stand).collect();
    Ok(pairs::put_in(lines, wish.seed, density))
}

struct Generator<'a> {
    session: &'a mut Session,
    random: Random,
    without_lending: bool,
    /// Lines that are to come next.
    planned: VecDeque<Line>,
    /// How many times in a hundred a line disturbs what is going on.
    unrest: u64,
}

/// What disturbs: anything, at any time.
const DISTURBANCES: &[(u64, Proposal)] = &[
    (12, Proposal::Fired),
    (6, Proposal::Start),
    (6, Proposal::Stop),
    (8, Proposal::Commit),
    (8, Proposal::Send),
    (8, Proposal::RefusedSend),
    (12, Proposal::LendReceiveBuffer),
    (7, Proposal::Reset),
    (5, Proposal::RefusedReset),
    (5, Proposal::Setting),
    (6, Proposal::Listener),
    (4, Proposal::Query),
];

/// What is begun in READY while nothing is going on.
const BEGINNINGS: &[(u64, Proposal)] = &[
    (35, Proposal::Fired),
    (40, Proposal::Send),
    (35, Proposal::LendReceiveBuffer),
    (8, Proposal::Commit),
    (5, Proposal::Stop),
];

impl Generator<'_> {
    fn view(&self) -> &View {
        self.session.view()
    }

    fn next(&mut self) -> Line {
        if let Some(line) = self.planned.pop_front() {
            return line;
        }
        if self.random.percent(4) {
            return self.around();
        }
        if self.stuck() && self.random.percent(20) {
            return self.new_driver();
        }
        match self.disturbs() {
            true => self.one_of(DISTURBANCES),
            false => self.advance(),
        }
    }

    /// Whether the next line disturbs what is going on. Some states are met so seldom, or
    /// left so soon, that each meeting is used.
    fn disturbs(&mut self) -> bool {
        let idle = self.view().under_way.is_none();
        let least = match self.view().state() {
            28 | 30 | 31 | 35 | 42 | 64 => 55,
            44 | 61 if idle => 65,
            _ => 0,
        };
        self.random.percent(self.unrest.max(least))
    }

    /// Whether the driver does nothing with its transmit buffer any more: after a
    /// `reset`, a send that met a reception is forgotten while its buffer is held.
    fn stuck(&self) -> bool {
        let image = &self.view().image;
        let sending = matches!(image.state(), 33..=43);
        image.cells.tx_buf.is_some() && !image.flags.transmitting && !sending
    }

    /// The next line of what is going on.
    fn advance(&mut self) -> Line {
        if self.view().under_way.is_some() {
            return self.completion();
        }
        match self.view().state() {
            // START and SLEEP; READY; in the others only an interrupt goes on.
            0 | 31 => self.one_of(&[(80, Proposal::Start), (20, Proposal::Fired)]),
            29 => self.one_of(BEGINNINGS),
            _ => self.one_of(&[(1, Proposal::Fired)]),
        }
    }
}
