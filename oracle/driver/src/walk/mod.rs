//! The walk: from a new driver to every control state that can be reached, and from each
//! of them every next step, as scripts with the Rust's answers to them.

mod batch;
mod control;
mod read_out;
mod sample;
mod steps;

use std::collections::HashSet;

use crate::generator::pairs;
use crate::line::{Call, Line};
use crate::performer::{Performer, Stop};
use crate::session::Session;

pub use batch::Batch;
use control::Control;
use read_out::ReadOut;
pub use sample::Sample;

/// A batch is closed when it has so many lines: few enough for a command's time limit.
const BATCH_LINES: usize = 60_000;

/// How much a walk is to take.
#[derive(Clone, Copy)]
pub struct Bounds {
    /// Control states to take at most.
    pub states: u64,
    /// Listeners are all present or all absent, never only some of them.
    pub few_listeners: bool,
    /// No step is followed by a read-out.
    pub without_read_out: bool,
    /// Every status comes with every result, also where the driver looks at one of them
    /// at most.
    pub all_pairs: bool,
    /// Every completion comes after its transfer was declined and resumed.
    pub pairs: bool,
}

/// What a walk has taken so far.
#[derive(Clone, Copy, Default)]
pub struct Count {
    pub states: u64,
    /// Different values of the driver's state among them.
    pub driver_states: usize,
    pub transitions: u64,
    /// Steps that the domain forbids.
    pub outside: u64,
    pub read_outs: u64,
    /// Lines of all scripts.
    pub lines: u64,
}

/// A control state: the step that first led to it, and from which other one.
struct Node {
    control: Control,
    from: usize,
    by: Vec<Line>,
}

pub struct Walk {
    session: Session,
    bounds: Bounds,
    /// In the order in which they were met, so that every path is as short as can be.
    nodes: Vec<Node>,
    known: HashSet<Control>,
    /// Calls and where they led from the present control state, followed by a read-out.
    shown: HashSet<(&'static str, Control)>,
    driver_states: HashSet<u8>,
    count: Count,
}

impl Walk {
    pub fn new(bounds: Bounds) -> Walk {
        let session = Session::new(false);
        let control = Control::of(session.view());
        let first = Node {
            control,
            from: 0,
            by: Vec::new(),
        };
        Walk {
            session,
            bounds,
            nodes: vec![first],
            known: HashSet::from([control]),
            shown: HashSet::new(),
            driver_states: HashSet::new(),
            count: Count::default(),
        }
    }

    pub fn count(&self) -> Count {
        Count {
            driver_states: self.driver_states.len(),
            ..self.count
        }
    }

    /// How many control states are known and not yet taken.
    pub fn ahead(&self) -> u64 {
        self.nodes.len() as u64 - self.count.states
    }

    /// The next scripts' worth of control states; nothing when all are taken.
    pub fn batch(&mut self) -> Result<Option<Batch>, String> {
        let mut batch = Batch::default();
        self.session.begin();
        while batch.lines.len() < BATCH_LINES && self.goes_on() {
            let place = self.count.states as usize;
            self.count.states += 1;
            self.take(place, &mut batch)
                .map_err(|stop| format!("control state {place}: {stop:?}"))?;
        }
        if batch.lines.is_empty() {
            return Ok(None);
        }
        batch.close(&self.session);
        self.count.lines += batch.lines.len() as u64;
        Ok(Some(batch))
    }

    fn goes_on(&self) -> bool {
        self.ahead() > 0 && self.count.states < self.bounds.states
    }

    /// Goes to a control state and takes every next step from there.
    fn take(&mut self, place: usize, batch: &mut Batch) -> Result<(), Stop> {
        batch.begin_part();
        for line in self.path(place) {
            self.perform(line, batch)?;
        }
        let wanted = self.nodes[place].control;
        assert!(
            Control::of(self.session.view()) == wanted,
            "a path leads where it first led"
        );
        self.driver_states.insert(self.session.view().state());
        self.perform(Line::Mark, batch)?;
        self.shown.clear();
        for lines in steps::steps(self.session.view(), &self.bounds) {
            self.step(place, lines, batch)?;
        }
        Ok(())
    }

    /// The lines that lead from the beginning of a part to a control state.
    fn path(&self, place: usize) -> Vec<Line> {
        let mut back = Vec::new();
        let mut at = place;
        while at != 0 {
            back.push(&self.nodes[at].by);
            at = self.nodes[at].from;
        }
        let mut lines = steps::beginning();
        lines.extend(back.into_iter().rev().flatten().cloned());
        lines
    }

    /// Takes one step, which is one line or the lines that belong together, and goes back.
    fn step(&mut self, place: usize, lines: Vec<Line>, batch: &mut Batch) -> Result<(), Stop> {
        for line in &lines {
            match self.perform(line.clone(), batch) {
                Ok(()) => {}
                Err(Stop::Outside(_)) => {
                    self.count.outside += 1;
                    return self.perform(Line::Back, batch);
                }
                Err(stop) => return Err(stop),
            }
        }
        self.count.transitions += 1;
        let control = Control::of(self.session.view());
        if self.known.insert(control) {
            self.nodes.push(Node {
                control,
                from: place,
                by: lines.clone(),
            });
        }
        self.perform(Line::Back, batch)?;
        if self.read_out_wanted(control, &lines) {
            for way in read_out::WAYS {
                self.read_out(&lines, way, batch)?;
            }
        }
        Ok(())
    }

    /// Read-outs once for each call and each control state it leads to, where the listeners
    /// are all present or all absent: which of them is there shows in the steps themselves.
    fn read_out_wanted(&mut self, control: Control, lines: &[Line]) -> bool {
        let listeners = &self.session.view().image.listeners;
        let same = [listeners.transmit, listeners.receive, listeners.config];
        let uniform = same.iter().all(|present| *present == listeners.power);
        !self.bounds.without_read_out && uniform && self.shown.insert((steps::sort(lines), control))
    }

    /// Takes the step again and leads the driver on to show what it remembers; where the
    /// domain ends, so does that.
    fn read_out(&mut self, step: &[Line], mut way: ReadOut, batch: &mut Batch) -> Result<(), Stop> {
        self.count.read_outs += 1;
        for line in step.iter().chain([&steps::is_on()]) {
            self.perform(line.clone(), batch)?;
        }
        for _ in 0..read_out::LONGEST {
            let Some(line) = way.next(self.session.view()) else {
                break;
            };
            match self.perform(line, batch) {
                Ok(()) => {}
                Err(Stop::Outside(_)) => break,
                Err(stop) => return Err(stop),
            }
        }
        self.perform(Line::Back, batch)
    }

    /// Performs a line on the Rust; inside the domain it becomes part of the script. Where that
    /// is wished, a completion comes after a pair of `declined` and `resume`.
    fn perform(&mut self, line: Line, batch: &mut Batch) -> Result<(), Stop> {
        let completes = matches!(line, Line::Call(Call::ReadWriteDone(_)));
        if self.bounds.pairs && completes && pairs::may_stand(self.session.view()) {
            for line in pairs::PAIR {
                self.add(line, batch)?;
            }
        }
        self.add(line, batch)
    }

    fn add(&mut self, line: Line, batch: &mut Batch) -> Result<(), Stop> {
        let outcome = self.session.perform(&line)?;
        batch.add(line, outcome);
        Ok(())
    }
}
