//! Counts what a number of scripts have met: states at rest, pairs of state and event,
//! answers, actions, transfers and the bytes that decide something.

use std::collections::{BTreeMap, BTreeSet};
use std::fmt;

use crate::action::Action;
use crate::event::{Event, STATES, needs_lending, never_at_rest};
use crate::line::{Call, Line};
use crate::outcome::Outcome;
use crate::view::View;

#[derive(Default)]
pub struct Coverage {
    lines: u64,
    calls: u64,
    /// Whether the scripts lend no buffer: then less can be met.
    without_lending: bool,
    at_rest: BTreeMap<u8, u64>,
    pairs: BTreeMap<(Event, u8), u64>,
    /// Everything else, under a heading.
    met: BTreeMap<&'static str, BTreeMap<String, u64>>,
}

impl Coverage {
    pub fn new(without_lending: bool) -> Coverage {
        Coverage {
            without_lending,
            ..Coverage::default()
        }
    }

    /// Takes note of one line.
    pub fn note(&mut self, before: &View, line: &Line, outcome: Option<&Outcome>) {
        self.lines += 1;
        let (Line::Call(call), Some(outcome)) = (line, outcome) else {
            return;
        };
        self.calls += 1;
        *self.at_rest.entry(outcome.to).or_default() += 1;
        let event = Event::of(before, call, outcome.answer);
        if let Some(event) = event {
            *self.pairs.entry((event, outcome.from)).or_default() += 1;
        }
        let answer = outcome.answer as u8;
        self.count("answers", format!("{} {answer}", call.name()));
        if let Some(transfer) = &outcome.transfer {
            self.count("transfers", format!("{}", transfer.kind as u8));
        }
        for action in &outcome.actions {
            self.count("actions", without_buffer(action));
        }
        if let Call::ReadWriteDone(arrived) = call {
            self.note_arrived(before, arrived);
        }
    }

    /// Takes note of bytes about which the driver decides something.
    fn note_arrived(&mut self, before: &View, arrived: &[u8]) {
        let &[first, result, ..] = arrived else {
            return;
        };
        let status = first & 0x1F;
        let state = before.state();
        if before.image.flags.interrupt_handling {
            let bits = [0, 2, 3].map(|bit| (result >> bit & 1).to_string());
            self.count("interrupt bits 0, 2, 3", bits.concat());
            return;
        }
        match state {
            2 => self.count("status in 2", name_if(status == 0, "0")),
            33 => self.count(
                "status in 33",
                name_if(is_busy(status), &status.to_string()),
            ),
            36 => self.count(
                "status in 36",
                name_if(is_busy(status), &status.to_string()),
            ),
            38 => self.count(
                "status in 38",
                name_if(matches!(status, 9 | 31), &status.to_string()),
            ),
            43 if status == 0x16 => self.count("TRAC", (result >> 5).to_string()),
            63 => self.count("first length byte", length_sort(result)),
            65 => self.count("second length byte", length_sort(result)),
            67 => self.count("CRC bit", (result >> 7).to_string()),
            _ => {}
        }
    }

    fn count(&mut self, heading: &'static str, name: String) {
        let met = self.met.entry(heading).or_default();
        *met.entry(name).or_default() += 1;
    }

    fn reachable(&self, state: u8) -> bool {
        never_at_rest(state).is_none() && !(self.without_lending && needs_lending(state))
    }

    fn possible(&self, event: Event, state: u8) -> bool {
        let lends = self.without_lending && event.lends();
        self.reachable(state) && !lends && event.ruled_out(state).is_none()
    }

    /// The pairs that could be met.
    fn all_possible(&self) -> impl Iterator<Item = (Event, u8)> {
        let pairs = Event::all().flat_map(|event| (0..STATES).map(move |state| (event, state)));
        pairs.filter(|(event, state)| self.possible(*event, *state))
    }

    /// States met that were thought unreachable, and pairs that were thought ruled out.
    pub fn surprises(&self) -> Vec<String> {
        let states = self.at_rest.keys().filter(|state| !self.reachable(**state));
        let states = states.map(|state| format!("state {state}"));
        let pairs = self.pairs.keys();
        let pairs = pairs.filter(|(event, state)| !self.possible(*event, *state));
        let pairs = pairs.map(|(event, state)| format!("{event} in {state}"));
        states.chain(pairs).collect()
    }

    /// One line of numbers.
    pub fn summary(&self) -> String {
        let reachable = (0..STATES).filter(|state| self.reachable(*state)).count();
        format!(
            "{} lines, {} calls, {} of {reachable} reachable states, {} of {} possible pairs",
            self.lines,
            self.calls,
            self.at_rest.len(),
            self.pairs.len(),
            self.all_possible().count(),
        )
    }
}

impl fmt::Display for Coverage {
    fn fmt(&self, f: &mut fmt::Formatter) -> fmt::Result {
        writeln!(f, "{}", self.summary())?;
        let unmet = (0..STATES).filter(|state| !self.at_rest.contains_key(state));
        writeln!(f, "states never met at rest: {}", ranges(unmet))?;
        writeln!(f, "pairs met (states by event):")?;
        for event in Event::all() {
            let met = self.pairs.keys().filter(|(met, _)| *met == event);
            let states: BTreeSet<u8> = met.map(|(_, state)| *state).collect();
            let count = states.len();
            writeln!(f, "  {event}: {count}: {}", ranges(states.into_iter()))?;
        }
        writeln!(f, "possible pairs never met:")?;
        let unmet = self
            .all_possible()
            .filter(|pair| !self.pairs.contains_key(pair));
        for (event, state) in unmet {
            writeln!(f, "  {event} in {state}")?;
        }
        for surprise in self.surprises() {
            writeln!(f, "met though ruled out: {surprise}")?;
        }
        writeln!(f, "pairs ruled out by the driver or the domain:")?;
        for (reason, (count, states)) in ruled_out() {
            writeln!(f, "  {count}: {reason}: {}", ranges(states.into_iter()))?;
        }
        for (heading, met) in &self.met {
            let met = met.iter().map(|(name, count)| format!("{name} ({count})"));
            let met: Vec<String> = met.collect();
            writeln!(f, "{heading}: {}", met.join(" · "))?;
        }
        Ok(())
    }
}

/// The pairs that no script can meet: by their reason, how many, and in which states.
fn ruled_out() -> BTreeMap<&'static str, (usize, BTreeSet<u8>)> {
    let mut reasons: BTreeMap<_, (usize, BTreeSet<u8>)> = BTreeMap::new();
    for event in Event::all() {
        for state in 0..STATES {
            if let Some(reason) = event.ruled_out(state) {
                let (count, states) = reasons.entry(reason).or_default();
                *count += 1;
                states.insert(state);
            }
        }
    }
    reasons
}

fn is_busy(status: u8) -> bool {
    matches!(status, 0x01 | 0x11 | 0x12)
}

fn name_if(named: bool, name: &str) -> String {
    if named { name } else { "other" }.to_string()
}

/// A length by itself where something is decided about it, else among the others.
fn length_sort(length: u8) -> String {
    let named = matches!(length, 0..=2 | 10..=12 | 126..=128 | 255);
    name_if(named, &length.to_string())
}

/// An action without the number of its buffer or a frame's length.
fn without_buffer(action: &Action) -> String {
    match action {
        Action::Sent { ack, fail, .. } => format!("sent {} {}", u8::from(*ack), u8::from(*fail)),
        Action::Received { crc, .. } => format!("received {}", u8::from(*crc)),
        Action::Dropped { .. } => "dropped".to_string(),
        _ => action.to_string(),
    }
}

/// Numbers in order, neighbours drawn together.
fn ranges(numbers: impl Iterator<Item = u8>) -> String {
    let mut ranges: Vec<(u8, u8)> = Vec::new();
    for number in numbers {
        match ranges.last_mut() {
            Some((_, last)) if *last + 1 == number => *last = number,
            _ => ranges.push((number, number)),
        }
    }
    let named = ranges.iter().map(|(first, last)| match first == last {
        true => first.to_string(),
        false => format!("{first}-{last}"),
    });
    let named: Vec<String> = named.collect();
    match named.is_empty() {
        true => "none".to_string(),
        false => named.join(" "),
    }
}
