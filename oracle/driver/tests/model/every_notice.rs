//! What request 2026-13 promises of every run, kept from calls and answers alone, and that the
//! scripts which show it meet all that the request tells apart.

use oracle::action::{Action, Kind};
use oracle::answer::Answer;
use oracle::generator::beyond::{self, Tally};
use oracle::line::{Call, Line};
use oracle::model::Session;
use oracle::outcome::Outcome;

/// What calls and answers tell of the length bytes.
#[derive(Clone, Default)]
struct Heard {
    /// n of the frame read under way; a length read's is 0.
    reading: Option<usize>,
    /// Byte 1 of the last length read that ended, and of the last frame read.
    first: Option<u8>,
    second: Option<u8>,
}

impl Heard {
    fn note(&mut self, call: &Call, outcome: &Outcome) {
        match call {
            Call::New { .. } => *self = Heard::default(),
            Call::ReadWriteDone(bytes) if outcome.answer == Answer::Done => {
                match self.reading.take() {
                    None => {}
                    Some(0) => self.first = Some(bytes[1]),
                    Some(_) => self.second = Some(bytes[1]),
                }
            }
            _ => {}
        }
        if let Some(transfer) = &outcome.transfer {
            let reads = transfer.kind == Kind::FrameRead;
            self.reading = reads.then(|| transfer.sent.len() - 2);
        }
    }

    /// Whether a notice may give this length now.
    fn allows(&self, length: usize) -> bool {
        let byte = u8::try_from(length + 2).ok();
        byte.is_some_and(|byte| (11..=127).contains(&byte))
            && (self.first, self.second) == (byte, byte)
    }
}

#[test]
fn every_notice_gives_what_both_length_bytes_said() {
    let mut session = Session::default();
    let mut notices = 0;
    for seed in 0..300 {
        let (mut heard, mut mark) = (Heard::default(), Heard::default());
        beyond::script(&mut session, seed, 500, |_, line, outcome| {
            match (line, outcome) {
                (Line::Mark, _) => mark = heard.clone(),
                (Line::Back, _) => heard = mark.clone(),
                (Line::Call(call), Some(outcome)) => heard.note(call, outcome),
                _ => {}
            }
            for action in outcome.map_or(&[] as &[Action], |outcome| &outcome.actions) {
                if let Action::Received { length, .. } = action {
                    assert!(heard.allows(*length), "seed {seed}: {line}, {length}");
                    notices += 1;
                }
            }
        });
    }
    assert!(notices > 1000, "only {notices} notices");
}

#[test]
fn the_scripts_beyond_the_domain_meet_all_of_it() {
    let mut session = Session::default();
    let mut tally = Tally::default();
    for seed in 0..400 {
        beyond::script(&mut session, seed, 500, |before, line, outcome| {
            tally.note(before, line, outcome);
        });
    }
    assert_eq!(tally.receptions.unmet(), [""; 0], "{tally}");
    assert_eq!(tally.declines.unmet(), [""; 0], "{tally}");
    // All in which a transfer can be under way.
    let states: Vec<u8> = tally.declines.states().collect();
    let all: Vec<u8> = (0..69)
        .filter(|state| ![59, 62, 66].contains(state))
        .collect();
    assert_eq!(states, all, "{tally}");
    let (ended, announced) = tally.receptions.ended();
    assert!(announced * 2 > ended, "{announced} announced of {ended}");
}
