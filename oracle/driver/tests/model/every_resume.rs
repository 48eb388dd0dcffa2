//! What request 2026-05 promises of every run, kept from calls and answers alone: one waits
//! whenever a resume is accepted, and the resume offers that very transfer.

use oracle::action::{Kind, Transfer};
use oracle::answer::Answer;
use oracle::generator::beyond;
use oracle::line::{Call, Line};
use oracle::model::Session;
use oracle::outcome::Outcome;

/// What calls and answers tell of the transfer.
#[derive(Clone, Default)]
struct Heard {
    under_way: Option<Transfer>,
    waits: Option<Transfer>,
    /// The command of the transfer, as it was first offered.
    first: [u8; 2],
}

impl Heard {
    /// Takes note of a call. Says whether it is a resume that offered a transfer again.
    fn note(&mut self, call: &Call, outcome: &Outcome) -> bool {
        let done = outcome.answer == Answer::Done;
        match call {
            Call::New { .. } => *self = Heard::default(),
            Call::ReadWriteDone(_) | Call::Declined if !done => assert!(
                matches!(outcome.answer, Answer::Pool | Answer::Arrived)
                    || self.under_way.is_none()
            ),
            Call::ReadWriteDone(_) => {
                assert!(self.under_way.take().is_some());
            }
            Call::Declined => {
                assert!(outcome.transfer.is_none() && outcome.actions.is_empty());
                self.waits = self.under_way.take();
                assert!(self.waits.is_some());
            }
            Call::Resume if !done => {
                assert!(outcome.answer == Answer::Pool || self.waits.is_none());
            }
            Call::Resume => {
                self.resumed(outcome);
                return true;
            }
            _ => {}
        }
        if let Some(transfer) = &outcome.transfer {
            assert!(self.under_way.is_none() && self.waits.is_none());
            self.first = [transfer.sent[0], transfer.sent[1]];
            self.under_way = Some(transfer.clone());
        }
        false
    }

    fn resumed(&mut self, outcome: &Outcome) {
        let waits = self.waits.take().expect("a transfer waits");
        let offered = outcome.transfer.clone().expect("it is offered again");
        let what = |transfer: &Transfer| {
            let buffers = (transfer.write_buffer, transfer.read_buffer);
            let lengths = (transfer.sent.len(), transfer.read_length);
            (transfer.kind, buffers, lengths)
        };
        assert_eq!(what(&offered), what(&waits));
        assert_eq!(offered.sent[0], self.first[0]);
        match offered.kind {
            Kind::RegisterRead | Kind::RegisterWrite => assert_eq!(offered.sent, self.first),
            Kind::FrameWrite => assert_eq!(usize::from(offered.sent[1]), offered.sent.len() - 2),
            Kind::FrameRead => {}
        }
        assert_eq!(outcome.from, outcome.to);
        assert!(outcome.actions.is_empty());
        self.under_way = Some(offered);
    }
}

#[test]
fn every_resume_offers_the_transfer_that_waits() {
    let mut session = Session::default();
    let mut resumes = 0;
    for seed in 0..200 {
        let (mut heard, mut mark) = (Heard::default(), Heard::default());
        beyond::script(&mut session, seed, 500, |_, line, outcome| {
            match (line, outcome) {
                (Line::Mark, _) => mark = heard.clone(),
                (Line::Back, _) => heard = mark.clone(),
                (Line::Call(call), Some(outcome)) => {
                    resumes += u64::from(heard.note(call, outcome));
                }
                _ => {}
            };
        });
    }
    assert!(resumes > 1000, "only {resumes} resumes");
}
