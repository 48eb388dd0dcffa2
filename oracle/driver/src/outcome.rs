//! What one call yielded, and what a run ends with, as they are written.

use std::fmt;

use crate::action::{Action, Transfer};
use crate::answer::{Answer, Value};
use crate::book::{Book, Places};

/// What one call yielded.
#[derive(Clone, Debug)]
pub struct Outcome {
    /// The call's place in the whole script, from 0.
    pub place: u64,
    pub answer: Answer,
    pub from: u8,
    pub to: u8,
    pub transfer: Option<Transfer>,
    pub actions: Vec<Action>,
    pub value: Option<Value>,
    /// Client buffers that are nowhere any more, outside document 01's drop.
    pub lost: Vec<usize>,
    pub fault: bool,
}

impl fmt::Display for Outcome {
    fn fmt(&self, f: &mut fmt::Formatter) -> fmt::Result {
        let answer = self.answer as u8;
        writeln!(f, "{} {answer} {} {}", self.place, self.from, self.to)?;
        if let Some(transfer) = &self.transfer {
            writeln!(f, "{transfer}")?;
        }
        for action in &self.actions {
            writeln!(f, "{action}")?;
        }
        for buffer in &self.lost {
            writeln!(f, "lost {buffer}")?;
        }
        if let Some(value) = &self.value {
            writeln!(f, "{value}")?;
        }
        if self.fault {
            writeln!(f, "fault")?;
        }
        Ok(())
    }
}

/// The three lines at the end of a run.
pub struct Ending<'a> {
    pub book: &'a Book,
    pub with: usize,
    pub record: Places,
}

impl fmt::Display for Ending<'_> {
    fn fmt(&self, f: &mut fmt::Formatter) -> fmt::Result {
        let book = self.book;
        let (accepted, handed, dropped) = (book.accepted, book.handed, book.dropped);
        writeln!(f, "book {accepted} {handed} {dropped} {}", self.with)?;
        places(f, "places", &book.places)?;
        places(f, "record", &self.record)
    }
}

fn places(f: &mut fmt::Formatter, name: &str, places: &Places) -> fmt::Result {
    f.write_str(name)?;
    for place in places {
        write!(f, " {}", *place as u8)?;
    }
    writeln!(f)
}
