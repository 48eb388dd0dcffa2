//! The judge's answer to a script, and where another's differs from it, line by line.

use std::fmt::{self, Write};

use crate::command::Ran;
use crate::performer::Performer;
use crate::run::{End, run};

/// Lines shown of each output at most.
const SHOWN: usize = 40;

/// All that a performer yields for a script, if it performs it to its end.
pub fn judged(performer: &mut impl Performer, script: &str) -> Option<Vec<u8>> {
    performer.begin();
    let mut output = Vec::new();
    let end = run(performer, script.as_bytes(), &mut output);
    (end.ok()? == End::Complete).then_some(output)
}

/// Where two outputs part.
pub struct Difference {
    /// The first line that differs, from 1.
    line: usize,
    judge: Vec<String>,
    command: Vec<String>,
    status: Option<String>,
}

impl Difference {
    pub fn between(judge: &[u8], ran: &Ran) -> Option<Difference> {
        if judge == ran.output && ran.status.is_none() {
            return None;
        }
        let (judge, command) = (lines(judge), lines(&ran.output));
        let pairs = judge.iter().zip(&command);
        let same = pairs.take_while(|(judge, command)| judge == command);
        let same = same.count();
        Some(Difference {
            line: same + 1,
            judge: judge[same..].to_vec(),
            command: command[same..].to_vec(),
            status: ran.status.clone(),
        })
    }

    /// Both outputs from the first line that differs, and how the command ended. `judge`:
    /// what the judge is called.
    pub fn shown(&self, judge: &str) -> String {
        let mut text = String::new();
        for (who, lines) in [(judge, &self.judge), ("the command", &self.command)] {
            written(&mut text, who, self.line, lines).expect("memory does not fail");
        }
        if let Some(status) = &self.status {
            text += &format!("the command ended with {status}\n");
        }
        text
    }

    /// The first line that differs, as both have it, and how the command ended.
    pub fn first(&self) -> String {
        let mut said = String::new();
        let lines = [&self.judge, &self.command].map(|lines| lines.first());
        if lines != [None, None] {
            let shown = |line: Option<&String>| line.cloned().unwrap_or("nothing more".into());
            let [expected, got] = lines.map(shown);
            let line = self.line;
            said += &format!("line {line}: expected {expected}\nline {line}: got {got}\n");
        }
        if let Some(status) = &self.status {
            said += &format!("the command ended with {status}\n");
        }
        said
    }
}

fn written(text: &mut String, who: &str, line: usize, lines: &[String]) -> fmt::Result {
    writeln!(text, "{who}, from line {line} of the output:")?;
    for line in lines.iter().take(SHOWN) {
        writeln!(text, "{line}")?;
    }
    match lines.len().saturating_sub(SHOWN) {
        0 => Ok(()),
        more => writeln!(text, "and {more} lines more"),
    }
}

/// Lines with their ends, so that a missing line feed is a difference too.
fn lines(output: &[u8]) -> Vec<String> {
    let lines = output.split_inclusive(|byte| *byte == b'\n');
    let shown = lines.map(|line| match line.strip_suffix(b"\n") {
        Some(line) => String::from_utf8_lossy(line).into_owned(),
        None => String::from_utf8_lossy(line).into_owned() + " (no line feed)",
    });
    shown.collect()
}
