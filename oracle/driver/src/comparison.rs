//! Generated scripts through a judge and through a command that should say the same, or
//! leave the same trace. The first difference is cut down and shown.

use crate::command::{self, Failure, Ran};
use crate::difference::{Difference, judged};
use crate::line::{Line, keep, text};
use crate::options::Options;
use crate::performer::Performer;
use crate::progress::Progress;
use crate::shrink::shrink;
use crate::trace;

/// Who makes the scripts, and says what must be said to them.
pub trait Judge {
    type Performer: Performer;
    /// The program that compares.
    const PROGRAM: &'static str;
    /// What the judge is called where a difference is shown.
    const NAME: &'static str;

    /// Makes the script of a seed.
    fn script(&mut self, seed: u64, lines: usize) -> Result<Vec<Line>, String>;

    /// Performs scripts.
    fn performer(&mut self) -> &mut Self::Performer;

    /// What the scripts so far have met.
    fn summary(&self) -> String;
}

/// What is to be compared, as the program's arguments say.
pub struct Comparison {
    seeds: u64,
    first: u64,
    lines: usize,
    trace: bool,
    keep: Option<String>,
    command: Vec<String>,
}

impl Default for Comparison {
    fn default() -> Comparison {
        Comparison {
            seeds: 200,
            first: 0,
            lines: 500,
            trace: false,
            keep: None,
            command: Vec::new(),
        }
    }
}

impl Comparison {
    /// Reads the arguments. `other`: takes an option that this does not know, with what stands
    /// behind it, or says no.
    pub fn of_program(
        usage: &str,
        mut other: impl FnMut(&str, &mut Options) -> Result<bool, String>,
    ) -> Result<Comparison, String> {
        let mut options = Options::of_program();
        let mut read = Comparison::default();
        while let Some(option) = options.option() {
            match option.as_str() {
                "--seeds" => read.seeds = options.number(&option)?,
                "--first" => read.first = options.number(&option)?,
                "--lines" => read.lines = options.number(&option)? as usize,
                "--trace" => read.trace = true,
                "--keep" => read.keep = Some(options.word(&option)?),
                name if other(name, &mut options)? => {}
                _ => return Err(format!("no option {option}\n{usage}")),
            }
        }
        read.command = options.rest();
        if read.command.is_empty() {
            return Err(format!("a command is needed\n{usage}"));
        }
        read.command.extend(read.trace.then(|| "trace".to_string()));
        Ok(read)
    }

    /// Whether the command says the same as the judge to all scripts.
    pub fn same<J: Judge>(&self, judge: &mut J) -> Result<bool, String> {
        let mut progress = Progress::new(J::PROGRAM);
        let seeds = self.seeds;
        for done in 0..seeds {
            let seed = self.first.wrapping_add(done);
            let lines = judge.script(seed, self.lines)?;
            let script = text(&lines);
            let expected = self
                .expected(judge, &script)
                .ok_or_else(|| format!("seed {seed}: the script is not performed to its end"))?;
            let ran = command::run(&self.command, script.as_bytes(), false)
                .map_err(|failure| self.failed(seed, &lines, &failure))?;
            if let Some(difference) = self.difference::<J>(&expected, &ran) {
                let program = J::PROGRAM;
                eprintln!("{program}: seed {seed} shows a difference; cutting the script down");
                self.report(judge, lines, difference)?;
                return Ok(false);
            }
            progress.say(|| format!("{} of {seeds} seeds", done + 1));
        }
        println!("no difference: {seeds} seeds, {}", judge.summary());
        Ok(true)
    }

    /// What the judge says, or the trace it leaves, if it performs the script to its end.
    fn expected<J: Judge>(&self, judge: &mut J, script: &str) -> Option<Vec<u8>> {
        match self.trace {
            true => trace::run::traced(judge.performer(), script),
            false => judged(judge.performer(), script),
        }
    }

    /// What differs, as it is shown.
    fn difference<J: Judge>(&self, expected: &[u8], ran: &Ran) -> Option<String> {
        match self.trace {
            true => trace::difference::between(expected, ran),
            false => Difference::between(expected, ran).map(|difference| difference.shown(J::NAME)),
        }
    }

    /// Says why there is nothing to compare, and keeps the script.
    fn failed(&self, seed: u64, lines: &[Line], failure: &Failure) -> String {
        match keep(self.keep.as_deref(), lines) {
            Ok(()) => format!("seed {seed}: {} {failure}", self.command[0]),
            Err(error) => error,
        }
    }

    /// Cuts the script down and shows it with both outputs.
    fn report<J: Judge>(
        &self,
        judge: &mut J,
        lines: Vec<Line>,
        mut difference: String,
    ) -> Result<(), String> {
        let whole = lines.len();
        let mut progress = Progress::new(J::PROGRAM);
        let smallest = shrink(lines, |lines| {
            progress.say(|| format!("cutting, at {} lines", lines.len()));
            let found = self.tried(judge, lines);
            let shows = found.is_some();
            if let Some(found) = found {
                difference = found;
            }
            shows
        });
        keep(self.keep.as_deref(), &smallest)?;
        let count = smallest.len();
        println!("a difference; the script, cut down from {whole} lines to {count}:");
        print!("{}{difference}", text(&smallest));
        Ok(())
    }

    /// The difference that a script shows, if the judge performs it to its end.
    fn tried<J: Judge>(&self, judge: &mut J, lines: &[Line]) -> Option<String> {
        let script = text(lines);
        let expected = self.expected(judge, &script)?;
        let ran = command::run(&self.command, script.as_bytes(), true).ok()?;
        self.difference::<J>(&expected, &ran)
    }
}
