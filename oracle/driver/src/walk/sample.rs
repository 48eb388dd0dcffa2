//! A sample of the walk, as one script: the next steps of one control state in every so
//! many.

use std::fs::File;
use std::io::{BufWriter, Write};

use super::Batch;
use crate::line::text;

pub struct Sample {
    name: String,
    file: BufWriter<File>,
    every: u64,
    seen: u64,
}

impl Sample {
    pub fn new(every: u64, name: String) -> Result<Sample, String> {
        let file = File::create(&name).map_err(|error| format!("{name}: {error}"))?;
        Ok(Sample {
            name,
            file: BufWriter::new(file),
            every: every.max(1),
            seen: 0,
        })
    }

    /// Writes those of a batch's control states whose turn it is.
    pub fn take(&mut self, batch: &Batch) -> Result<(), String> {
        for part in batch.parts() {
            if self.seen.is_multiple_of(self.every) {
                let written = self.file.write_all(text(part).as_bytes());
                written.map_err(|error| format!("{}: {error}", self.name))?;
            }
            self.seen += 1;
        }
        Ok(())
    }

    /// All that was taken is in the file.
    pub fn finish(mut self) -> Result<(), String> {
        let flushed = self.file.flush();
        flushed.map_err(|error| format!("{}: {error}", self.name))
    }
}
