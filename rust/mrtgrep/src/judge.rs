//! Judges the records of a batch.

use grainlantern::{Program, Verdict};

use crate::batch::Batch;

/// What is asked of each record: the same of all, so that threads share it.
pub struct Judge {
    pub program: Program,
    /// Whether lines are wanted.
    pub lines: bool,
    /// Whether the records that aren't judged are wanted.
    pub report: bool,
}

impl Judge {
    /// Judges the records of a batch, up to the one that is the last of so many kept.
    pub fn judge(&self, batch: &mut Batch, wanted: u64) {
        let answers = &mut batch.answers;
        answers.clear();
        let mut start = 0;
        for &end in &batch.ends {
            match self.program.judge(&batch.bytes[start..end], answers.room()) {
                Ok(Verdict::Dropped { .. }) => answers.counts.dropped += 1,
                Ok(Verdict::Kept { written, .. }) => {
                    answers.counts.kept += 1;
                    if self.lines {
                        answers.keep(written);
                    }
                    if answers.counts.kept == wanted {
                        answers.counts.bytes = end as u64;
                        return;
                    }
                }
                Err(refusal) => {
                    answers.counts.refuse(refusal);
                    if self.report {
                        let place = batch.past.offset + start as u64;
                        answers.refused.push((place, refusal));
                    }
                }
            }
            start = end;
        }
        answers.counts.bytes = batch.span;
    }
}
