//! Any bytes as program and record, a line buffer of some size, and a tally: refusals 19 to 21 around those of the record.

use crate::filter::{Filter, Spent};

/// Counts of the records that were judged.
#[derive(Clone, Copy, Debug, Default, PartialEq, Eq)]
pub struct Tally {
    /// All of them.
    pub seen: u32,
    /// Those that the filter kept.
    pub kept: u32,
    /// Those that it dropped.
    pub dropped: u32,
    /// Those that weren't readable.
    pub refused: u32,
}

impl Tally {
    fn is_full(&self) -> bool {
        [self.seen, self.kept, self.dropped, self.refused].contains(&u32::MAX)
    }

    fn count(&mut self, judged: &Judged) {
        let count = match judged {
            Judged::Kept { .. } => &mut self.kept,
            Judged::Dropped { .. } => &mut self.dropped,
            Judged::Refused(11..=18) => &mut self.refused,
            Judged::Refused(_) => return,
        };
        *count += 1;
        self.seen += 1;
    }
}

/// The answer for one record.
#[derive(Clone, Debug, PartialEq, Eq)]
pub enum Judged {
    /// The filter is true of it.
    Kept {
        /// What judging took.
        spent: Spent,
        /// What is printed.
        lines: Vec<u8>,
    },
    /// The filter is false of it.
    Dropped {
        /// What judging took.
        spent: Spent,
    },
    /// The paper's number, 11 to 21.
    Refused(u32),
}

/// Judges a record with a program, for a line buffer of so many bytes; a tally, if any, is changed.
pub fn judge(program: &[u8], record: &[u8], room: usize, tally: Option<&mut Tally>) -> Judged {
    let Some(filter) = Filter::new(program) else {
        return Judged::Refused(20);
    };
    let Some(tally) = tally else {
        return judge_with(&filter, record, room);
    };
    if tally.is_full() {
        return Judged::Refused(21);
    }
    let judged = judge_with(&filter, record, room);
    tally.count(&judged);
    judged
}

fn judge_with(filter: &Filter, record: &[u8], room: usize) -> Judged {
    let mut lines = Vec::new();
    match filter.judge(record, &mut lines) {
        Err(number) => Judged::Refused(number),
        Ok(verdict) if !verdict.keep => Judged::Dropped {
            spent: verdict.spent,
        },
        Ok(_) if lines.len() > room => Judged::Refused(19),
        Ok(verdict) => Judged::Kept {
            spent: verdict.spent,
            lines,
        },
    }
}
