use crate::not_judged::NotJudged;
use crate::raw::Answer;

/// What a program says of a readable record, as [`Program::judge`](crate::Program::judge) shows.
#[derive(Clone, Copy, Debug, PartialEq, Eq, Hash)]
pub enum Verdict {
    /// The filter is true of the record.
    Kept {
        /// What judging took.
        spent: Spent,
        /// The bytes of the record's lines, which stand at the start of the buffer; 0 where it announces and withdraws nothing.
        written: usize,
    },
    /// The filter is false of the record.
    Dropped {
        /// What judging took.
        spent: Spent,
    },
}

/// What judging a record took, in counts that the rules lay down.
#[non_exhaustive]
#[derive(Clone, Copy, Debug, PartialEq, Eq, Hash)]
pub struct Spent {
    /// The records of the program that were looked at, items of path patterns and communities not counted.
    pub steps: u32,
}

impl Verdict {
    /// The verdict, or the refusal, that an answer of the archive stands for.
    pub(crate) fn of(answer: Answer) -> Result<Verdict, NotJudged> {
        // a program has no more steps than records, and a line buffer no more bytes than its length says
        let (number, [steps, written, ..]) = answer;
        let steps = steps as u32;
        let spent = Spent { steps };
        match number {
            0 => Ok(Verdict::Dropped { spent }),
            1 => Ok(Verdict::Kept {
                spent,
                written: written as usize,
            }),
            refusal => Err(NotJudged::new(refusal)),
        }
    }

    /// Whether the record is kept.
    pub fn is_kept(&self) -> bool {
        matches!(self, Verdict::Kept { .. })
    }

    /// What judging took, kept or dropped.
    pub fn spent(&self) -> Spent {
        match self {
            Verdict::Kept { spent, .. } | Verdict::Dropped { spent } => *spent,
        }
    }
}
