//! A program that is ready to run.

use crate::line;
use crate::message::Message;
use crate::program::{self, Op};

/// A valid program, decoded once.
#[derive(Clone, Debug, PartialEq, Eq)]
pub struct Filter {
    ops: Vec<Op>,
}

/// What a filter says of a readable record.
#[derive(Clone, Copy, Debug, PartialEq, Eq)]
pub struct Verdict {
    /// Whether the record is kept.
    pub keep: bool,
    /// What judging took.
    pub spent: Spent,
}

/// What judging a record took.
#[derive(Clone, Copy, Debug, Default, PartialEq, Eq)]
pub struct Spent {
    /// The records of the program that were looked at, items not counted.
    pub steps: u32,
}

impl Filter {
    /// The filter of a program, or nothing where the program isn't valid.
    pub fn new(program: &[u8]) -> Option<Filter> {
        let ops = program::decode(program)?;
        Some(Filter { ops })
    }

    /// Judges a record and appends its lines if it is kept; an error is the refusal's number, 11 to 18.
    pub fn judge(&self, record: &[u8], out: &mut Vec<u8>) -> Result<Verdict, u32> {
        let message = Message::decode(record)?;
        let verdict = self.run(&message);
        if verdict.keep {
            line::write(&message, out);
        }
        Ok(verdict)
    }

    fn run(&self, message: &Message) -> Verdict {
        let mut keep = false;
        let mut spent = Spent::default();
        let mut at = 0;
        while let Some(op) = self.ops.get(at) {
            spent.steps += 1;
            at += 1;
            match op {
                Op::Test(test) => keep = test.holds(message),
                Op::Flip => keep = !keep,
                Op::Pass { when, over } if *when == keep => at += over,
                Op::Pass { .. } => {}
            }
        }
        Verdict { keep, spent }
    }
}
