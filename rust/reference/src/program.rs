//! Programs: the operations of a filter, into bytes and back.

use crate::record::{Record, RECORD};
use crate::test::Test;

/// The records that a program has at most.
pub const MOST_RECORDS: usize = 512;

/// What is done in one step.
#[derive(Clone, Debug, PartialEq, Eq)]
pub enum Op {
    /// Sets the flag.
    Test(Test),
    Flip,
    /// Passes over so many operations when the flag is so.
    Pass {
        when: bool,
        over: usize,
    },
}

impl Op {
    /// The records that it takes in a program.
    fn weight(&self) -> usize {
        match self {
            Op::Test(test) => 1 + test.item_count(),
            Op::Flip | Op::Pass { .. } => 1,
        }
    }
}

/// The records of all operations.
pub fn weight(ops: &[Op]) -> usize {
    ops.iter().map(Op::weight).sum()
}

/// The place of each operation's first record, and of the end.
fn places(ops: &[Op]) -> Vec<usize> {
    let mut end = 0;
    let mut places = vec![0];
    places.extend(ops.iter().map(|op| {
        end += op.weight();
        end
    }));
    places
}

/// The program of some operations, of at most 512 records.
pub fn encode(ops: &[Op]) -> Vec<u8> {
    let places = places(ops);
    let mut program = Vec::with_capacity(RECORD * weight(ops));
    for (at, op) in ops.iter().enumerate() {
        match op {
            Op::Test(test) => {
                Record::of_test(test).append(&mut program);
                for item in Record::of_items(test) {
                    item.append(&mut program);
                }
            }
            Op::Flip => Record::flip().append(&mut program),
            Op::Pass { when, over } => {
                let records = places[at + 1 + over] - places[at + 1];
                Record::pass(*when, records).append(&mut program);
            }
        }
    }
    program
}

/// The operations of a program, or nothing where it isn't valid.
pub fn decode(program: &[u8]) -> Option<Vec<Op>> {
    let records = program.chunks_exact(RECORD);
    if !records.remainder().is_empty() || records.len() > MOST_RECORDS {
        return None;
    }
    let records: Vec<Record> = records.map(Record::read).collect::<Option<_>>()?;
    let mut ops = Vec::new();
    let mut rest = records.as_slice();
    while let Some((first, others)) = rest.split_first() {
        let (op, others) = first.op(others)?;
        ops.push(op);
        rest = others;
    }
    let first_is_test = matches!(ops.first(), Some(Op::Test(_)));
    if !first_is_test {
        return None;
    }
    land(&mut ops)?;
    Some(ops)
}

/// Counts what is passed over in operations, where it was in records; each pass has to land on one or at the end.
fn land(ops: &mut [Op]) -> Option<()> {
    let places = places(ops);
    for (at, op) in ops.iter_mut().enumerate() {
        if let Op::Pass { over, .. } = op {
            let landing = places.binary_search(&(places[at + 1] + *over)).ok()?;
            *over = landing - at - 1;
        }
    }
    Some(())
}
