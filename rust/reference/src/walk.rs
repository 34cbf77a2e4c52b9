//! The records of a run.

use crate::bytes::Bytes;
use crate::message::HEADER;

/// What stands at a place of a run.
#[derive(Clone, Copy, Debug, PartialEq, Eq)]
pub enum Step<'a> {
    /// A whole record, its header included.
    Record(&'a [u8]),
    /// Nothing remains.
    Done,
    /// A record that runs past the end, with the bytes left.
    Cut(usize),
}

/// The record at a place of a run.
pub fn step(bytes: &[u8], at: usize) -> Step<'_> {
    let rest = bytes.get(at..).unwrap_or_default();
    if rest.is_empty() {
        return Step::Done;
    }
    match next_record(rest) {
        Some(record) => Step::Record(record),
        None => Step::Cut(rest.len()),
    }
}

fn next_record(rest: &[u8]) -> Option<&[u8]> {
    let length = Bytes(rest.get(8..HEADER)?).u32()? as usize;
    rest.get(..HEADER.checked_add(length)?)
}
