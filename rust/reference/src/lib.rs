//! The filter of Grainlantern in ordinary buffered Rust, written from the paper and the RFCs and from none of the proved code.
//!
//! It is a second opinion on every answer, and the program that the proved code's speed is measured against.

#![forbid(unsafe_code)]
#![warn(missing_docs)]

mod bytes;
mod community;
mod compile;
mod filter;
mod judge;
mod line;
mod message;
mod operand;
mod parse;
mod path;
mod prefix;
mod program;
mod record;
mod test;
mod token;
mod walk;

pub use compile::{compile, Refusal};
pub use filter::{Filter, Spent, Verdict};
pub use judge::{judge, Judged, Tally};
pub use walk::{step, Step};
