//! Grainlantern, a proved BGP filter over MRT update records (RFC 6396, RFC 4271), with the types of Rust.
//!
//! A [`Program`] is compiled from a filter text. It judges a record, tells whether the record is kept and writes its lines.
//! [`Records`] goes through the bytes of a dump, and a [`Tally`] counts what was judged. All answers come from the archive
//! `grainlantern_c`, whose functions are proved against the rules; this crate only gives them their types. The filter language,
//! the lines and the refusals are laid down in the repository's `README.md`.
//!
//! ```
//! use grainlantern::{Program, Records, Tally, Verdict, LINE_ROOM};
//!
//! // an UPDATE of the peer 192.0.2.1, AS 199036, that announces 10.1.2.0/24
//! let dump = [
//!     0x60, 0xB8, 0xD2, 0xCB, 0, 16, 0, 4, 0, 0, 0, 71, // seconds, type, subtype, length
//!     0, 3, 0x09, 0x7C, 0, 0, 0xFB, 0xF4, 0, 0, 0, 1, // peer AS, local AS, interface, family
//!     192, 0, 2, 1, 192, 0, 2, 2, // peer address, local address
//!     255, 255, 255, 255, 255, 255, 255, 255, 255, 255, 255, 255, 255, 255, 255, 255, // marker
//!     0, 51, 2, 0, 0, 0, 24, // length, type, nothing withdrawn, bytes of attributes
//!     0x40, 1, 1, 0, // ORIGIN
//!     0x40, 2, 10, 2, 2, 0, 3, 0x09, 0x7C, 0, 0, 0x0D, 0x05, // AS_PATH
//!     0x40, 3, 4, 192, 0, 2, 1, // NEXT_HOP
//!     24, 10, 1, 2, // announced
//! ];
//!
//! let program = Program::compile("-subnet 10.0.0.0/8 -and ! -loops")?;
//! let mut lines = vec![0; LINE_ROOM];
//! let mut tally = Tally::default();
//! let mut printed = Vec::new();
//! for record in Records::new(&dump) {
//!     match program.judge_counted(record, &mut lines, &mut tally) {
//!         Ok(Verdict::Kept { written, .. }) => printed.extend_from_slice(&lines[..written]),
//!         Ok(Verdict::Dropped { .. }) => {}
//!         Err(refusal) => eprintln!("a record isn't judged: {refusal}"),
//!     }
//! }
//! assert_eq!(
//!     String::from_utf8(printed)?,
//!     "+|10.1.2.0/24|199036 3333|192.0.2.1|i||||192.0.2.1 199036|1622725323|1\n"
//! );
//! assert_eq!(tally.kept, 1);
//! # Ok::<(), Box<dyn std::error::Error>>(())
//! ```

#![warn(missing_docs)]
#![deny(unsafe_code)]

mod not_judged;
mod program;
mod program_record;
#[doc(hidden)]
pub mod raw;
mod records;
mod refusal;
mod sys;
mod tally;
mod verdict;
mod wrong_program;

pub use not_judged::NotJudged;
pub use program::Program;
pub use program_record::{Community, Item, Peer, ProgramRecord, Relation, Side, Sign};
pub use records::{Closing, Records};
pub use refusal::{Reason, Refusal};
pub use tally::Tally;
pub use verdict::{Spent, Verdict};
pub use wrong_program::WrongProgram;

/// The most bytes of a filter text.
pub const TEXT_LIMIT: usize = 4096;

/// The most levels of `!` and `(` in a filter text.
pub const LEVEL_LIMIT: usize = 32;

/// The most records of a program.
pub const WEIGHT_LIMIT: usize = 512;

/// Room in which every program fits.
pub const PROGRAM_ROOM: usize = WEIGHT_LIMIT * ProgramRecord::SIZE;

/// The bytes of a record's header.
pub const HEADER_SIZE: usize = 12;

/// The most bytes of a record that is judged, its header included.
pub const RECORD_LIMIT: usize = 8192;

/// Room in which the lines of every record fit.
pub const LINE_ROOM: usize = 65536;
