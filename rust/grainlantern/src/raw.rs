//! The archive's answers as they are, by number, over buffers of any size: for the tests of this repository. No part of what the crate
//! offers, so it isn't in its documentation.
//!
//! Each function answers with its number and four values, those that it doesn't use zero.
//!
//! ```
//! use grainlantern::raw;
//!
//! let mut program = [0; 16];
//! assert_eq!(raw::compile(b"-loops", &mut program), (0, [16, 0, 0, 0]));
//! assert_eq!(raw::compile(b"-loops )", &mut program), (4, [7, 0, 0, 0]));
//! assert_eq!(raw::judge(&program, b"", &mut []), (11, [0; 4]));
//! assert_eq!(raw::step(b"", 0), (1, [0; 4]));
//! ```

pub use crate::sys::{compile, judge, judge_counted, step, Answer};
