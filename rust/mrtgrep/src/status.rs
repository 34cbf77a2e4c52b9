//! The exit status, as grep's.

use std::process::ExitCode;

#[derive(Clone, Copy, Debug, PartialEq, Eq)]
pub enum Status {
    /// Some record was kept.
    Kept,
    /// None was.
    NoneKept,
    /// Something was wrong.
    Wrong,
}

impl From<Status> for ExitCode {
    fn from(status: Status) -> ExitCode {
        ExitCode::from(match status {
            Status::Kept => 0,
            Status::NoneKept => 1,
            Status::Wrong => 2,
        })
    }
}
