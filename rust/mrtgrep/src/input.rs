//! What is read: a file by its name, or standard input.

use std::ffi::OsString;
use std::fmt::{self, Display, Formatter};
use std::fs::{File, Metadata};
use std::io::{self, stdin};
use std::os::fd::AsFd;
use std::os::unix::ffi::OsStrExt;
use std::path::PathBuf;

/// The name of standard input.
const STANDARD: &str = "-";

#[derive(Clone, Debug, PartialEq, Eq)]
pub enum Input {
    Standard,
    File(PathBuf),
}

impl Input {
    pub fn named(name: OsString) -> Input {
        if name == STANDARD {
            return Input::Standard;
        }
        Input::File(name.into())
    }

    /// The name's bytes, as they were given.
    pub fn as_bytes(&self) -> &[u8] {
        match self {
            Input::Standard => STANDARD.as_bytes(),
            Input::File(path) => path.as_os_str().as_bytes(),
        }
    }

    /// Opens it, without a buffer of its own: what comes is read in blocks.
    pub fn open(&self) -> io::Result<File> {
        match self {
            Input::Standard => Ok(stdin().as_fd().try_clone_to_owned()?.into()),
            Input::File(path) => File::open(path),
        }
    }

    pub fn metadata(&self) -> io::Result<Metadata> {
        match self {
            Input::Standard => self.open()?.metadata(),
            Input::File(path) => path.metadata(),
        }
    }
}

impl Display for Input {
    fn fmt(&self, f: &mut Formatter) -> fmt::Result {
        match self {
            Input::Standard => f.write_str(STANDARD),
            Input::File(path) => path.display().fmt(f),
        }
    }
}
