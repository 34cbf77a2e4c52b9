//! What is written: to standard output, or to a file.

use std::fs::{File, Metadata};
use std::io::{self, stdout, Write};
use std::os::fd::AsFd;
use std::os::unix::fs::MetadataExt;
use std::path::Path;

use crate::input::Input;
use crate::messages::words;

pub struct Output {
    name: String,
    file: File,
}

impl Output {
    /// Standard output, without a buffer of its own: lines come gathered.
    pub fn standard() -> Result<Output, String> {
        let name = "standard output".to_owned();
        match stdout().as_fd().try_clone_to_owned() {
            Ok(file) => Ok(Output {
                name,
                file: file.into(),
            }),
            Err(why) => Err(format!("{name}: {}", words(&why))),
        }
    }

    /// Opens a file to be written anew. What is also read can't be written to.
    pub fn open(path: &Path, inputs: &[&Input]) -> Result<Output, String> {
        let name = path.display().to_string();
        let told = |why: io::Error| format!("{name}: {}", words(&why));
        if path.metadata().is_ok_and(|file| is_read(&file, inputs)) {
            return Err(format!("{name}: the output is also an input"));
        }
        let file = File::create(path).map_err(told)?;
        Ok(Output { name, file })
    }

    pub fn name(&self) -> &str {
        &self.name
    }

    pub fn write(&mut self, bytes: &[u8]) -> io::Result<()> {
        self.file.write_all(bytes)
    }
}

/// Whether a file is one of those that are read; a device may be both.
fn is_read(file: &Metadata, inputs: &[&Input]) -> bool {
    let is_same = |other: Metadata| (other.dev(), other.ino()) == (file.dev(), file.ino());
    file.is_file()
        && inputs
            .iter()
            .any(|input| input.metadata().is_ok_and(is_same))
}
