//! Runs the Rattle toolchain over the repository.
//!
//! It proves and builds within the crates' `out/`, as `rt` knows no other place: there it keeps what is proved, which takes minutes and is
//! shared with `bin/` and `make`.

use std::fs;
use std::io::ErrorKind;
use std::path::{Path, PathBuf};
use std::process::{exit, Command, Output, Stdio};

/// The last lines of a log that are shown.
const SHOWN: usize = 40;

/// The repository's top.
pub fn root() -> PathBuf {
    Path::new(env!("CARGO_MANIFEST_DIR")).join("../..")
}

/// Has a build script run again when the proved code changes, or a file that is built of it. The rest of a crate's folder is what `rt` makes.
pub fn watch(built: &str) {
    let crates = root().join("crates");
    let sources = fs::read_dir(&crates)
        .into_iter()
        .flatten()
        .flatten()
        .flat_map(|folder| ["src", "specs", "proofs"].map(|part| folder.path().join(part)))
        .filter(|part| part.exists());
    for file in sources.chain([root().join("crates.txt"), root().join(built)]) {
        println!("cargo:rerun-if-changed={}", file.display());
    }
}

/// Runs `rt VERB` in a crate's folder; when it fails, says why and ends the build.
pub fn rt(verb: &str, name: &str) {
    let answer = Command::new("rt")
        .arg(verb)
        .current_dir(root().join("crates").join(name))
        .stdin(Stdio::null())
        .output();
    let why = match answer {
        Ok(output) if output.status.success() => return,
        Ok(output) => format!(
            "`rt {verb}` in crates/{name} failed; its last lines:\n{}",
            end(&output)
        ),
        Err(error) if error.kind() == ErrorKind::NotFound => {
            "`rt` is not on PATH: the proved code needs the Rattle toolchain to be built".to_owned()
        }
        Err(error) => format!("`rt {verb}` could not be run: {error}"),
    };
    fail(&why)
}

/// Says why there is nothing to link, and ends the build.
pub fn fail(why: &str) -> ! {
    eprintln!("error: {why}");
    exit(1)
}

/// The last lines of what a command wrote.
fn end(output: &Output) -> String {
    let written = [&output.stdout[..], &output.stderr].concat();
    let log = String::from_utf8_lossy(&written).into_owned();
    let lines: Vec<&str> = log.lines().collect();
    lines[lines.len().saturating_sub(SHOWN)..].join("\n")
}
