//! The build script of the crate grainlantern, where it can't build: what it says then.

use std::path::{Path, PathBuf};
use std::process::{Command, Output};
use std::sync::OnceLock;

use cases::path;

/// The script, compiled once.
fn script() -> &'static Path {
    static BUILT: OnceLock<PathBuf> = OnceLock::new();
    BUILT.get_or_init(|| {
        let program = Path::new(env!("CARGO_TARGET_TMPDIR")).join("build-script");
        let output = Command::new("rustc")
            .args(["--edition", "2021", "-o"])
            .arg(&program)
            .arg(path("rust/grainlantern/build.rs"))
            .env("CARGO_MANIFEST_DIR", path("rust/grainlantern"))
            .output()
            .unwrap();
        assert!(output.status.success(), "{output:?}");
        program
    })
}

/// Runs it for a processor, with nothing on PATH.
fn run(architecture: &str) -> Output {
    Command::new(script())
        .env("CARGO_CFG_TARGET_ARCH", architecture)
        .env("OUT_DIR", env!("CARGO_TARGET_TMPDIR"))
        .env("PATH", "")
        .output()
        .unwrap()
}

#[test]
fn what_is_missing_is_told() {
    for (architecture, why) in [
        (
            "aarch64",
            "the proved code is built for x86_64 only, and this build is for aarch64",
        ),
        (
            "x86_64",
            "`rt` is not on PATH: the proved code needs the Rattle toolchain to be built",
        ),
    ] {
        let output = run(architecture);
        assert_eq!(output.status.code(), Some(1), "{output:?}");
        let said = String::from_utf8(output.stderr).unwrap();
        assert_eq!(said, format!("error: {why}\n"));
    }
}
