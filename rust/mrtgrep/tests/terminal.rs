//! What depends on a terminal: usage where records would be typed, and progress. `script` gives the command one.

mod common;

use std::process::{Command, Stdio};

use common::*;

/// What a shell command shows on a terminal of its own, or none where there is no `script`.
fn shown(folder: &Folder, command: &str) -> Option<String> {
    let mut script = Command::new("script");
    script
        .args(["-qec", command, "/dev/null"])
        .env("MRTGREP", env!("CARGO_BIN_EXE_mrtgrep"))
        .env("SHELL", "/bin/sh")
        .current_dir(folder.path(""));
    if Command::new("script").arg("--version").output().is_err() {
        eprintln!("script is not on PATH: nothing was tried on a terminal");
        return None;
    }
    // held open, so that the terminal isn't closed
    let mut child = started(script.stdin(Stdio::piped()));
    let held = child.stdin.take();
    let ran = outcome(&mut child);
    drop(held);
    Some(String::from_utf8_lossy(&ran.out).into_owned())
}

#[test]
fn records_are_not_waited_for_from_a_terminal() {
    let folder = Folder::new("typed");
    for command in [
        "\"$MRTGREP\"",
        "\"$MRTGREP\" -loops",
        "\"$MRTGREP\" -c -e -loops -",
    ] {
        let Some(shown) = shown(&folder, &format!("{command}; echo status $?")) else {
            return;
        };
        assert!(shown.contains("status 2"), "{command}: {shown}");
        assert!(shown.to_lowercase().contains("usage"), "{command}: {shown}");
    }
    // a filter is no record
    if let Some(shown) = shown(&folder, "\"$MRTGREP\" --check -loops; echo status $?") {
        assert!(shown.contains("status 0"), "{shown}");
    }
}

/// A run of over a second, whose output and messages go where the shell command says.
fn slow(folder: &Folder, options: &str, to: &str) -> Option<String> {
    shown(
        folder,
        &format!("(cat r.mrt; sleep 1.2; cat r.mrt) | \"$MRTGREP\" {options} {to}; echo status $?"),
    )
}

#[test]
fn progress_is_shown_on_a_terminal_after_a_second() {
    let folder = Folder::new("progress").with("r.mrt", bytes(R));
    // the second begins once the first line is out
    let feed = "cat r.mrt; while ! test -s out; do sleep 0.05; done; sleep 1.2; cat r.mrt";
    let Some(shown) = shown(
        &folder,
        &format!("({feed}) | \"$MRTGREP\" >out; echo status $?"),
    ) else {
        return;
    };
    assert!(shown.contains("status 0"), "{shown}");
    assert!(shown.contains("kept"), "{shown}");
    assert_eq!(folder.read("out"), R_LINE.repeat(2).as_bytes());
}

#[test]
fn progress_tells_the_bytes_of_how_many() {
    // a reader that takes one byte and then nothing for a while holds it up; it has to read 3.3 MB
    let run = stored("tests/real/gobgp.mrt").repeat(50);
    let folder = Folder::new("of-how-many").with("long.mrt", run);
    let reader = "dd bs=1 count=1 of=first 2>dd; sleep 1.2; cat >rest";
    if let Some(shown) = shown(&folder, &format!("\"$MRTGREP\" long.mrt | ({reader})")) {
        let told = shown
            .split(['\r', '\x1b'])
            .find(|told| told.contains("kept"));
        let told = told.unwrap_or_else(|| panic!("{shown:?}"));
        assert!(told.contains(" of 3.3 MB"), "{told}");
        assert!(told.contains("MB/s"), "{told}");
        let lines = [folder.read("first"), folder.read("rest")].concat();
        assert!(lines == stored("tests/real/gobgp.lines").repeat(50));
    }
}

#[test]
fn no_progress_is_shown_where_it_is_not_wanted() {
    let folder = Folder::new("no-progress").with("r.mrt", bytes(R));
    if let Some(shown) = slow(&folder, "--no-progress", ">out") {
        assert_eq!(shown.trim_end(), "status 0");
    }
}

#[test]
fn no_progress_is_shown_among_lines() {
    let folder = Folder::new("among-lines").with("r.mrt", bytes(R));
    if let Some(shown) = slow(&folder, "", "") {
        let lines = R_LINE.repeat(2).replace('\n', "\r\n");
        assert_eq!(shown.trim_end(), lines + "status 0");
    }
}

#[test]
fn no_progress_is_shown_before_a_second_or_without_a_terminal() {
    let folder = Folder::new("before").with("r.mrt", bytes(R));
    if let Some(shown) = shown(&folder, "\"$MRTGREP\" r.mrt >out; echo status $?") {
        assert_eq!(shown.trim_end(), "status 0");
    }
    if let Some(shown) = slow(&folder, "", ">out 2>said") {
        assert_eq!(shown.trim_end(), "status 0");
        assert_eq!(folder.read("said"), b"");
    }
}
