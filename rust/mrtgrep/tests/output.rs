//! Where the lines go: -o, a full disk, a reader that has gone.

mod common;

use std::fs::{self, File};
use std::io::Read;
use std::os::unix::fs::symlink;
use std::process::Stdio;

use common::*;

fn folder(name: &str) -> Folder {
    Folder::new(name)
        .with("r.mrt", bytes(R))
        .with("out", "before")
}

fn full() -> File {
    File::options().write(true).open("/dev/full").unwrap()
}

#[test]
fn lines_and_counts_go_to_the_file() {
    let folder = folder("to-file");
    for name in ["-o", "--output"] {
        folder
            .run([name, "out", "r.mrt", "r.mrt"])
            .gave(0, "")
            .silently();
        assert_eq!(folder.read("out"), R_LINE.repeat(2).as_bytes());
    }
    folder
        .run(["-o", "out", "-c", "r.mrt"])
        .gave(0, "")
        .silently();
    assert_eq!(folder.read("out"), b"1\n");
    // nothing kept leaves an empty one
    folder
        .run(["-o", "out", "r.mrt", "-loops"])
        .gave(1, "")
        .silently();
    assert_eq!(folder.read("out"), b"");
}

#[test]
fn the_file_is_opened_once_arguments_and_filter_are_good() {
    let folder = folder("opened");
    for arguments in [
        &["-o", "out", "r.mrt", "-typo"][..],
        &["-o", "out", "--no-such-option", "r.mrt"],
        &["-o", "out", "-m", "x", "r.mrt"],
        &["-o", "out", "-e", "-loops", "r.mrt", "-c"],
        &["-o", "out", "-f", "no-such.filter", "r.mrt"],
        &["-o", "out", "-e", "-loops", "-e", "-loops"],
    ] {
        folder.run(arguments.iter().copied()).gave(2, "");
        assert_eq!(folder.read("out"), b"before", "{arguments:?}");
    }
}

#[test]
fn a_file_that_is_also_an_input_is_an_error() {
    let folder = folder("also-input").with("other.mrt", other_peer());
    symlink("r.mrt", folder.path("link.mrt")).unwrap();
    fs::hard_link(folder.path("r.mrt"), folder.path("twin.mrt")).unwrap();
    let whole = folder.path("r.mrt");
    for output in [
        "r.mrt",
        "./r.mrt",
        whole.to_str().unwrap(),
        "link.mrt",
        "twin.mrt",
    ] {
        folder
            .run(["-o", output, "other.mrt", "r.mrt"])
            .gave(2, "")
            .telling(&[output]);
        assert_eq!(folder.read("r.mrt"), bytes(R), "{output}");
    }
    // the filter's file is one, and so is standard input
    fs::write(folder.path("all.filter"), KEEP_ALL).unwrap();
    folder
        .run(["-f", "all.filter", "-o", "all.filter", "r.mrt"])
        .gave(2, "")
        .telling(&["all.filter"]);
    assert_eq!(folder.read("all.filter"), KEEP_ALL.as_bytes());
    let input = File::open(folder.path("r.mrt")).unwrap();
    let ran = run(folder.mrtgrep(["-o", "r.mrt"]).stdin(input));
    ran.gave(2, "").telling(&["r.mrt"]);
    assert_eq!(folder.read("r.mrt"), bytes(R));
}

#[test]
fn a_file_that_cannot_be_opened_is_told() {
    let folder = folder("not-opened");
    for output in ["no/such/folder", "."] {
        folder
            .run(["-o", output, "r.mrt"])
            .gave(2, "")
            .saying(&[&format!("{output}: ")]);
    }
}

#[test]
fn a_write_that_fails_is_told() {
    let folder = folder("full");
    for arguments in [
        &["r.mrt"][..],
        &["-c", "r.mrt"],
        &["-j", "1", "r.mrt"],
        &["-j", "4", "r.mrt"],
        &["--check", "-e", "-loops"],
        &["--explain", "-e", "-loops"],
        &["--help"],
        &["--version"],
    ] {
        let ran = run_to(
            folder
                .mrtgrep(arguments.iter().copied())
                .stdin(Stdio::null()),
            full(),
        );
        assert_eq!(ran.code, Some(2), "{arguments:?}: {}", ran.said);
        ran.saying(&["standard output"]);
    }
    folder
        .run(["-o", "/dev/full", "r.mrt"])
        .gave(2, "")
        .saying(&["/dev/full: "]);
    // nothing is written, so nothing fails
    let ran = run_to(folder.mrtgrep(["-q", "r.mrt"]).stdin(Stdio::null()), full());
    ran.gave(0, "").silently();
    let ran = run_to(
        folder.mrtgrep(["r.mrt", "-loops"]).stdin(Stdio::null()),
        full(),
    );
    ran.gave(1, "").silently();
}

#[test]
fn a_write_that_fails_ends_the_run() {
    // a large file, and then one that isn't there: it isn't reached
    let folder = folder("full-large").with("long.mrt", stored("tests/real/gobgp.mrt").repeat(40));
    for jobs in ["1", "2", "4"] {
        let mut command = folder.mrtgrep(["-j", jobs, "long.mrt", "no-such.mrt"]);
        run_to(command.stdin(Stdio::null()), full())
            .gave(2, "")
            .saying(&["standard output"]);
    }
}

#[test]
fn a_reader_that_closes_its_end_is_no_error() {
    let folder = folder("closed").with("long.mrt", stored("tests/real/gobgp.mrt").repeat(40));
    for arguments in [
        &["-j", "1", "long.mrt"][..],
        &["-j", "2", "long.mrt"],
        &["-j", "4", "long.mrt"],
        &["-r", "long.mrt", "long.mrt"],
    ] {
        let mut child = started(
            folder
                .mrtgrep(arguments.iter().copied())
                .stdin(Stdio::null()),
        );
        let mut stdout = child.stdout.take().unwrap();
        let mut first = [0; 1000];
        stdout.read_exact(&mut first).unwrap();
        assert!(stored("tests/real/gobgp.lines").starts_with(&first));
        drop(stdout);
        let ran = outcome(&mut child);
        assert_eq!(ran.said, "", "{arguments:?}");
        // by a signal or by itself, but not by a panic
        assert_ne!(ran.code, Some(101), "{arguments:?}");
    }
}

#[test]
fn a_reader_that_has_gone_before_the_first_line_is_no_error() {
    let folder = folder("gone");
    for arguments in [
        &["r.mrt"][..],
        &["-c", "r.mrt"],
        &["--help"],
        &["--explain", "-e", "-loops"],
    ] {
        let mut command = folder.mrtgrep(arguments.iter().copied());
        let mut child = started(command.stdin(Stdio::piped()));
        // it may be quicker than this; both ways it has nothing to say
        drop(child.stdout.take());
        drop(child.stdin.take());
        let ran = outcome(&mut child);
        assert_eq!(ran.said, "", "{arguments:?}");
        assert_ne!(ran.code, Some(101), "{arguments:?}");
    }
}
