//! The rules of options: which argument is one, where its value stands, and what ends them.

mod common;

use common::*;

/// A folder with a record that is kept, one that is dropped by `-peer 199036`, and both.
fn folder(name: &str) -> Folder {
    Folder::new(name)
        .with("r.mrt", bytes(R))
        .with("other.mrt", other_peer())
        .with("-odd.mrt", bytes(R))
}

/// Holds arguments to be a usage error: told, with nothing read or written.
#[track_caller]
fn is_usage_error(folder: &Folder, arguments: &[&str]) {
    let ran = folder
        .fed(arguments.iter().copied(), &bytes(R))
        .gave(2, "")
        .telling(&[]);
    assert!(!ran.said.contains("refused"), "{arguments:?}: {}", ran.said);
    assert!(
        !ran.said.contains("panicked"),
        "{arguments:?}: {}",
        ran.said
    );
}

#[test]
fn a_value_is_the_next_argument_or_behind_an_equals_sign() {
    let folder = folder("values");
    for arguments in [
        &["-m", "1", "r.mrt", "r.mrt"][..],
        &["--max-count", "1", "r.mrt", "r.mrt"],
        &["--max-count=1", "r.mrt", "r.mrt"],
        &["--jobs=2", "--max-count=1", "r.mrt", "r.mrt"],
    ] {
        folder
            .run(arguments.iter().copied())
            .gave(0, R_LINE)
            .silently();
    }
    // whatever it begins with
    folder
        .run(["-e", "-peer 199036", "other.mrt"])
        .gave(1, "")
        .silently();
    folder.run(["-o", "-out", "r.mrt"]).gave(0, "").silently();
    assert_eq!(folder.read("-out"), R_LINE.as_bytes());
    folder.run(["--output=--", "r.mrt"]).gave(0, "").silently();
    assert_eq!(folder.read("--"), R_LINE.as_bytes());
}

#[test]
fn every_option_has_its_names() {
    let folder = folder("names").with("loops", "-loops");
    for (short, long) in [("-c", "--count"), ("-q", "--quiet")] {
        let ran = folder.run([short, "r.mrt"]);
        let out = if short == "-c" { "1\n" } else { "" };
        folder.run([long, "r.mrt"]).gave(0, &ran.out).silently();
        ran.gave(0, out).silently();
    }
    folder.run(["-e", "-loops", "r.mrt"]).gave(1, "").silently();
    folder.run(["-f", "loops", "r.mrt"]).gave(1, "").silently();
    for name in ["-j", "--jobs"] {
        folder.run([name, "3", "r.mrt"]).gave(0, R_LINE).silently();
    }
    for name in ["-s", "--stats"] {
        let ran = folder.run([name, "r.mrt"]).gave(0, R_LINE);
        assert!(ran.said.contains("r.mrt"), "{}", ran.said);
    }
    for name in ["-r", "--report"] {
        let run = [padding(20), bytes(R)].concat();
        let ran = folder.fed([name], &run).gave(0, R_LINE);
        assert!(ran.said.contains("12"), "{}", ran.said);
    }
    folder
        .run(["--no-progress", "r.mrt"])
        .gave(0, R_LINE)
        .silently();
    folder.run(["--strict", "r.mrt"]).gave(0, R_LINE).silently();
}

#[test]
fn options_are_not_bundled() {
    let folder = folder("bundled");
    // no option, so it ends the options and begins the filter
    for argument in ["-cq", "-m1", "-m=1", "-j2"] {
        folder
            .run([argument, "r.mrt"])
            .gave(2, "")
            .telling(&["mrtgrep: filter:1:1: ", "(refused 4 at 0)"]);
    }
}

#[test]
fn the_first_argument_that_is_no_option_ends_them() {
    let folder = folder("ended");
    folder.fed(["-loops"], &bytes(R)).gave(1, "").silently();
    folder
        .fed(["-peer", "199036"], &bytes(R))
        .gave(0, R_LINE)
        .silently();
    // behind a file -c is the filter's
    folder
        .run(["r.mrt", "-c"])
        .gave(2, "")
        .telling(&["mrtgrep: filter:1:1: ", "(refused 4 at 0)"]);
    folder
        .run(["r.mrt", "--count"])
        .gave(2, "")
        .telling(&["mrtgrep: filter:1:1: ", "(refused 4 at 0)"]);
    folder
        .run(["-c", "r.mrt", "-peer", "199036"])
        .gave(0, "1\n")
        .silently();
}

#[test]
fn a_long_name_that_is_none_is_a_usage_error() {
    let folder = folder("unknown");
    for arguments in [
        &["--no-such-option"][..],
        &["--no-such-option", "r.mrt"],
        &["--counts", "r.mrt"],
        &["--coun", "r.mrt"],
        &["-c", "--no-such-option=1", "r.mrt"],
        &["--=1", "r.mrt"],
        &["--loops", "r.mrt"],
    ] {
        is_usage_error(&folder, arguments);
    }
}

#[test]
fn a_value_that_is_missing_or_not_wanted_or_wrong_is_a_usage_error() {
    let folder = folder("wrong-values");
    for name in [
        "-m",
        "--max-count",
        "-e",
        "-f",
        "-o",
        "--output",
        "-j",
        "--jobs",
    ] {
        is_usage_error(&folder, &[name]);
    }
    for name in [
        "--count=1",
        "--quiet=",
        "--check=yes",
        "--help=x",
        "--strict=1",
    ] {
        is_usage_error(&folder, &[name, "r.mrt"]);
    }
    for number in ["", "x", "-1", "1x", " 1", "0x1", "1.5", "--"] {
        is_usage_error(&folder, &["-m", number, "r.mrt"]);
        is_usage_error(&folder, &["-j", number, "r.mrt"]);
    }
    is_usage_error(&folder, &["-j", "0", "r.mrt"]);
    is_usage_error(&folder, &["--max-count=", "r.mrt"]);
}

#[test]
fn two_dashes_end_the_options_and_are_dropped() {
    let folder = folder("dashes");
    folder
        .fed(["--", "-loops"], &bytes(R))
        .gave(1, "")
        .silently();
    folder
        .run(["-c", "--", "r.mrt", "-peer", "199036"])
        .gave(0, "1\n")
        .silently();
    folder.run(["--", "r.mrt"]).gave(0, R_LINE).silently();
    folder.fed(["--"], &bytes(R)).gave(0, R_LINE).silently();
    // an option behind them is the filter's
    folder
        .run(["--", "-c"])
        .gave(2, "")
        .telling(&["mrtgrep: filter:1:1: ", "(refused 4 at 0)"]);
    // and with -e a file may begin with one
    folder
        .run(["-e", KEEP_ALL, "--", "-odd.mrt"])
        .gave(0, R_LINE)
        .silently();
}

#[test]
fn two_dashes_further_on_are_a_usage_error() {
    let folder = folder("dashes-behind");
    for arguments in [
        &["--", "--"][..],
        &["r.mrt", "--"],
        &["r.mrt", "--", "-loops"],
        &["r.mrt", "-loops", "--"],
        &["-loops", "--", "r.mrt"],
        &["-peer", "--"],
        &["-e", "-loops", "r.mrt", "--", "r.mrt"],
        &["-e", "-loops", "--", "--"],
    ] {
        is_usage_error(&folder, arguments);
    }
}

#[test]
fn a_usage_error_says_how_it_is_used() {
    let folder = folder("usage");
    for arguments in [
        &["--no-such-option"][..],
        &["-m"],
        &["-e", "-loops", "-odd.mrt"],
    ] {
        let ran = folder.run(arguments.iter().copied()).gave(2, "");
        assert!(
            ran.said.contains("--help") || ran.said.contains("usage"),
            "{}",
            ran.said
        );
        assert!(
            ran.said.contains(arguments[arguments.len() - 1]),
            "{}",
            ran.said
        );
    }
}

#[test]
fn help_and_version_go_to_standard_output() {
    let folder = folder("help");
    for name in ["-h", "--help"] {
        let ran = folder.run([name]);
        let help = String::from_utf8(ran.out.clone()).unwrap();
        ran.gave(0, &help).silently();
        for option in [
            "-c",
            "--count",
            "-m",
            "--max-count",
            "-q",
            "--quiet",
            "-o",
            "--output",
            "-s",
            "--stats",
            "-r",
            "--report",
            "--check",
            "--explain",
            "-j",
            "--jobs",
            "--no-progress",
            "--strict",
            "-h",
            "--help",
            "-V",
            "--version",
            "-e",
            "-f",
        ] {
            let word = |c: char| c.is_ascii_alphanumeric() || c == '-';
            assert!(
                help.split(|c| !word(c)).any(|found| found == option),
                "{option}: {help}"
            );
        }
    }
    for name in ["-V", "--version"] {
        let version = format!("mrtgrep {}\n", env!("CARGO_PKG_VERSION"));
        folder.run([name]).gave(0, version).silently();
    }
}
