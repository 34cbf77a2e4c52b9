//! -c, -m and -q: how many are kept, when it stops, and the exit status that scripts hang on.

mod common;

use std::ffi::OsStr;
use std::os::unix::ffi::OsStrExt;
use std::process::Stdio;

use common::*;

/// Seven records: kept, refused, dropped, kept, refused, kept, and one that is cut, by `-peer 199036`.
fn run() -> Vec<u8> {
    [
        bytes(R),
        padding(20),
        other_peer(),
        keepalive(),
        padding(8193),
        bytes(R),
        bytes(R)[..30].to_vec(),
    ]
    .concat()
}

const PEER: [&str; 2] = ["-peer", "199036"];

fn folder(name: &str) -> Folder {
    Folder::new(name)
        .with("run.mrt", run())
        .with("whole.mrt", &run()[..run().len() - 30])
        .with("r.mrt", bytes(R))
        .with("other.mrt", other_peer())
        .with("keepalive.mrt", keepalive())
        .with("empty.mrt", "")
}

fn arguments<'a>(first: &[&'a str]) -> Vec<&'a str> {
    [first, &PEER].concat()
}

#[test]
fn kept_records_are_counted() {
    let folder = folder("count");
    folder
        .run(arguments(&["-c", "whole.mrt"]))
        .gave(0, "3\n")
        .silently();
    folder
        .run(arguments(&["-c", "other.mrt"]))
        .gave(1, "0\n")
        .silently();
    folder
        .run(arguments(&["-c", "keepalive.mrt"]))
        .gave(0, "1\n")
        .silently();
    folder
        .fed(arguments(&["-c"]), &bytes(R))
        .gave(0, "1\n")
        .silently();
    for (name, kept) in EXAMPLES {
        let (filter, _) = example(name);
        folder
            .fed(["-c", "-f", &filter], &stored(&dump(name)))
            .gave(0, format!("{kept}\n"))
            .silently();
    }
}

#[test]
fn counts_of_several_files_have_their_names() {
    let folder = folder("counts");
    folder
        .fed(
            arguments(&["-c", "whole.mrt", "other.mrt", "-", "empty.mrt", "./r.mrt"]),
            &bytes(R).repeat(7),
        )
        .gave(0, "whole.mrt:3\nother.mrt:0\n-:7\nempty.mrt:0\n./r.mrt:1\n")
        .silently();
    folder
        .run(arguments(&["-c", "other.mrt", "other.mrt"]))
        .gave(1, "other.mrt:0\nother.mrt:0\n")
        .silently();
}

#[test]
fn a_name_is_written_as_it_is() {
    // no text of any encoding
    let name = OsStr::from_bytes(b"\xFF:\n.mrt");
    let folder = folder("odd-name");
    std::fs::write(folder.path("").join(name), bytes(R)).unwrap();
    let mut command = folder.mrtgrep(["-c", "r.mrt"]);
    let ran = common::run(command.arg(name).stdin(Stdio::null()));
    ran.gave(0, b"r.mrt:1\n\xFF:\n.mrt:1\n").silently();
}

#[test]
fn a_kept_record_that_prints_nothing_counts() {
    let folder = folder("prints-nothing");
    folder
        .run(["keepalive.mrt", "-type", "KEEPALIVE"])
        .gave(0, "")
        .silently();
    folder
        .run(["-q", "keepalive.mrt", "-type", "KEEPALIVE"])
        .gave(0, "")
        .silently();
}

#[test]
fn the_exit_status_is_that_of_grep() {
    let folder = folder("status");
    folder
        .run(arguments(&["r.mrt", "other.mrt"]))
        .gave(0, R_LINE)
        .silently();
    folder
        .run(arguments(&["other.mrt", "empty.mrt"]))
        .gave(1, "")
        .silently();
    // 2 wins over both
    folder
        .run(arguments(&["r.mrt", "no-such.mrt"]))
        .gave(2, R_LINE);
    folder
        .run(arguments(&["no-such.mrt", "other.mrt"]))
        .gave(2, "");
    folder
        .run(arguments(&["run.mrt"]))
        .gave(2, R_LINE.repeat(2));
    folder.run(arguments(&["-c", "run.mrt"])).gave(2, "3\n");
}

#[test]
fn it_stops_after_so_many_kept_records_over_all_files() {
    let folder = folder("max");
    for jobs in ["1", "2", "4"] {
        for (max, lines) in [
            ("1", 1),
            ("2", 1),
            ("3", 2),
            ("4", 3),
            ("5", 4),
            ("6", 4),
            ("7", 5),
            ("18446744073709551615", 5),
        ] {
            folder
                .run(arguments(&[
                    "-j",
                    jobs,
                    "-m",
                    max,
                    "whole.mrt",
                    "r.mrt",
                    "whole.mrt",
                ]))
                .gave(0, R_LINE.repeat(lines))
                .silently();
        }
        // what lies behind isn't read: a missing file, a cut end
        folder
            .run(arguments(&[
                "-j",
                jobs,
                "-m",
                "3",
                "run.mrt",
                "no-such.mrt",
            ]))
            .gave(0, R_LINE.repeat(2))
            .silently();
        folder
            .run(arguments(&[
                "-j",
                jobs,
                "-m",
                "4",
                "run.mrt",
                "r.mrt",
                "no-such.mrt",
            ]))
            .gave(2, R_LINE.repeat(3))
            .saying(&["run.mrt: "]);
        folder
            .run(arguments(&["-j", jobs, "-c", "-m", "2", "whole.mrt"]))
            .gave(0, "2\n")
            .silently();
    }
}

#[test]
fn none_wanted_reads_nothing() {
    let folder = folder("max-0");
    folder
        .run(arguments(&["-m", "0", "no-such.mrt"]))
        .gave(1, "")
        .silently();
    folder
        .fed(arguments(&["-m", "0"]), &bytes(R))
        .gave(1, "")
        .silently();
    // the filter is looked at all the same
    folder
        .run(["-m", "0", "r.mrt", "-typo"])
        .gave(2, "")
        .telling(&["(refused 4 at 0)"]);
}

#[test]
fn quiet_writes_nothing_and_stops_at_the_first() {
    let folder = folder("quiet");
    for jobs in ["1", "2", "4"] {
        folder
            .run(arguments(&["-j", jobs, "-q", "r.mrt"]))
            .gave(0, "")
            .silently();
        folder
            .run(arguments(&["-j", jobs, "-q", "other.mrt"]))
            .gave(1, "")
            .silently();
        folder
            .run(arguments(&["-j", jobs, "-q", "-c", "r.mrt"]))
            .gave(0, "")
            .silently();
        folder
            .run(arguments(&["-j", jobs, "-c", "-q", "other.mrt"]))
            .gave(1, "")
            .silently();
        // what lies behind isn't looked at
        folder
            .run(arguments(&["-j", jobs, "-q", "run.mrt", "no-such.mrt"]))
            .gave(0, "")
            .silently();
    }
}

#[test]
fn quiet_gives_0_whatever_was_wrong_before() {
    let folder = folder("quiet-wrong");
    let ran = folder
        .run(arguments(&["-q", "no-such.mrt", "r.mrt"]))
        .gave(0, "");
    ran.telling(&["no-such.mrt: "]);
    folder
        .run(arguments(&["-q", "--strict", "whole.mrt"]))
        .gave(0, "")
        .silently();
    let behind = [padding(20), bytes(R)].concat();
    folder
        .fed(arguments(&["-q", "--strict"]), &behind)
        .gave(0, "");
    // and 2 where none is kept
    folder
        .run(arguments(&["-q", "other.mrt", "no-such.mrt"]))
        .gave(2, "");
    folder.run(["-q", "r.mrt", "-typo"]).gave(2, "");
}

#[test]
fn with_strict_a_record_that_is_not_judged_is_wrong() {
    let folder = folder("strict");
    folder
        .run(arguments(&["whole.mrt"]))
        .gave(0, R_LINE.repeat(2))
        .silently();
    folder
        .run(arguments(&["--strict", "whole.mrt"]))
        .gave(2, R_LINE.repeat(2));
    folder
        .run(arguments(&["--strict", "r.mrt", "other.mrt"]))
        .gave(0, R_LINE)
        .silently();
    folder
        .run(arguments(&["--strict", "other.mrt"]))
        .gave(1, "")
        .silently();
    let refused = [padding(20), other_peer()].concat();
    folder.fed(arguments(&["--strict"]), &refused).gave(2, "");
    // one behind the last that is wanted isn't
    for jobs in ["1", "2", "4"] {
        folder
            .run(arguments(&["-j", jobs, "--strict", "-m", "1", "whole.mrt"]))
            .gave(0, R_LINE)
            .silently();
        folder
            .run(arguments(&["-j", jobs, "--strict", "-m", "2", "whole.mrt"]))
            .gave(2, R_LINE);
    }
}
