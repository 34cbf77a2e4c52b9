//! -e and -f: a filter as one text or from a file.

mod common;

use common::*;

fn folder(name: &str) -> Folder {
    Folder::new(name)
        .with("r.mrt", bytes(R))
        .with("other.mrt", other_peer())
        .with("peer.filter", "-peer\n\t199036\n")
        .with("empty.filter", "")
}

#[track_caller]
fn is_usage_error(folder: &Folder, arguments: &[&str]) {
    let ran = folder
        .fed(arguments.iter().copied(), &bytes(R))
        .gave(2, "")
        .telling(&[]);
    assert!(!ran.said.contains("refused"), "{arguments:?}: {}", ran.said);
}

#[test]
fn a_text_and_a_file_are_taken_as_they_are() {
    let folder = folder("taken");
    folder
        .run(["-e", "-peer 199036", "other.mrt", "r.mrt"])
        .gave(0, R_LINE)
        .silently();
    folder
        .run([
            "-e",
            "-aspath '^199036 3333$'-and(-peer 199036)",
            "other.mrt",
            "r.mrt",
        ])
        .gave(0, R_LINE)
        .silently();
    folder
        .run(["-f", "peer.filter", "other.mrt", "r.mrt"])
        .gave(0, R_LINE)
        .silently();
    // from standard input where no file is named
    folder
        .fed(["-e", "-peer 199036"], &bytes(R))
        .gave(0, R_LINE)
        .silently();
    folder
        .fed(["-f", "peer.filter"], &other_peer())
        .gave(1, "")
        .silently();
    folder
        .fed(["-f", "peer.filter", "-"], &bytes(R))
        .gave(0, R_LINE)
        .silently();
}

#[test]
fn all_operands_are_files() {
    let folder = folder("operands").with("(", bytes(R)).with("!", bytes(R));
    folder
        .run(["-e", KEEP_ALL, "(", "!", "r.mrt"])
        .gave(0, R_LINE.repeat(3))
        .silently();
    for filter in [["-e", "-loops"], ["-f", "peer.filter"]] {
        for operand in ["-loops", "-c", "--count", "-no-file"] {
            is_usage_error(&folder, &[filter[0], filter[1], "r.mrt", operand]);
        }
    }
    // an option is one only before the first operand
    folder
        .run(["-e", "-peer 199036", "-c", "r.mrt"])
        .gave(0, "1\n")
        .silently();
    // behind -- any name is a file
    let ran = folder.run(["-e", KEEP_ALL, "--", "-no-file", "r.mrt"]);
    ran.gave(2, R_LINE).saying(&["-no-file: "]);
}

#[test]
fn one_filter_is_enough() {
    let folder = folder("enough");
    for arguments in [
        &["-e", "-loops", "-e", "-loops", "r.mrt"][..],
        &["-f", "peer.filter", "-f", "peer.filter", "r.mrt"],
        &["-e", "-loops", "-f", "peer.filter", "r.mrt"],
        &["-f", "peer.filter", "-e", "-loops", "r.mrt"],
    ] {
        is_usage_error(&folder, arguments);
    }
}

#[test]
fn a_filter_from_standard_input_leaves_it_no_record_file() {
    let folder = folder("from-input");
    folder
        .fed(["-f", "-", "other.mrt", "r.mrt"], b"-peer 199036")
        .gave(0, R_LINE)
        .silently();
    fed_in_pieces(
        &mut folder.mrtgrep(["-f", "-", "other.mrt", "r.mrt"]),
        b"-peer 199036",
        1,
    )
    .gave(0, R_LINE)
    .silently();
    for arguments in [
        &["-f", "-"][..],
        &["-f", "-", "-"],
        &["-f", "-", "r.mrt", "-"],
    ] {
        folder
            .fed(arguments.iter().copied(), b"-peer 199036")
            .gave(2, "")
            .telling(&[]);
    }
    let ran = folder.fed(["-f", "-", "--check"], b"-peer 199036");
    assert_eq!(ran.code, Some(0), "{}", ran.said);
    // the name of standard input is -
    folder
        .fed(["-f", "-", "r.mrt"], b"-peer x")
        .gave(2, "")
        .telling(&["mrtgrep: -:1:7: ", "(refused 5 at 6)"]);
}

#[test]
fn an_empty_text_is_refused() {
    let folder = folder("empty-text");
    folder
        .run(["-e", "", "r.mrt"])
        .gave(2, "")
        .telling(&["mrtgrep: filter:1:1: ", "(refused 4 at 0)"]);
    folder
        .run(["-f", "empty.filter", "r.mrt"])
        .gave(2, "")
        .telling(&["mrtgrep: empty.filter:1:1: ", "(refused 4 at 0)"]);
    folder
        .run(["-f", "/dev/null", "r.mrt"])
        .gave(2, "")
        .telling(&["mrtgrep: /dev/null:1:1: ", "(refused 4 at 0)"]);
}

#[test]
fn no_filter_keeps_everything() {
    let folder = folder("none");
    let run = stored("tests/real/frr.mrt");
    let lines = stored("tests/real/frr.lines");
    folder.fed([], &run).gave(0, lines).silently();
    // 414 records less 101 that aren't readable, and some of those that are print nothing
    folder.fed(["-c"], &run).gave(0, "313\n").silently();
}

#[test]
fn a_filter_file_that_cannot_be_read_is_told() {
    let folder = folder("unreadable");
    std::fs::create_dir(folder.path("within")).unwrap();
    for name in ["no-such.filter", "within"] {
        folder
            .run(["-f", name, "-o", "out", "r.mrt"])
            .gave(2, "")
            .saying(&[&format!("{name}: ")]);
        assert!(!folder.path("out").exists());
    }
}

#[test]
fn a_filter_file_without_end_is_too_long() {
    let folder = folder("endless");
    folder
        .run(["-f", "/dev/zero", "r.mrt"])
        .gave(2, "")
        .saying(&["mrtgrep: /dev/zero: ", "(refused 1 at 0)"]);
}

#[test]
fn a_text_of_4096_bytes_is_read() {
    let folder = folder("longest")
        .with("4096", format!("{:4096}", "-peer 199036"))
        .with("4097", format!("{:4097}", "-peer 199036"));
    folder
        .run(["-f", "4096", "other.mrt", "r.mrt"])
        .gave(0, R_LINE)
        .silently();
    folder
        .run(["-f", "4097", "r.mrt"])
        .gave(2, "")
        .saying(&["mrtgrep: 4097: ", "(refused 1 at 0)"]);
}
