//! Files that are empty, missing, folders or cut: what is told of each, the exit status, and that the next file is read.

mod common;

use common::*;

#[test]
fn an_empty_file_has_no_records() {
    let folder = Folder::new("empty").with("empty.mrt", "");
    folder.run(["empty.mrt"]).gave(1, "").silently();
    folder.run([]).gave(1, "").silently();
    folder.run(["-c", "empty.mrt"]).gave(1, "0\n").silently();
}

#[test]
fn a_missing_file_is_told_and_the_next_is_read() {
    let folder = Folder::new("missing").with("r.mrt", bytes(R));
    folder
        .run(["no-such.mrt"])
        .gave(2, "")
        .saying(&["no-such.mrt: "]);
    folder
        .run(["no-such.mrt", "r.mrt"])
        .gave(2, R_LINE)
        .saying(&["no-such.mrt: "]);
    folder
        .run(["r.mrt", "no-such.mrt", "r.mrt", "nor-this.mrt"])
        .gave(2, R_LINE.repeat(2))
        .telling(&["no-such.mrt: "])
        .telling(&["nor-this.mrt: "]);
}

#[test]
fn a_folder_is_told_and_the_next_is_read() {
    let folder = Folder::new("folder").with("r.mrt", bytes(R));
    std::fs::create_dir(folder.path("within")).unwrap();
    folder.run(["within"]).gave(2, "").saying(&["within: "]);
    folder
        .run(["within", "r.mrt"])
        .gave(2, R_LINE)
        .saying(&["within: "]);
}

#[test]
fn a_file_that_cannot_be_read_is_told_and_the_next_is_read() {
    let folder = Folder::new("unread").with("r.mrt", bytes(R));
    // it opens, and its first page can't be read
    folder
        .run(["/proc/self/mem", "r.mrt"])
        .gave(2, R_LINE)
        .saying(&["/proc/self/mem: "]);
    let input = std::fs::File::open(folder.path("")).unwrap();
    run(folder.mrtgrep(["-", "r.mrt"]).stdin(input))
        .gave(2, R_LINE)
        .saying(&["-: "]);
}

/// The places at which R is cut: within and behind each field of the header (seconds, type, subtype, length) and of the body (peer AS,
/// local AS, interface, family, two addresses, marker, length, type, and the sections of the UPDATE).
fn cuts() -> Vec<usize> {
    (1..83).collect()
}

#[test]
fn a_file_cut_in_any_field_is_told_and_what_is_whole_is_printed() {
    let folder = Folder::new("cut").with("r.mrt", bytes(R));
    for size in cuts() {
        let run = [bytes(R), bytes(R)[..size].to_vec()].concat();
        std::fs::write(folder.path("cut.mrt"), run).unwrap();
        let ran = folder.run(["cut.mrt", "r.mrt"]).gave(2, R_LINE.repeat(2));
        assert_eq!(ran.said, cut("cut.mrt", size, 83));
    }
}

#[test]
fn a_cut_beginning_is_told_too() {
    for size in cuts() {
        let ran = fed(&mut mrtgrep(), &bytes(R)[..size]).gave(2, "");
        assert_eq!(ran.said, cut("-", size, 0));
    }
}

#[test]
fn input_cut_in_pieces_is_told_by_the_same_bytes() {
    let run = [bytes(R), bytes(R)[..50].to_vec()].concat();
    for size in [1, 7, 4096] {
        let ran = fed_in_pieces(&mut mrtgrep(), &run, size).gave(2, R_LINE);
        assert_eq!(ran.said, cut("-", 50, 83));
    }
}

#[test]
fn a_header_that_announces_gigabytes_costs_nothing() {
    // 4,294,967,295 bytes are announced, and five are there
    let mut long = padding(17);
    long[8..12].copy_from_slice(&u32::MAX.to_be_bytes());
    let folder = Folder::new("announced")
        .with("long.mrt", [bytes(R), long].concat())
        .with("r.mrt", bytes(R));
    for jobs in ["1", "4"] {
        let ran = folder
            .run(["-j", jobs, "long.mrt", "r.mrt"])
            .gave(2, R_LINE.repeat(2));
        assert_eq!(ran.said, cut("long.mrt", 17, 83));
    }
}
