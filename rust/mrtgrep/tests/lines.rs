//! The lines of kept records, byte for byte, whatever files they come from and whatever the input is cut into.

mod common;

use std::io::Write;

use common::*;

#[test]
fn the_examples_give_their_lines() {
    let folder = Folder::new("examples");
    for (name, _) in EXAMPLES {
        let (filter, lines) = example(name);
        let dump = dump(name);
        folder
            .run(["-f", &filter, path(&dump).to_str().unwrap()])
            .gave(0, &lines)
            .silently();
        // the filter as text, and the records from standard input
        let text = stored_text(&format!("examples/{name}.filter"));
        folder
            .fed(["-e", &text], &stored(&dump))
            .gave(0, &lines)
            .silently();
    }
}

#[test]
fn real_dumps_give_their_lines() {
    for name in ["frr", "gobgp"] {
        let run = stored(&format!("tests/real/{name}.mrt"));
        let lines = stored(&format!("tests/real/{name}.lines"));
        // no filter keeps everything
        fed(&mut mrtgrep(), &run).gave(0, &lines).silently();
        fed(mrtgrep().args(["-e", KEEP_ALL]), &run)
            .gave(0, &lines)
            .silently();
    }
}

#[test]
fn record_r_gives_its_line() {
    fed(mrtgrep().args(["-peer", "199036"]), &bytes(R))
        .gave(0, R_LINE)
        .silently();
    fed(mrtgrep().args(["-peer", "2428"]), &bytes(R))
        .gave(1, "")
        .silently();
}

#[test]
fn files_come_one_after_another_and_no_line_has_their_name() {
    let folder = Folder::new("several")
        .with("one.mrt", stored("tests/real/gobgp.mrt"))
        .with("two.mrt", stored("tests/real/frr.mrt"));
    let gobgp = stored("tests/real/gobgp.lines");
    let frr = stored("tests/real/frr.lines");
    for jobs in ["1", "2", "4"] {
        folder
            .run(["-j", jobs, "one.mrt", "two.mrt", "one.mrt"])
            .gave(0, [&gobgp[..], &frr, &gobgp].concat())
            .silently();
        // standard input in its place among them
        folder
            .fed(["-j", jobs, "two.mrt", "-", "one.mrt"], &bytes(R))
            .gave(0, [&frr[..], R_LINE.as_bytes(), &gobgp].concat())
            .silently();
    }
}

#[test]
fn files_over_64_kib_are_read_whole() {
    let run = [stored("tests/real/gobgp.mrt"), stored("tests/real/frr.mrt")]
        .concat()
        .repeat(9);
    let lines = [
        stored("tests/real/gobgp.lines"),
        stored("tests/real/frr.lines"),
    ]
    .concat()
    .repeat(9);
    let folder = Folder::new("over-64-kib").with("long.mrt", &run);
    folder.run(["long.mrt"]).gave(0, &lines).silently();
    folder.fed([], &run).gave(0, &lines).silently();
}

#[test]
fn input_comes_in_pieces() {
    let run = [stored("tests/real/gobgp.mrt"), stored("tests/real/frr.mrt")].concat();
    let lines = [
        stored("tests/real/gobgp.lines"),
        stored("tests/real/frr.lines"),
    ]
    .concat();
    for size in [1, 7, 4096] {
        for jobs in ["1", "2", "4"] {
            let mut command = mrtgrep();
            command.args(["-j", jobs]);
            fed_in_pieces(&mut command, &run, size)
                .gave(0, &lines)
                .silently();
        }
    }
}

#[test]
fn a_record_over_the_limit_is_passed_over_in_pieces_too() {
    // a body that looks like records: only the length says that they are none
    let mut long = padding(12 + 200 * 83);
    for copy in long[12..].chunks_mut(83) {
        copy.copy_from_slice(&bytes(R));
    }
    let run = [bytes(R), long, bytes(R)].concat();
    for size in [1, 7, 4096] {
        let run = run.clone();
        fed_by(&mut mrtgrep(), move |mut stdin| {
            for piece in run.chunks(size) {
                stdin.write_all(piece).unwrap();
            }
        })
        .gave(0, R_LINE.repeat(2))
        .silently();
    }
}

#[test]
fn the_largest_record_and_the_longest_lines_fit() {
    // an UPDATE of 4,096 bytes, without attributes, that announces nothing but 0.0.0.0/0
    let prefixes = 4096 - 19 - 4;
    let mut record = bytes(R)[..51].to_vec();
    record.resize(51 + 4 + prefixes, 0);
    let size = record.len() as u32;
    record[8..12].copy_from_slice(&(size - 12).to_be_bytes());
    record[48..50].copy_from_slice(&4096u16.to_be_bytes());
    let announced = vec!["0.0.0.0/0"; prefixes].join(" ");
    let line = format!("+|{announced}|||||||192.0.2.1 199036|1622725323|1\n");
    for jobs in ["1", "2"] {
        fed(mrtgrep().args(["-j", jobs]), &record.repeat(50))
            .gave(0, line.repeat(50))
            .silently();
    }
    // 8,192 bytes are judged (and of another type here), 8,193 aren't looked at
    let run = [padding(8192), padding(8193), bytes(R)].concat();
    fed(mrtgrep().arg("-r"), &run).gave(0, R_LINE);
}
