//! -r, and what is told without it: records that aren't judged, files of which none is, and packed files.

mod common;

use common::*;

#[test]
fn each_record_that_is_not_judged_is_told_in_order() {
    let mixed = mixed();
    let folder = Folder::new("report").with("mixed.mrt", &mixed.run);
    let (filter, lines) = example("loops");
    for jobs in ["1", "2", "4"] {
        let ran = folder
            .run(["-j", jobs, "-r", "-f", &filter, "mixed.mrt"])
            .gave(0, lines.repeat(ROUNDS));
        assert_eq!(ran.said.lines().count(), mixed.refused.len());
        for (line, (offset, number)) in ran.said.lines().zip(&mixed.refused) {
            assert_eq!(line, reported("mixed.mrt", *offset, *number));
        }
    }
}

#[test]
fn each_number_has_its_words() {
    for number in 11..=18 {
        let (record, _) = refused()
            .into_iter()
            .find(|(_, found)| *found == number)
            .unwrap();
        let run = [bytes(R), record, bytes(R)].concat();
        let ran = fed(mrtgrep().arg("-r"), &run).gave(0, R_LINE.repeat(2));
        assert_eq!(ran.said, reported("-", 83, number) + "\n");
    }
}

#[test]
fn offsets_begin_anew_in_each_file() {
    let folder = Folder::new("offsets")
        .with("one.mrt", [bytes(R), padding(12), bytes(R)].concat())
        .with(
            "two.mrt",
            [padding(9000), padding(12), bytes(R), padding(20)].concat(),
        );
    for jobs in ["1", "2", "4"] {
        let ran = folder
            .run(["-j", jobs, "-r", "one.mrt", "two.mrt"])
            .gave(0, R_LINE.repeat(3));
        let wanted = [
            reported("one.mrt", 83, 12),
            reported("two.mrt", 0, 11),
            reported("two.mrt", 9000, 12),
            reported("two.mrt", 9095, 12),
        ];
        assert_eq!(ran.said.lines().collect::<Vec<_>>(), wanted);
    }
}

#[test]
fn the_bytes_left_at_a_cut_end_are_told() {
    let run = [padding(12), bytes(R), bytes(R)[..40].to_vec()].concat();
    let folder = Folder::new("left").with("cut.mrt", run);
    let ran = folder.run(["-r", "cut.mrt"]).gave(2, R_LINE);
    assert_eq!(
        ran.said,
        reported("cut.mrt", 0, 12) + "\n" + &cut("cut.mrt", 40, 95)
    );
}

#[test]
fn without_it_refused_records_among_others_are_passed_over() {
    let run = [padding(12), bytes(R), padding(12), padding(12)].concat();
    fed(&mut mrtgrep(), &run).gave(0, R_LINE).silently();
    // also where the one that is judged is dropped
    fed(mrtgrep().arg("-loops"), &run).gave(1, "").silently();
}

#[test]
fn a_file_of_which_no_record_could_be_judged_is_told() {
    // three of 12, two of 14 and one of 11
    let mut frame = bytes(R);
    frame[32] = 0;
    let run = [
        padding(12),
        frame.clone(),
        padding(9000),
        padding(20),
        frame,
        padding(12),
    ]
    .concat();
    let folder = Folder::new("none-judged")
        .with("none.mrt", &run)
        .with("r.mrt", bytes(R));
    for jobs in ["1", "4"] {
        let ran = folder
            .run(["-j", jobs, "none.mrt"])
            .gave(1, "")
            .saying(&["none.mrt: ", "12"]);
        assert!(!numbers(&ran.said).contains(&14), "{}", ran.said);
        folder
            .run(["-j", jobs, "none.mrt", "r.mrt"])
            .gave(0, R_LINE)
            .saying(&["none.mrt: ", "12"]);
        folder
            .fed(["-j", jobs], &run)
            .gave(1, "")
            .saying(&["-: ", "12"]);
    }
    // with -r each record is
    let ran = folder.run(["-r", "none.mrt"]).gave(1, "");
    for line in ran.said.lines() {
        assert!(line.starts_with("mrtgrep: none.mrt: "), "{line}");
    }
    assert!(ran.said.lines().count() >= 6, "{}", ran.said);
    folder.run(["--strict", "none.mrt"]).gave(2, "");
}

#[test]
fn a_packed_file_is_told_with_the_pipe_to_use() {
    for (name, begins, tools) in [
        (
            "updates.gz",
            &b"\x1f\x8b\x08\x00"[..],
            ["zcat", "gzip", "gunzip"],
        ),
        ("updates.bz2", b"BZh91AY&SY", ["bzcat", "bzip2", "bunzip2"]),
        (
            "updates.xz",
            b"\xfd7zXZ\x00\x00\x04",
            ["xzcat", "xz -", "unxz"],
        ),
        (
            "updates.zst",
            b"\x28\xb5\x2f\xfd\x24",
            ["zstdcat", "zstd -", "unzstd"],
        ),
    ] {
        let mut packed = begins.to_vec();
        packed.resize(300, 0x5A);
        let folder = Folder::new("packed")
            .with(name, &packed)
            .with("r.mrt", bytes(R));
        for ran in [
            folder.run([name, "r.mrt"]),
            folder.run(["-j", "4", name, "r.mrt"]),
        ] {
            assert_eq!(ran.out, R_LINE.as_bytes());
            let told = ran.said.lines().find(|line| line.contains("packed"));
            let told = told.unwrap_or_else(|| panic!("{name}: {}", ran.said));
            assert!(told.starts_with(&format!("mrtgrep: {name}: ")), "{told}");
            assert!(
                told.contains('|') && tools.iter().any(|tool| told.contains(tool)),
                "{told}"
            );
        }
        let ran = folder.fed([], &packed);
        assert!(ran.said.contains("packed"), "{}", ran.said);
    }
}
