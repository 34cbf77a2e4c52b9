//! --check and --explain: what a filter was taken for, with no record file opened.

mod common;

use std::process::Stdio;

use common::*;

/// A filter with every kind of test and of operand.
const EVERY: &str = "-type UPDATE -and -attr COMMUNITY -and -attr 200 -and ! -loops \
    -or ( -bogon-asn -or -aspath '^199036 !5 . 3333$' -or -aspath '^$' ) \
    -and -peer 199036 -and -peer 192.0.2.1 -and -peer '192.0.2.7 65001' \
    -and -exact 10.1.2.0/24 -and -supernet +10.2.0.0/16 -and -subnet -10.0.0.0/8 -and -related 0.0.0.0/0 \
    -and -timestamp 1622725323 -and -timestamp <5.5 -and -timestamp <=6 -and -timestamp >7.000001 -and -timestamp >=8 \
    -and -communities '64500:1 65535:65281 65535:666'";

/// Its program by document 01 and request 1, a row a record: words that have to stand there. `a -and b` is a, a pass over b if false, b; `-or`
/// likewise if true; rows count from 1.
const ROWS: [&[&str]; 47] = [
    &["type", "UPDATE"],
    &["false", "4"],
    &["attr", "COMMUNITY"],
    &["false", "6"],
    &["attr", "200"],
    &["false", "9"],
    &["loops"],
    &["!"],
    &["true", "end"],
    &["bogon"],
    &["true", "17"],
    &["path", "4"],
    &["199036"],
    &["but", "5"],
    &["any"],
    &["3333"],
    &["true", "19"],
    &["path", "empty"],
    &["false", "21"],
    &["peer", "AS", "199036"],
    &["false", "23"],
    &["peer", "192.0.2.1"],
    &["false", "25"],
    &["peer", "192.0.2.7", "65001"],
    &["false", "27"],
    &["exact", "10.1.2.0/24"],
    &["false", "29"],
    &["supernet", "announced", "10.2.0.0/16"],
    &["false", "31"],
    &["subnet", "withdrawn", "10.0.0.0/8"],
    &["false", "33"],
    &["related", "0.0.0.0/0"],
    &["false", "35"],
    &["timestamp", "exactly", "1622725323"],
    &["false", "37"],
    &["timestamp", "before", "5.5"],
    &["false", "39"],
    &["timestamp", "at or before", "6"],
    &["false", "41"],
    &["timestamp", "after", "7.000001"],
    &["false", "43"],
    &["timestamp", "at or after", "8"],
    &["false", "end"],
    &["communities", "each", "3"],
    &["64500:1"],
    &["NO_EXPORT"],
    &["65535:666"],
];

fn explained(filter: &str) -> Vec<String> {
    let folder = Folder::new("explained");
    let ran = folder.run(["--explain", "-e", filter, "no-such.mrt"]);
    assert_eq!(ran.code, Some(0), "{}", ran.said);
    assert_eq!(ran.said, "");
    String::from_utf8(ran.out)
        .unwrap()
        .lines()
        .map(str::to_owned)
        .collect()
}

#[test]
fn a_good_filter_has_its_weight() {
    let folder = Folder::new("check");
    // each test, item, !, -and and -or counts one
    for (filter, weight) in [
        ("-loops", 1),
        ("! -loops", 2),
        ("-subnet 10.0.0.0/8 -and ! ( -bogon-asn -or -loops )", 6),
        (
            "-aspath '^199036 . 3333$' -and -timestamp >=1622725323.5",
            6,
        ),
        ("-aspath '^$'", 1),
        ("-communities '64500:1 NO_EXPORT 64500:1'", 4),
        (KEEP_ALL, 4),
    ] {
        let ran = folder.run(["--check", "-e", filter]);
        assert_eq!(ran.code, Some(0), "{filter}: {}", ran.said);
        let said = String::from_utf8(ran.out).unwrap() + &ran.said;
        assert_eq!(said.lines().count(), 1, "{said}");
        assert!(numbers(&said).contains(&weight), "{filter}: {said}");
    }
    // of no filter, that of the one that keeps everything
    let ran = folder.run(["--check"]);
    assert_eq!(ran.code, Some(0), "{}", ran.said);
    assert!(numbers(&String::from_utf8(ran.out).unwrap()).contains(&4));
}

#[test]
fn the_heaviest_filter_is_good() {
    let folder = Folder::new("heaviest");
    for (test, item) in [("-aspath", "."), ("-communities", "0:0")] {
        let items = vec![item; 511].join(" ");
        let ran = folder.run(["--check", test, &items]);
        assert_eq!(ran.code, Some(0), "{}", ran.said);
        assert!(numbers(&String::from_utf8(ran.out).unwrap()).contains(&512));
        assert_eq!(explained(&format!("{test} '{items}'")).len(), 512);
        let items = vec![item; 512].join(" ");
        folder
            .run(["--check", test, &items])
            .gave(2, "")
            .telling(&["(refused 7 at 0)"]);
    }
}

#[test]
fn a_bad_filter_is_told_as_ever() {
    let folder = Folder::new("check-bad");
    for option in ["--check", "--explain"] {
        folder
            .run([option, "-loops", ")"])
            .gave(2, "")
            .telling(&["mrtgrep: filter:1:8: ", "(refused 4 at 7)"]);
        folder
            .run([option, "-f", "no-such.filter"])
            .gave(2, "")
            .saying(&["no-such.filter: "]);
    }
}

#[test]
fn no_record_file_is_opened() {
    let folder = Folder::new("not-opened");
    for option in ["--check", "--explain"] {
        let ran = folder.run([option, "no-such.mrt", "-loops"]);
        assert_eq!((ran.code, &*ran.said), (Some(0), ""), "{option}");
        // standard input isn't waited for
        let mut child = started(folder.mrtgrep([option, "-loops"]).stdin(Stdio::piped()));
        let held = child.stdin.take();
        let ran = outcome(&mut child);
        drop(held);
        assert_eq!((ran.code, &*ran.said), (Some(0), ""), "{option}");
    }
}

#[test]
fn a_program_has_a_row_for_each_record() {
    assert_eq!(explained("-loops").len(), 1);
    assert_eq!(explained("-loops -and ! -bogon-asn").len(), 4);
    assert_eq!(explained("( ( -aspath '5 . !6' ) )").len(), 4);
    assert_eq!(explained(KEEP_ALL).len(), 4);
}

#[test]
fn every_kind_of_record_is_told_in_words() {
    let rows = explained(EVERY);
    assert_eq!(rows.len(), ROWS.len(), "{rows:#?}");
    for ((row, words), number) in rows.iter().zip(ROWS).zip(1..) {
        // its own number stands before it
        let told = row
            .trim_start()
            .strip_prefix(&format!("{number} "))
            .unwrap_or_else(|| panic!("row {number}: {row}"));
        for word in words {
            assert!(told.contains(word), "{word}: {row}");
        }
    }
}

#[test]
fn a_pass_tells_where_it_lands() {
    // both sides of the first -or are one test, and the -and behind it passes over a path of three records
    let rows = explained("( -loops -or -bogon-asn ) -and -aspath '5 6' -and -loops");
    assert_eq!(rows.len(), 9, "{rows:#?}");
    for (row, landing) in [(2, "4"), (4, "8")] {
        assert!(
            rows[row - 1].ends_with(&format!(" {landing}")),
            "{}",
            rows[row - 1]
        );
    }
    assert!(rows[7].contains("end"), "{}", rows[7]);
}
