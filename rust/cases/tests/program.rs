//! The program `grainlantern`, run: what no proof speaks of, its input and output.

use std::ffi::OsStr;
use std::fs::{self, File};
use std::io::{Seek, Write};
use std::os::unix::ffi::OsStrExt;
use std::path::{Path, PathBuf};
use std::process::{Command, Output, Stdio};
use std::thread::{self, sleep};
use std::time::Duration;

use cases::{bytes, examples, fed, path, stored, KEEP_ALL, R, R_LINE};

/// The bytes of the input that are read.
const INPUT: usize = 65536;

fn program() -> Command {
    Command::new(path("crates/grainlantern/out/grainlantern"))
}

/// A file of this test run with a filter in it.
fn filter(name: &str, text: &[u8]) -> PathBuf {
    let file = Path::new(env!("CARGO_TARGET_TMPDIR")).join(format!("{name}.filter"));
    fs::write(&file, text).unwrap();
    file
}

/// What was written to standard output, by a program that ended well and said nothing else.
fn lines(output: Output) -> String {
    assert!(output.status.success(), "{output:?}");
    assert_eq!(String::from_utf8_lossy(&output.stderr), "");
    String::from_utf8(output.stdout).unwrap()
}

fn run(command: &mut Command, input: &[u8]) -> String {
    let input = input.to_vec();
    lines(fed(command, move |mut stdin| {
        // a program that refuses a filter, or has read enough, doesn't read on
        let _ = stdin.write_all(&input);
    }))
}

fn filtered(filter: &Path, input: &[u8]) -> String {
    run(program().arg(filter), input)
}

fn keep_all() -> PathBuf {
    path("crates/grainlantern/data/keep-all.filter")
}

/// A record of another type, of so many bytes.
fn padding(size: usize) -> Vec<u8> {
    let mut record = vec![0; size];
    record[8..12].copy_from_slice(&(size as u32 - 12).to_be_bytes());
    record
}

#[test]
fn a_filter_that_cannot_be_read_is_an_empty_text() {
    let r = bytes(R);
    assert_eq!(run(&mut program(), &r), "refused 4 at 0\n", "no argument");
    let long_name = "x".repeat(5000);
    let path_of_4096 = "x/".repeat(2048);
    for name in ["", "no/such/file", "/", ".", &long_name, &path_of_4096] {
        assert_eq!(filtered(Path::new(name), &r), "refused 4 at 0\n", "{name}");
    }
    assert_eq!(filtered(&filter("empty", b""), &r), "refused 4 at 0\n");
}

#[test]
fn a_file_whose_name_is_no_text_is_an_empty_text() {
    let folder = Path::new(env!("CARGO_TARGET_TMPDIR"));
    let file = folder.join(OsStr::from_bytes(b"no-text-\xFF.filter"));
    fs::write(&file, KEEP_ALL).unwrap();
    assert_eq!(filtered(&file, &bytes(R)), "refused 4 at 0\n");
    // a name in UTF-8 beyond ASCII is one
    let file = filter("na\u{ef}ve", KEEP_ALL.as_bytes());
    assert_eq!(filtered(&file, &bytes(R)), R_LINE);
}

#[test]
fn a_bad_filter_prints_its_refusal_alone() {
    let path_of = |items| format!("-aspath '{}'", vec!["."; items].join(" "));
    let refusals = [
        ("-loops\t\x7f", "2 at 7"),
        ("-aspath '5", "3 at 8"),
        ("-loops )", "4 at 7"),
        ("-aspath !432", "4 at 8"),
        (" \n", "4 at 2"),
        ("-type 256", "5 at 6"),
        (&("!".repeat(33) + "-loops"), "6 at 32"),
        (&path_of(512), "7 at 0"),
    ];
    for (at, (text, refusal)) in refusals.into_iter().enumerate() {
        let file = filter(&format!("bad-{at}"), text.as_bytes());
        assert_eq!(
            filtered(&file, &bytes(R)),
            format!("refused {refusal}\n"),
            "{text}"
        );
    }
    // the longest program has 512 records, and 8 doesn't come
    let longest = format!("-type UPDATE -or {}", path_of(509));
    assert_eq!(
        filtered(&filter("longest", longest.as_bytes()), &bytes(R)),
        R_LINE
    );
}

#[test]
fn filters_of_up_to_4096_bytes_are_read() {
    for (size, wanted) in [
        (4096, R_LINE),
        (4097, "refused 1 at 0\n"),
        (60_000, "refused 1 at 0\n"),
    ] {
        let text = format!("{KEEP_ALL:size$}");
        assert_eq!(text.len(), size);
        let file = filter(&format!("size-{size}"), text.as_bytes());
        assert_eq!(filtered(&file, &bytes(R)), wanted, "{size} bytes");
    }
    // what stands in the last byte counts
    let text = format!("{KEEP_ALL:4095})");
    assert_eq!(
        filtered(&filter("last-byte", text.as_bytes()), &[]),
        "refused 4 at 4095\n"
    );
}

#[test]
fn a_filter_comes_in_pieces_too() {
    let pipe = Path::new(env!("CARGO_TARGET_TMPDIR")).join("pipe.filter");
    let _ = fs::remove_file(&pipe);
    let made = Command::new("mkfifo").arg(&pipe).status().expect("mkfifo");
    assert!(made.success());
    let there = pipe.clone();
    let writer = thread::spawn(move || {
        let mut file = File::create(there).unwrap();
        for byte in KEEP_ALL.as_bytes() {
            file.write_all(&[*byte]).unwrap();
            sleep(Duration::from_millis(1));
        }
    });
    assert_eq!(filtered(&pipe, &bytes(R)), R_LINE);
    writer.join().unwrap();
}

#[test]
fn further_arguments_are_ignored() {
    let mut command = program();
    command.arg(keep_all()).args(["no/such/file", "-loops"]);
    assert_eq!(run(&mut command, &bytes(R)), R_LINE);
}

#[test]
fn only_kept_records_are_printed() {
    let r = bytes(R);
    let mut damaged = r.clone();
    damaged[32] = 0;
    let mut other_peer = r.clone();
    other_peer[15] = 0x7D;
    let input = [&r[..], &damaged, &other_peer, &padding(12), &r, &r[..82]].concat();
    let file = filter("peer", b"-peer 199036");
    assert_eq!(filtered(&file, &input), R_LINE.repeat(2));
    assert_eq!(filtered(&file, &[]), "");
}

#[test]
fn the_longest_lines_fit() {
    // an UPDATE of 4,096 bytes, without attributes, that announces nothing but 0.0.0.0/0
    let prefixes = 4096 - 19 - 4;
    let mut record = bytes(R)[..51].to_vec();
    record.resize(51 + 4 + prefixes, 0);
    let size = record.len() as u32;
    record[8..12].copy_from_slice(&(size - 12).to_be_bytes());
    record[48..50].copy_from_slice(&4096u16.to_be_bytes());
    let announced = vec!["0.0.0.0/0"; prefixes].join(" ");
    let wanted = format!("+|{announced}|||||||192.0.2.1 199036|1622725323|1\n");
    assert_eq!(filtered(&keep_all(), &record), wanted);
}

#[test]
fn input_comes_in_pieces() {
    let run = stored("crates/grainlantern/stdin");
    let output = fed(program().arg(keep_all()), move |mut stdin| {
        for byte in run {
            stdin.write_all(&[byte]).unwrap();
            sleep(Duration::from_micros(500));
        }
    });
    assert_eq!(
        lines(output).as_bytes(),
        stored("crates/grainlantern/stdout")
    );

    let run = stored("tests/real/gobgp.mrt");
    let output = fed(program().arg(keep_all()), move |mut stdin| {
        for piece in run.chunks(999) {
            stdin.write_all(piece).unwrap();
            sleep(Duration::from_millis(1));
        }
    });
    assert_eq!(lines(output).as_bytes(), stored("tests/real/gobgp.lines"));
}

#[test]
fn the_first_65536_bytes_are_read() {
    let r = bytes(R);
    let whole = [padding(INPUT - r.len()), r.clone(), r.clone()].concat();
    assert_eq!(filtered(&keep_all(), &whole), R_LINE);
    let cut = [padding(INPUT - r.len() + 1), r.clone(), r.clone()].concat();
    assert_eq!(filtered(&keep_all(), &cut), "");
    // the dump has 65,518 bytes, so 18 of R's are read
    let run = [stored("tests/real/gobgp.mrt"), r].concat();
    assert_eq!(
        filtered(&keep_all(), &run).as_bytes(),
        stored("tests/real/gobgp.lines")
    );
}

#[test]
fn what_follows_is_left_to_others() {
    let name = Path::new(env!("CARGO_TARGET_TMPDIR")).join("long.mrt");
    fs::write(&name, padding(INPUT + 5000)).unwrap();
    let mut file = File::open(name).unwrap();
    let input = Stdio::from(file.try_clone().unwrap());
    let output = program().arg(keep_all()).stdin(input).output().unwrap();
    assert_eq!(lines(output), "");
    assert_eq!(file.stream_position().unwrap(), INPUT as u64);
}

#[test]
fn real_dumps_give_their_lines() {
    for name in ["frr", "gobgp"] {
        let run = stored(&format!("tests/real/{name}.mrt"));
        let wanted = stored(&format!("tests/real/{name}.lines"));
        assert!(
            filtered(&keep_all(), &run).as_bytes() == wanted,
            "{name}: the lines differ"
        );
    }
}

#[test]
fn the_examples_give_their_lines() {
    let examples = examples();
    for (file, dump) in &examples {
        let run = fs::read(dump).unwrap();
        let printed = filtered(file, &run);
        let wanted = fs::read_to_string(file.with_extension("lines")).unwrap();
        assert_eq!(printed, wanted, "{}", file.display());
        let all = filtered(&keep_all(), &run).lines().count();
        assert!(
            (1..all).contains(&printed.lines().count()),
            "{}",
            file.display()
        );
    }
    assert_eq!(examples.len(), 7);
}
