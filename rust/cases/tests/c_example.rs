//! The C interface as C sees it: the header, the example program over it, built and run, and the Python one beside it that cuts files.

use std::fs;
use std::path::{Path, PathBuf};
use std::process::{Command, Output};
use std::sync::OnceLock;

use cases::{examples, path, stored};

const STRICT: [&str; 4] = ["-Wall", "-Wextra", "-Werror", "-pedantic"];
const ARCHIVE: &str = "crates/grainlantern_c/out/libgrainlantern_c.a";
const KEEP_ALL: &str = "crates/grainlantern/data/keep-all.filter";

/// A file of this test run.
fn scratch(name: &str) -> PathBuf {
    Path::new(env!("CARGO_TARGET_TMPDIR")).join(format!("c-example-{name}"))
}

fn written(name: &str, bytes: &[u8]) -> PathBuf {
    let file = scratch(name);
    fs::write(&file, bytes).unwrap();
    file
}

fn run(command: &mut Command) -> Output {
    command
        .output()
        .unwrap_or_else(|why| panic!("{command:?}: {why}"))
}

/// Runs a command that has to succeed and to say nothing.
fn quietly(command: &mut Command) {
    let output = run(command);
    assert!(
        output.status.success() && output.stdout.is_empty() && output.stderr.is_empty(),
        "{command:?}: {output:?}"
    );
}

/// A compiler of a language, strict, that knows the header.
fn compiler(name: &str, language: [&str; 2]) -> Command {
    let mut command = Command::new(name);
    command
        .args(language)
        .args(STRICT)
        .arg("-I")
        .arg(path("include"));
    command
}

fn c99() -> Command {
    compiler("gcc", ["-std=c99", "-xc"])
}

fn cpp() -> Command {
    compiler("g++", ["-std=c++11", "-xc++"])
}

/// Builds a source against the archive.
fn built(mut compiler: Command, source: &str, name: &str) -> PathBuf {
    let program = scratch(name);
    quietly(
        compiler
            .arg("-o")
            .arg(&program)
            .arg(path(source))
            .args(["-xnone", "-pthread"])
            .arg(path(ARCHIVE)),
    );
    program
}

/// The example, built once.
fn example() -> Command {
    static BUILT: OnceLock<PathBuf> = OnceLock::new();
    Command::new(BUILT.get_or_init(|| built(c99(), "examples/c/filter.c", "filter")))
}

fn filtered(filter: &Path, records: &Path) -> Output {
    run(example().arg(filter).arg(records))
}

fn said(output: &Output) -> String {
    String::from_utf8_lossy(&output.stderr).into_owned()
}

/// The summary of a run that came to its end.
fn summary(records: &Path, tally: [usize; 4]) -> String {
    let [seen, kept, dropped, refused] = tally;
    let name = records.display();
    format!("filter: {name}: seen {seen}, kept {kept}, dropped {dropped}, refused {refused}\n")
}

#[test]
fn the_examples_give_their_lines() {
    let examples = examples();
    for (filter, dump) in &examples {
        let output = filtered(filter, dump);
        assert!(output.status.success(), "{output:?}");
        let wanted = fs::read(filter.with_extension("lines")).unwrap();
        assert!(output.stdout == wanted, "{}", filter.display());
    }
    assert_eq!(examples.len(), 7);
}

#[test]
fn real_dumps_give_their_lines_and_their_tally() {
    for (name, tally) in [("frr", [414, 313, 0, 101]), ("gobgp", [549, 549, 0, 0])] {
        let records = path(&format!("tests/real/{name}.mrt"));
        let output = filtered(&path(KEEP_ALL), &records);
        assert!(output.status.success(), "{output:?}");
        assert!(
            output.stdout == stored(&format!("tests/real/{name}.lines")),
            "{name}: the lines differ"
        );
        assert_eq!(said(&output), summary(&records, tally));
    }
}

/// A run that the program grainlantern would read only the beginning of, and its lines.
fn long_run() -> (Vec<u8>, Vec<u8>) {
    let of = |kind| {
        [
            stored(&format!("tests/real/gobgp.{kind}")),
            stored(&format!("tests/real/frr.{kind}")),
        ]
        .concat()
        .repeat(9)
    };
    (of("mrt"), of("lines"))
}

#[test]
fn a_file_of_any_size_is_read() {
    let (records, lines) = long_run();
    let file = written("long.mrt", &records);
    let output = filtered(&path(KEEP_ALL), &file);
    assert!(output.status.success(), "{output:?}");
    assert!(output.stdout == lines, "the lines differ");

    // from a pipe too, whose size isn't known
    let output = run(Command::new("sh")
        .args(["-c", r#"cat "$0" | "$1" "$2" /dev/stdin"#])
        .args([&*file, Path::new(example().get_program())])
        .arg(path(KEEP_ALL)));
    assert!(output.status.success(), "{output:?}");
    assert!(output.stdout == lines, "the lines differ");

    let empty = written("empty.mrt", b"");
    let output = filtered(&path(KEEP_ALL), &empty);
    assert!(output.status.success(), "{output:?}");
    assert_eq!(output.stdout, b"");
    assert_eq!(said(&output), summary(&empty, [0; 4]));
}

#[test]
fn a_bad_filter_gives_its_number_and_place() {
    let path_of = |items| format!("-aspath '{}'", vec!["."; items].join(" "));
    let refusals = [
        (" ".repeat(4097), "1 at 0"),
        ("-loops\t\x7f".to_owned(), "2 at 7"),
        ("-aspath '5".to_owned(), "3 at 8"),
        ("-loops )".to_owned(), "4 at 7"),
        (String::new(), "4 at 0"),
        ("-type 256".to_owned(), "5 at 6"),
        ("!".repeat(33) + "-loops", "6 at 32"),
        (path_of(512), "7 at 0"),
    ];
    for (at, (text, refusal)) in refusals.into_iter().enumerate() {
        let filter = written(&format!("bad-{at}.filter"), text.as_bytes());
        let output = filtered(&filter, &path("examples/updates.mrt"));
        assert_eq!(output.status.code(), Some(1), "{output:?}");
        assert_eq!(output.stdout, b"");
        let beginning = format!("filter: {}: refused {refusal}: ", filter.display());
        assert!(said(&output).starts_with(&beginning), "{output:?}");
        assert_eq!(said(&output).lines().count(), 1, "{output:?}");
    }
}

#[test]
fn what_is_cut_at_the_end_is_told() {
    let updates = stored("examples/updates.mrt");
    for (size, tally, left) in [(1000, [9, 9, 0, 0], 42), (961, [9, 9, 0, 0], 3)] {
        let records = written(&format!("cut-{size}.mrt"), &updates[..size]);
        let output = filtered(&path(KEEP_ALL), &records);
        assert_eq!(output.status.code(), Some(2), "{output:?}");
        let name = records.display();
        let cut =
            format!("filter: {name}: cut: the {left} bytes from byte 958 on are no whole record\n");
        assert_eq!(said(&output), summary(&records, tally) + &cut);
        let whole = written("whole.mrt", &updates[..958]);
        assert_eq!(output.stdout, filtered(&path(KEEP_ALL), &whole).stdout);
    }
}

#[test]
fn refused_records_are_counted_and_passed_over() {
    let records = path("crates/grainlantern/stdin");
    let output = filtered(&path(KEEP_ALL), &records);
    assert_eq!(output.status.code(), Some(2), "{output:?}");
    assert_eq!(output.stdout, stored("crates/grainlantern/stdout"));
    assert!(
        said(&output).starts_with(&summary(&records, [7, 5, 0, 2])),
        "{output:?}"
    );
}

#[test]
fn what_cannot_be_read_or_written_is_told() {
    let filter = path(KEEP_ALL);
    let updates = path("examples/updates.mrt");
    for (filter, records, bad) in [
        (Path::new("no/such/file"), &*updates, "no/such/file"),
        (&*filter, Path::new("no/such/file"), "no/such/file"),
        (&*filter, Path::new("/"), "/"),
    ] {
        let output = filtered(filter, records);
        assert_eq!(output.status.code(), Some(1), "{output:?}");
        assert_eq!(output.stdout, b"");
        assert!(
            said(&output).starts_with(&format!("filter: {bad}: ")),
            "{output:?}"
        );
    }
    for arguments in [&[][..], &[&filter], &[&filter, &updates, &updates]] {
        let output = run(example().args(arguments));
        assert_eq!(output.status.code(), Some(1), "{output:?}");
        assert_eq!(said(&output), "usage: filter FILTERFILE RECORDFILE\n");
    }
    let full = fs::OpenOptions::new()
        .write(true)
        .open("/dev/full")
        .unwrap();
    let output = run(example().arg(&filter).arg(&updates).stdout(full));
    assert_eq!(output.status.code(), Some(1), "{output:?}");
    assert!(
        said(&output).starts_with("filter: standard output: "),
        "{output:?}"
    );
}

#[test]
fn the_makefile_builds_it() {
    let folder = scratch("make");
    fs::create_dir_all(&folder).unwrap();
    let _ = fs::remove_file(folder.join("filter"));
    let make = || {
        let mut command = Command::new("make");
        command.arg("-C").arg(path("examples/c"));
        command
    };
    let output = run(make().arg(format!("OUT={}", folder.display())));
    assert!(output.status.success(), "{output:?}");
    assert!(folder.join("filter").exists());
    // where there is no archive, it is built first
    let output = run(make().args(["-n", "ARCHIVE=no-such-archive.a"]));
    assert!(output.status.success(), "{output:?}");
    let commands = String::from_utf8_lossy(&output.stdout).into_owned();
    assert!(
        commands.contains("crates/grainlantern_c && rt lib"),
        "{commands}"
    );
}

#[test]
fn the_header_is_c99_and_cpp_and_says_what_holds() {
    for (name, compiler) in [("c", c99()), ("cpp", cpp())] {
        let program = built(
            compiler,
            "tests/c/interface.c",
            &format!("interface-{name}"),
        );
        quietly(&mut Command::new(program));
    }
    // the header alone, twice, in the oldest C++ that knows its types
    let source = written(
        "twice.cpp",
        "#include <grainlantern.h>\n".repeat(2).as_bytes(),
    );
    quietly(cpp().arg("-fsyntax-only").arg(source));
}

#[test]
fn the_header_names_every_number_once() {
    let header = String::from_utf8(stored("include/grainlantern.h")).unwrap();
    let numbers = |name: &str| -> Vec<u32> {
        let (_, text) = header.split_once(&format!("enum {name} {{")).expect(name);
        text.split('}')
            .next()
            .unwrap()
            .lines()
            .filter_map(|line| line.split_once(" = "))
            .map(|(_, rest)| {
                let end = rest.find(|c: char| !c.is_ascii_digit());
                rest[..end.unwrap_or(rest.len())].parse().unwrap()
            })
            .collect()
    };
    let judged: Vec<u32> = (0..=1).chain(11..=21).collect();
    assert_eq!(numbers("grainlantern_compiled"), Vec::from_iter(0..=8));
    assert_eq!(numbers("grainlantern_judged"), judged);
    assert_eq!(numbers("grainlantern_stepped"), [0, 1, 2]);
}

#[test]
fn the_header_and_the_crate_have_the_same_sizes() {
    let header = String::from_utf8(stored("include/grainlantern.h")).unwrap();
    for (name, size) in [
        ("TEXT_LIMIT", grainlantern::TEXT_LIMIT),
        ("LEVEL_LIMIT", grainlantern::LEVEL_LIMIT),
        ("WEIGHT_LIMIT", grainlantern::WEIGHT_LIMIT),
        ("PROGRAM_RECORD_SIZE", grainlantern::ProgramRecord::SIZE),
        ("PROGRAM_ROOM", grainlantern::PROGRAM_ROOM),
        ("HEADER_SIZE", grainlantern::HEADER_SIZE),
        ("RECORD_LIMIT", grainlantern::RECORD_LIMIT),
        ("LINE_ROOM", grainlantern::LINE_ROOM),
    ] {
        let line = format!("#define GRAINLANTERN_{name} {size}");
        assert!(header.lines().any(|row| row == line), "{line}");
    }
}

#[test]
fn pieces_give_the_lines_of_a_file_of_any_size() {
    if Command::new("python3").arg("--version").output().is_err() {
        eprintln!("python3 is not on PATH: examples/pieces.py wasn't run");
        return;
    }
    let pieces = |filter: &Path, records: &Path| {
        run(Command::new("python3")
            .arg(path("examples/pieces.py"))
            .arg(filter)
            .arg(records))
    };
    let (records, lines) = long_run();
    let output = pieces(&path(KEEP_ALL), &written("pieces.mrt", &records));
    assert!(output.status.success(), "{output:?}");
    assert!(output.stdout == lines, "the lines differ");

    // a record that is longer than a piece, and one that is cut, print nothing
    let updates = stored("examples/updates.mrt");
    let mut longer = vec![0; 70_000];
    longer[8..12].copy_from_slice(&(70_000u32 - 12).to_be_bytes());
    let run = [&updates[..], &longer, &updates, &updates[..1000 - 958]].concat();
    let output = pieces(&path("examples/loops.filter"), &written("longer.mrt", &run));
    assert!(output.status.success(), "{output:?}");
    assert_eq!(output.stdout, stored("examples/loops.lines").repeat(2));

    let bad = written("bad-pieces.filter", b"-loops )");
    let output = pieces(&bad, &path("examples/updates.mrt"));
    assert_eq!(output.status.code(), Some(1), "{output:?}");
    assert_eq!(output.stdout, b"");
    assert!(said(&output).ends_with(": refused 4 at 7\n"), "{output:?}");
}
