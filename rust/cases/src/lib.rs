//! What the tests share: the archive's answers by number, stored files, and programs that are run.

use std::collections::BTreeMap;
use std::ffi::OsStr;
use std::path::PathBuf;
use std::process::{ChildStdin, Command, Output, Stdio};
use std::thread;

pub use grainlantern::raw::{compile, judge, judge_counted, step};
use grainlantern::Program;
pub use grainlantern::{Tally, LINE_ROOM};

/// The text of a filter that keeps every record.
pub const KEEP_ALL: &str = "-type 2 -or ! -type 2";

/// Record R of document 01, and its line.
pub const R: &str = "60B8D2CB00100004000000470003097C0000FBF400000001C0000201C0000202\
    FFFFFFFFFFFFFFFFFFFFFFFFFFFFFFFF003302000000184001010040020A02020003097C00000D05400304C0000201180A0102";
pub const R_LINE: &str = "+|10.1.2.0/24|199036 3333|192.0.2.1|i||||192.0.2.1 199036|1622725323|1\n";

/// The program of a text of the language.
pub fn program(text: &str) -> Vec<u8> {
    let program = Program::compile(text).unwrap_or_else(|why| panic!("{text}: {why}"));
    program.as_bytes().to_vec()
}

/// A path from the repository's top.
pub fn path(name: &str) -> PathBuf {
    PathBuf::from(env!("CARGO_MANIFEST_DIR"))
        .join("../..")
        .join(name)
}

/// A file of the repository.
pub fn stored(name: &str) -> Vec<u8> {
    std::fs::read(path(name)).unwrap_or_else(|why| panic!("{name}: {why}"))
}

/// The example filters, each with the dump that `examples/dumps.tsv` names for it.
pub fn examples() -> Vec<(PathBuf, PathBuf)> {
    let table = String::from_utf8(stored("examples/dumps.tsv")).unwrap();
    let dumps: BTreeMap<&str, &str> = table
        .lines()
        .skip(1)
        .map(|row| row.split_once('\t').expect(row))
        .collect();
    let files = path("examples").read_dir().unwrap();
    files
        .map(|entry| entry.unwrap().path())
        .filter(|file| file.extension() == Some(OsStr::new("filter")))
        .map(|file| {
            let name = file.file_name().unwrap().to_str().unwrap();
            let dump = dumps
                .get(name)
                .unwrap_or_else(|| panic!("examples/dumps.tsv has no {name}"));
            let dump = path("examples").join(dump);
            (file, dump)
        })
        .collect()
}

/// Runs a command whose standard input a function feeds, beside it.
pub fn fed(command: &mut Command, feed: impl FnOnce(ChildStdin) + Send + 'static) -> Output {
    let mut child = command
        .stdin(Stdio::piped())
        .stdout(Stdio::piped())
        .stderr(Stdio::piped())
        .spawn()
        .unwrap_or_else(|why| panic!("{command:?}: {why}"));
    let stdin = child.stdin.take().unwrap();
    let feeder = thread::spawn(move || feed(stdin));
    let output = child.wait_with_output().unwrap();
    feeder.join().unwrap();
    output
}

/// The rows of a table under `tests/cases`, without its heading.
pub fn rows(name: &str) -> Vec<Vec<String>> {
    let text = String::from_utf8(stored(&format!("tests/cases/{name}"))).expect(name);
    text.lines()
        .skip(1)
        .map(|row| row.split('\t').map(str::to_owned).collect())
        .collect()
}

/// Bytes from hex.
pub fn bytes(hex: &str) -> Vec<u8> {
    assert_eq!(hex.len() % 2, 0, "odd number of hex digits: {hex}");
    (0..hex.len() / 2)
        .map(|i| u8::from_str_radix(&hex[2 * i..2 * i + 2], 16).expect(hex))
        .collect()
}

/// The tally of a column: four counts, or `-` for none.
pub fn tally(column: &str) -> Option<Tally> {
    if column == "-" {
        return None;
    }
    let counts: Vec<u32> = column
        .split(',')
        .map(|count| count.parse().expect(column))
        .collect();
    let [seen, kept, dropped, refused] = counts[..] else {
        panic!("not four counts: {column}");
    };
    Some(Tally {
        seen,
        kept,
        dropped,
        refused,
    })
}
