//! What the tests of the command share: the built command, folders of a test's own, stored files, and records with what is known of them.

// each test file uses a part of it
#![allow(dead_code)]

use std::fs;
use std::io::{Read, Write};
use std::net::Shutdown;
use std::os::fd::OwnedFd;
use std::os::unix::net::UnixDatagram;
use std::path::{Path, PathBuf};
use std::process::{Child, ChildStdin, Command, Stdio};
use std::sync::atomic::{AtomicUsize, Ordering};
use std::thread::{self, sleep, JoinHandle};
use std::time::{Duration, Instant};

/// Record R of document 01, and its line.
pub const R: &str = "60B8D2CB00100004000000470003097C0000FBF400000001C0000201C0000202\
    FFFFFFFFFFFFFFFFFFFFFFFFFFFFFFFF003302000000184001010040020A02020003097C00000D05400304C0000201180A0102";
pub const R_LINE: &str = "+|10.1.2.0/24|199036 3333|192.0.2.1|i||||192.0.2.1 199036|1622725323|1\n";

/// The text of a filter that keeps every record: the one of a command without a filter.
pub const KEEP_ALL: &str = "-type UPDATE -or ! -type UPDATE";

/// The words of the refusals 11 to 18 of a record.
pub const WORDS: [&str; 8] = [
    "the record's size is wrong",
    "the record is no BGP4MP message",
    "the peer part is cut, or not of IPv4",
    "the BGP message's marker or length is wrong",
    "the sections of the UPDATE don't fit",
    "an attribute overruns, or its code comes twice",
    "the body of a checked attribute is wrong",
    "a prefix is wrong",
];

/// What -r tells of a record.
pub fn reported(name: &str, offset: usize, number: u32) -> String {
    let words = WORDS[number as usize - 11];
    format!("mrtgrep: {name}: byte {offset}: {words} (refused {number})")
}

/// What is told of a file that ends in the middle of a record.
pub fn cut(name: &str, left: usize, offset: usize) -> String {
    format!("mrtgrep: {name}: cut in the middle of a record: bytes left from byte {offset} on: {left}\n")
}

/// The most that a run may take before it is taken for stuck.
pub const STUCK: Duration = Duration::from_secs(60);

pub fn mrtgrep() -> Command {
    Command::new(env!("CARGO_BIN_EXE_mrtgrep"))
}

/// A path from the repository's top.
pub fn path(name: &str) -> PathBuf {
    Path::new(env!("CARGO_MANIFEST_DIR"))
        .join("../..")
        .join(name)
}

/// A file of the repository.
pub fn stored(name: &str) -> Vec<u8> {
    fs::read(path(name)).unwrap_or_else(|why| panic!("{name}: {why}"))
}

/// A file of the repository, as text.
pub fn stored_text(name: &str) -> String {
    String::from_utf8(stored(name)).expect(name)
}

/// Bytes from hex.
pub fn bytes(hex: &str) -> Vec<u8> {
    (0..hex.len() / 2)
        .map(|i| u8::from_str_radix(&hex[2 * i..2 * i + 2], 16).expect(hex))
        .collect()
}

/// A folder of one test, which goes with it.
pub struct Folder(PathBuf);

impl Folder {
    pub fn new(name: &str) -> Folder {
        Folder::within(Path::new(env!("CARGO_TARGET_TMPDIR")), name)
    }

    /// One in memory where the machine has that, for files with holes: a hole on a disk takes a page for each that is read.
    pub fn in_memory(name: &str) -> Folder {
        let memory = Path::new("/dev/shm");
        if memory.is_dir() {
            return Folder::within(memory, name);
        }
        Folder::new(name)
    }

    fn within(parent: &Path, name: &str) -> Folder {
        static COUNT: AtomicUsize = AtomicUsize::new(0);
        let count = COUNT.fetch_add(1, Ordering::Relaxed);
        let folder = format!("mrtgrep-{name}-{}-{count}", std::process::id());
        let folder = parent.join(folder);
        fs::create_dir_all(&folder).unwrap();
        Folder(folder)
    }

    pub fn path(&self, name: &str) -> PathBuf {
        self.0.join(name)
    }

    /// The folder, with one more file in it.
    pub fn with(self, name: &str, bytes: impl AsRef<[u8]>) -> Folder {
        fs::write(self.path(name), bytes).unwrap();
        self
    }

    pub fn read(&self, name: &str) -> Vec<u8> {
        fs::read(self.path(name)).unwrap_or_else(|why| panic!("{name}: {why}"))
    }

    /// The command, to be run within the folder.
    pub fn mrtgrep<'a>(&self, arguments: impl IntoIterator<Item = &'a str>) -> Command {
        let mut command = mrtgrep();
        command.args(arguments).current_dir(&self.0);
        command
    }

    /// Runs the command within the folder, with nothing on standard input.
    pub fn run<'a>(&self, arguments: impl IntoIterator<Item = &'a str>) -> Ran {
        run(self.mrtgrep(arguments).stdin(Stdio::null()))
    }

    /// Runs the command within the folder, with an input.
    pub fn fed<'a>(&self, arguments: impl IntoIterator<Item = &'a str>, input: &[u8]) -> Ran {
        fed(&mut self.mrtgrep(arguments), input)
    }
}

impl Drop for Folder {
    fn drop(&mut self) {
        let _ = fs::remove_dir_all(&self.0);
    }
}

/// What a run of the command gave.
#[derive(Debug)]
pub struct Ran {
    pub code: Option<i32>,
    pub out: Vec<u8>,
    pub said: String,
}

impl Ran {
    /// Holds the run to its exit status and to what it wrote.
    #[track_caller]
    pub fn gave(self, code: i32, out: impl AsRef<[u8]>) -> Ran {
        assert_eq!(self.code, Some(code), "exit status; it said: {}", self.said);
        let out = out.as_ref();
        assert!(
            self.out == out,
            "{} bytes written where {} were to be; it begins with {:?}, and it said: {}",
            self.out.len(),
            out.len(),
            String::from_utf8_lossy(&self.out[..self.out.len().min(200)]),
            self.said
        );
        self
    }

    /// Holds the run to have said nothing.
    #[track_caller]
    pub fn silently(self) -> Ran {
        assert_eq!(self.said, "");
        self
    }

    /// Holds the run to have said one line that begins with the command's name and has all of these.
    #[track_caller]
    pub fn saying(self, parts: &[&str]) -> Ran {
        assert_eq!(self.said.lines().count(), 1, "{}", self.said);
        self.telling(parts)
    }

    /// Holds the run to have said some line that begins with the command's name and has all of these.
    #[track_caller]
    pub fn telling(self, parts: &[&str]) -> Ran {
        let told = self.said.lines().any(|line| {
            line.starts_with("mrtgrep: ") && parts.iter().all(|part| line.contains(part))
        });
        assert!(told, "no line has {parts:?}: {}", self.said);
        self
    }
}

/// The numbers of a line, in their order; a comma between digits is passed over.
pub fn numbers(line: &str) -> Vec<u64> {
    let bytes = line.as_bytes();
    let digit = |at: usize| bytes.get(at).is_some_and(u8::is_ascii_digit);
    let mut found = Vec::new();
    let mut at = 0;
    while at < bytes.len() {
        if !digit(at) {
            at += 1;
            continue;
        }
        let mut number = String::new();
        while digit(at) || (bytes.get(at) == Some(&b',') && digit(at + 1)) {
            if digit(at) {
                number.push(char::from(bytes[at]));
            }
            at += 1;
        }
        found.push(number.parse().unwrap());
    }
    found
}

fn gathered(mut from: impl Read + Send + 'static) -> JoinHandle<Vec<u8>> {
    thread::spawn(move || {
        let mut bytes = Vec::new();
        let _ = from.read_to_end(&mut bytes);
        bytes
    })
}

/// Waits for a child, which has to end.
#[track_caller]
pub fn ended(child: &mut Child) -> Option<i32> {
    let begun = Instant::now();
    loop {
        if let Some(status) = child.try_wait().unwrap() {
            return status.code();
        }
        if begun.elapsed() > STUCK {
            let _ = child.kill();
            panic!("it didn't end");
        }
        sleep(Duration::from_millis(1));
    }
}

/// What a child, whose pipes are still whole, gives up to its end.
#[track_caller]
pub fn outcome(child: &mut Child) -> Ran {
    let out = child.stdout.take().map(gathered);
    let said = child.stderr.take().map(gathered);
    let code = ended(child);
    let bytes =
        |from: Option<JoinHandle<Vec<u8>>>| from.map_or(Vec::new(), |it| it.join().unwrap());
    Ran {
        code,
        out: bytes(out),
        said: String::from_utf8_lossy(&bytes(said)).into_owned(),
    }
}

/// Starts a command whose output, if it isn't set, and messages are gathered.
pub fn started(command: &mut Command) -> Child {
    command
        .stdout(Stdio::piped())
        .stderr(Stdio::piped())
        .spawn()
        .unwrap_or_else(|why| panic!("{command:?}: {why}"))
}

/// Runs a command, whose standard input is set.
#[track_caller]
pub fn run(command: &mut Command) -> Ran {
    outcome(&mut started(command))
}

/// Runs a command whose standard output goes to a file.
#[track_caller]
pub fn run_to(command: &mut Command, out: fs::File) -> Ran {
    let mut child = command
        .stdout(out)
        .stderr(Stdio::piped())
        .spawn()
        .unwrap_or_else(|why| panic!("{command:?}: {why}"));
    outcome(&mut child)
}

/// Runs a command with an input, through a pipe.
#[track_caller]
pub fn fed(command: &mut Command, input: &[u8]) -> Ran {
    let input = input.to_vec();
    fed_by(command, move |mut stdin| {
        // a command that has read enough doesn't read on
        let _ = stdin.write_all(&input);
    })
}

/// Runs a command whose standard input a function feeds, beside it.
#[track_caller]
pub fn fed_by(command: &mut Command, feed: impl FnOnce(ChildStdin) + Send + 'static) -> Ran {
    let mut child = started(command.stdin(Stdio::piped()));
    let stdin = child.stdin.take().unwrap();
    let feeder = thread::spawn(move || feed(stdin));
    let ran = outcome(&mut child);
    feeder.join().unwrap();
    ran
}

/// Runs a command whose standard input comes in pieces of so many bytes: a read of a datagram socket gives one piece, however much is asked for. Where
/// less is asked for the rest of the piece is lost, so it isn't for records that are passed over.
#[track_caller]
pub fn fed_in_pieces(command: &mut Command, input: &[u8], size: usize) -> Ran {
    let (ours, theirs) = UnixDatagram::pair().unwrap();
    let closing = theirs.try_clone().unwrap();
    let mut child = started(command.stdin(Stdio::from(OwnedFd::from(theirs))));
    let input = input.to_vec();
    let feeder = thread::spawn(move || {
        for piece in input.chunks(size) {
            ours.send(piece).unwrap();
        }
        // what was sent is still read, and then comes the end
        closing.shutdown(Shutdown::Read).unwrap();
    });
    let ran = outcome(&mut child);
    feeder.join().unwrap();
    ran
}

/// The records of a run, each of 12 bytes of header and as many more as the header's last four say.
pub fn records(run: &[u8]) -> Vec<&[u8]> {
    let mut found = Vec::new();
    let mut rest = run;
    while !rest.is_empty() {
        let length = u32::from_be_bytes(rest[8..12].try_into().unwrap());
        let (record, behind) = rest.split_at(12 + length as usize);
        found.push(record);
        rest = behind;
    }
    found
}

/// A record of zeros, which is of another type: refused 12, or 11 where it is over 8,192 bytes.
pub fn padding(size: usize) -> Vec<u8> {
    let mut record = vec![0; size];
    record[8..12].copy_from_slice(&(size as u32 - 12).to_be_bytes());
    record
}

/// R with another peer AS number, which `-peer 199036` drops.
pub fn other_peer() -> Vec<u8> {
    let mut record = bytes(R);
    record[15] = 0x7D;
    record
}

/// A KEEPALIVE of R's peer, which prints nothing where it is kept.
pub fn keepalive() -> Vec<u8> {
    let mut record = bytes(R)[..51].to_vec();
    record[8..12].copy_from_slice(&39u32.to_be_bytes());
    record[48..51].copy_from_slice(&[0, 19, 4]);
    record
}

/// Refused records, whose length is right, with their numbers: the rows of `tests/cases/records.tsv`, and one of each way to be told 11.
pub fn refused() -> Vec<(Vec<u8>, u32)> {
    let mut found: Vec<(Vec<u8>, u32)> = stored_text("tests/cases/records.tsv")
        .lines()
        .skip(1)
        .map(|row| {
            let mut columns = row.split('\t');
            let record = bytes(columns.next().unwrap());
            (record, columns.next().unwrap().parse().unwrap())
        })
        .filter(|(record, number)| {
            let length = record
                .get(8..12)
                .map(|field| u32::from_be_bytes(field.try_into().unwrap()));
            *number != 0 && length.is_some_and(|length| 12 + length as usize == record.len())
        })
        .collect();
    assert!(found.len() > 200, "{}", found.len());
    found.push((padding(8193), 11));
    found.push((padding(70_000), 11));
    found
}

/// Over 10,000 records: those of `examples/updates.mrt`, each before a refused one, over and over.
pub struct Mixed {
    pub run: Vec<u8>,
    /// Where each refused record begins, and its number.
    pub refused: Vec<(usize, u32)>,
}

/// How often the records of `examples/updates.mrt` stand in the mixed run.
pub const ROUNDS: usize = 24;
/// The records of `examples/updates.mrt`.
pub const UPDATES: usize = 209;

pub fn mixed() -> Mixed {
    let updates = stored("examples/updates.mrt");
    let wrong = refused();
    let mut wrong = wrong.iter().cycle();
    let mut mixed = Mixed {
        run: Vec::new(),
        refused: Vec::new(),
    };
    for _ in 0..ROUNDS {
        for record in records(&updates) {
            mixed.run.extend_from_slice(record);
            let (record, number) = wrong.next().unwrap();
            mixed.refused.push((mixed.run.len(), *number));
            mixed.run.extend_from_slice(record);
        }
    }
    assert_eq!(mixed.refused.len(), ROUNDS * UPDATES);
    assert!(2 * mixed.refused.len() >= 10_000);
    mixed
}

/// The example filters, with the records of their dumps that `tests/independent.py` keeps with each.
pub const EXAMPLES: [(&str, usize); 7] = [
    ("bogons", 1),
    ("hijack", 1),
    ("loops", 9),
    ("more-specifics", 7),
    ("tags", 3),
    ("window", 10),
    ("withdrawals", 4),
];

/// The path of an example's filter, and its lines.
pub fn example(name: &str) -> (String, Vec<u8>) {
    let filter = path(&format!("examples/{name}.filter"));
    let lines = stored(&format!("examples/{name}.lines"));
    (filter.to_str().unwrap().to_owned(), lines)
}

/// The name of the dump that an example is run on.
pub fn dump(name: &str) -> String {
    let table = stored_text("examples/dumps.tsv");
    let dump = table
        .lines()
        .find_map(|row| row.strip_prefix(&format!("{name}.filter\t")))
        .unwrap_or_else(|| panic!("examples/dumps.tsv has no {name}.filter"));
    format!("examples/{dump}")
}
