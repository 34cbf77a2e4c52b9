//! Files of over 100 MB and records of 4 GB, made here: all lines come, and memory stays as it is.

mod common;

use std::fs::{self, File};
use std::io::{BufWriter, Read, Seek, SeekFrom, Write};
use std::process::{Child, Stdio};
use std::thread;

use common::*;

/// How often `tests/real/gobgp.mrt` stands in a file of over 100 MB.
const COPIES: usize = 1540;
/// The most memory, in KiB, that the command may take at any size of input.
const MEMORY: u64 = 64 * 1024;

fn write_large(mut to: impl Write) {
    let dump = stored("tests/real/gobgp.mrt");
    assert!(dump.len() * COPIES > 100_000_000);
    for _ in 0..COPIES {
        to.write_all(&dump).unwrap();
    }
    to.flush().unwrap();
}

/// Holds what comes out to the dump's lines, so many times.
fn holds_lines(mut from: impl Read, copies: usize) {
    let lines = stored("tests/real/gobgp.lines");
    let mut copy = vec![0; lines.len()];
    for number in 0..copies {
        from.read_exact(&mut copy).unwrap();
        assert!(copy == lines, "the lines of copy {number} differ");
    }
}

/// The peak memory of a process that runs, in KiB.
fn peak(child: &Child) -> u64 {
    let status = fs::read_to_string(format!("/proc/{}/status", child.id())).unwrap();
    let line = status
        .lines()
        .find(|line| line.starts_with("VmHWM:"))
        .unwrap();
    numbers(line)[0]
}

#[test]
fn a_file_of_over_100_mb_gives_all_its_lines() {
    let folder = Folder::new("large");
    write_large(BufWriter::new(
        File::create(folder.path("large.mrt")).unwrap(),
    ));
    let mut child = started(folder.mrtgrep(["-s", "large.mrt"]).stdin(Stdio::null()));
    let mut stdout = child.stdout.take().unwrap();
    holds_lines(&mut stdout, COPIES);
    assert_eq!(stdout.read(&mut [0]).unwrap(), 0, "no further line");
    let ran = outcome(&mut child);
    assert_eq!(ran.code, Some(0), "{}", ran.said);
    let (records, bytes) = (549 * COPIES, 65518 * COPIES);
    let counts = format!(
        "mrtgrep: large.mrt: seen {records}, kept {records}, dropped 0, refused 0, {bytes} bytes, "
    );
    assert!(ran.said.starts_with(&counts), "{}", ran.said);
}

#[test]
fn a_pipe_of_over_100_mb_takes_no_more_memory() {
    for (jobs, filter) in [("1", KEEP_ALL), ("4", "-type 255")] {
        let mut command = mrtgrep();
        command.args(["-j", jobs, "-e", filter]);
        let mut child = started(command.stdin(Stdio::piped()));
        let mut stdin = child.stdin.take().unwrap();
        let mut stdout = child.stdout.take().unwrap();
        let kept = filter == KEEP_ALL;
        let reader = thread::spawn(move || {
            holds_lines(&mut stdout, if kept { COPIES } else { 0 });
            // the line of a last record, which is sent once memory was looked at
            let mut rest = Vec::new();
            stdout.read_to_end(&mut rest).unwrap();
            rest
        });
        write_large(&mut stdin);
        let memory = peak(&child);
        assert!(memory < MEMORY, "-j {jobs}: {memory} KiB");
        stdin.write_all(&bytes(R)).unwrap();
        drop(stdin);
        let rest = reader.join().unwrap();
        assert_eq!(rest, if kept { R_LINE.as_bytes() } else { b"" });
        let ran = outcome(&mut child);
        assert_eq!((ran.code, &*ran.said), (Some(i32::from(!kept)), ""));
    }
}

#[test]
fn a_record_of_4_gb_goes_by() {
    // a header that announces 4,294,967,295 bytes, that many (a hole in the file), and R
    let folder = Folder::in_memory("hole");
    let mut file = File::create(folder.path("hole.mrt")).unwrap();
    let mut header = padding(12);
    header[8..12].copy_from_slice(&u32::MAX.to_be_bytes());
    file.write_all(&header).unwrap();
    let behind = 12 + u64::from(u32::MAX);
    file.seek(SeekFrom::Start(behind)).unwrap();
    file.write_all(&bytes(R)).unwrap();
    drop(file);
    let ran = folder.run(["-r", "-s", "hole.mrt"]).gave(0, R_LINE);
    let report = reported("hole.mrt", 0, 11) + "\n";
    let counts = format!(
        "mrtgrep: hole.mrt: seen 2, kept 1, dropped 0, refused 1 (11: 1, {}), {} bytes, ",
        WORDS[0],
        behind + 83
    );
    assert!(ran.said.starts_with(&(report + &counts)), "{}", ran.said);
}
