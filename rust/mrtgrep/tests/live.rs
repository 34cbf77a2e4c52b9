//! A pipe that stays open: what was read is judged and written before it waits for more.

mod common;

use std::fs::{self, File};
use std::io::{BufRead, BufReader, Write};
use std::process::{Child, ChildStdin, Command, Stdio};
use std::sync::mpsc::{self, Receiver};
use std::thread::{self, sleep};
use std::time::{Duration, Instant};

use common::*;

/// A command that runs, with the pipe that feeds it and the lines that come out.
struct Live {
    child: Child,
    stdin: ChildStdin,
    lines: Receiver<String>,
}

fn live(command: &mut Command) -> Live {
    let mut child = started(command.stdin(Stdio::piped()));
    let stdin = child.stdin.take().unwrap();
    let stdout = child.stdout.take().unwrap();
    let (sender, lines) = mpsc::channel();
    thread::spawn(move || {
        for line in BufReader::new(stdout).lines() {
            let _ = sender.send(line.unwrap() + "\n");
        }
    });
    Live {
        child,
        stdin,
        lines,
    }
}

impl Live {
    fn write(&mut self, bytes: &[u8]) {
        self.stdin.write_all(bytes).unwrap();
    }

    /// The next line, which has to come while the pipe is open.
    #[track_caller]
    fn line(&self) -> String {
        self.lines
            .recv_timeout(STUCK)
            .expect("a line, while the pipe is open")
    }

    /// Closes the pipe, and waits for the end.
    #[track_caller]
    fn closed(mut self) -> (Option<i32>, String) {
        drop(self.stdin);
        let ran = outcome(&mut self.child);
        assert_eq!(self.lines.recv(), Err(mpsc::RecvError), "no further line");
        (ran.code, ran.said)
    }
}

#[test]
fn a_line_comes_out_while_the_pipe_is_open() {
    for jobs in ["1", "2", "4"] {
        let mut live = live(mrtgrep().args(["-j", jobs]));
        for _ in 0..3 {
            live.write(&bytes(R));
            assert_eq!(live.line(), R_LINE);
        }
        // half a record more holds none back
        live.write(&bytes(R));
        live.write(&bytes(R)[..40]);
        assert_eq!(live.line(), R_LINE);
        live.write(&bytes(R)[40..]);
        assert_eq!(live.line(), R_LINE);
        // nor does one that is passed over
        live.write(&padding(9000));
        live.write(&bytes(R));
        assert_eq!(live.line(), R_LINE);
        assert_eq!(live.closed(), (Some(0), String::new()));
    }
}

#[test]
fn a_burst_comes_out_whole() {
    for jobs in ["1", "2", "4"] {
        let mut live = live(mrtgrep().args(["-j", jobs]));
        let run = stored("tests/real/gobgp.mrt");
        let lines = stored_text("tests/real/gobgp.lines");
        for _ in 0..2 {
            live.write(&run);
            for line in lines.lines() {
                assert_eq!(live.line().trim_end(), line);
            }
        }
        assert_eq!(live.closed(), (Some(0), String::new()));
    }
}

#[test]
fn lines_reach_a_file_while_the_pipe_is_open() {
    let folder = Folder::new("live-file");
    let mut live = live(&mut folder.mrtgrep(["-o", "out"]));
    live.write(&bytes(R));
    let begun = Instant::now();
    while fs::read(folder.path("out")).unwrap_or_default() != R_LINE.as_bytes() {
        assert!(begun.elapsed() < STUCK, "no line in the file");
        sleep(Duration::from_millis(5));
    }
    assert_eq!(live.closed(), (Some(0), String::new()));
}

#[test]
fn the_first_kept_record_is_enough_for_quiet() {
    for arguments in [&["-q"][..], &["-q", "-j", "1"], &["-q", "-j", "4", "-c"]] {
        let mut live = live(mrtgrep().args(arguments).args(["-peer", "199036"]));
        live.write(&other_peer());
        live.write(&bytes(R));
        // it ends while the pipe is open
        let ran = outcome(&mut live.child);
        assert_eq!((ran.code, &*ran.said), (Some(0), ""));
        assert!(live.lines.recv().is_err());
    }
}

#[test]
fn so_many_kept_records_are_enough() {
    for jobs in ["1", "2", "4"] {
        let mut live = live(mrtgrep().args(["-j", jobs, "-m", "2"]));
        live.write(&bytes(R));
        assert_eq!(live.line(), R_LINE);
        live.write(&bytes(R));
        assert_eq!(live.line(), R_LINE);
        let ran = outcome(&mut live.child);
        assert_eq!((ran.code, &*ran.said), (Some(0), ""));
    }
    // and none is at once
    let mut live = live(mrtgrep().args(["-m", "0"]));
    let ran = outcome(&mut live.child);
    assert_eq!((ran.code, &*ran.said), (Some(1), ""));
}

#[test]
fn a_named_pipe_is_a_file() {
    let folder = Folder::new("fifo").with("r.mrt", bytes(R));
    let pipe = folder.path("pipe");
    let made = Command::new("mkfifo").arg(&pipe).status().expect("mkfifo");
    assert!(made.success());
    let writer = thread::spawn(move || {
        let mut file = File::create(pipe).unwrap();
        file.write_all(&stored("tests/real/gobgp.mrt")).unwrap();
        file.write_all(&stored("tests/real/gobgp.mrt")).unwrap();
    });
    let lines = stored("tests/real/gobgp.lines").repeat(2);
    folder
        .run(["pipe", "r.mrt"])
        .gave(0, [&lines[..], R_LINE.as_bytes()].concat())
        .silently();
    writer.join().unwrap();
}
