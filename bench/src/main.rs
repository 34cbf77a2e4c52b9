//! `bench usual FILE BYTES DUMP...`, `bench long FILE BYTES DUMP...` and `bench full FILE BYTES DUMP...` write a file of updates, without long paths, with these
//! only, or with paths of 255 numbers; `bench ours FILTER FILE` and `bench rust FILTER FILE` judge it and print seconds, records, kept records, bytes of
//! lines and their hash.

mod dump;

use std::time::Instant;
use std::{env, fs};

use grainlantern::{Program, Records, Verdict, LINE_ROOM};
use reference::{Filter, Step};

/// What came out of a run.
#[derive(Default)]
struct Output {
    records: u64,
    kept: u64,
    bytes: u64,
    hash: u64,
}

impl Output {
    /// Takes the lines of a kept record, eight bytes at a time, so that looking at them costs little beside writing them.
    fn take(&mut self, lines: &[u8]) {
        self.kept += 1;
        self.bytes += lines.len() as u64;
        let mut words = lines.chunks_exact(8);
        for word in &mut words {
            self.mix(u64::from_le_bytes(word.try_into().expect("eight bytes")));
        }
        let mut last = [0; 8];
        let rest = words.remainder();
        last[..rest.len()].copy_from_slice(rest);
        self.mix(u64::from_le_bytes(last));
    }

    fn mix(&mut self, word: u64) {
        self.hash = (self.hash.rotate_left(23) ^ word).wrapping_mul(0x9E37_79B9_7F4A_7C15);
    }
}

/// The proved archive. The line buffer is cleared once, not for each record.
#[inline(never)]
fn judge_ours(program: &Program, run: &[u8]) -> Output {
    let mut lines = vec![0; LINE_ROOM];
    let mut output = Output::default();
    for record in Records::new(run) {
        output.records += 1;
        if let Ok(Verdict::Kept { written, .. }) = program.judge(record, &mut lines) {
            output.take(&lines[..written]);
        }
    }
    output
}

/// The same work in ordinary Rust, with a line buffer that grows once.
#[inline(never)]
fn judge_rust(filter: &Filter, run: &[u8]) -> Output {
    let mut lines = Vec::with_capacity(LINE_ROOM);
    let mut output = Output::default();
    let mut at = 0;
    while let Step::Record(record) = reference::step(run, at) {
        output.records += 1;
        lines.clear();
        if filter
            .judge(record, &mut lines)
            .is_ok_and(|verdict| verdict.keep)
        {
            output.take(&lines);
        }
        at += record.len();
    }
    output
}

fn timed(judge: impl FnOnce() -> Output) {
    let start = Instant::now();
    let output = judge();
    let seconds = start.elapsed().as_secs_f64();
    let Output {
        records,
        kept,
        bytes,
        hash,
    } = output;
    println!("{seconds:.6} {records} {kept} {bytes} {hash:016x}");
}

fn main() {
    let words: Vec<String> = env::args().skip(1).collect();
    let words: Vec<&str> = words.iter().map(String::as_str).collect();
    let read = |name: &str| fs::read(name).unwrap_or_else(|why| panic!("{name}: {why}"));
    match words[..] {
        [paths @ ("usual" | "long" | "full"), name, bytes, ref dumps @ ..] => {
            let bytes = bytes.parse().expect("a number of bytes");
            let dumps: Vec<Vec<u8>> = dumps.iter().map(|name| read(name)).collect();
            let run = match paths {
                "full" => dump::full_paths(&dumps, bytes),
                _ => dump::updates(&dumps, bytes, paths == "long"),
            };
            fs::write(name, run).expect(name);
        }
        ["ours", text, name] => {
            let run = read(name);
            let program = Program::compile(text).expect(text);
            timed(|| judge_ours(&program, &run));
        }
        ["rust", text, name] => {
            let run = read(name);
            let program = reference::compile(text.as_bytes(), grainlantern::PROGRAM_ROOM);
            let filter = program.ok().and_then(|program| Filter::new(&program));
            let filter = filter.expect(text);
            timed(|| judge_rust(&filter, &run));
        }
        _ => panic!("usual, long or full FILE BYTES DUMP.., ours or rust FILTER FILE"),
    }
}
