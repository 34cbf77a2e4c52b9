//! Takes judged batches in the records' order: writes lines, counts, and tells what is to be told.

use std::fmt::Display;
use std::io::ErrorKind;
use std::ops::ControlFlow;
use std::time::Instant;

use crate::arguments::Options;
use crate::batch::{Batch, End, EndKind};
use crate::counts::Counts;
use crate::input::Input;
use crate::messages::{words, Messages};
use crate::output::Output;
use crate::packing::Packing;
use crate::status::Status;

pub struct Collector<'a> {
    options: &'a Options,
    output: Output,
    messages: Messages,
    /// The kept records that are still wanted.
    wanted: u64,
    /// The file whose batches come.
    file: FileRun,
    all: Counts,
    started: Instant,
    /// The statistics of the files before.
    rows: Vec<String>,
    is_wrong: bool,
}

/// What was seen of a file.
struct FileRun {
    /// Which of the inputs it is.
    input: usize,
    counts: Counts,
    started: Instant,
}

impl FileRun {
    fn new(input: usize) -> FileRun {
        FileRun {
            input,
            counts: Counts::default(),
            started: Instant::now(),
        }
    }
}

impl<'a> Collector<'a> {
    pub fn new(options: &'a Options, output: Output, messages: Messages) -> Collector<'a> {
        Collector {
            options,
            output,
            messages,
            wanted: options.wanted(),
            file: FileRun::new(0),
            all: Counts::default(),
            started: Instant::now(),
            rows: Vec::new(),
            is_wrong: false,
        }
    }

    /// The kept records that are still wanted.
    pub fn wanted(&self) -> u64 {
        self.wanted
    }

    /// Takes the next batch, of which no more were judged than are wanted; breaks where nothing more is to be read.
    pub fn take(&mut self, batch: &Batch) -> ControlFlow<()> {
        let answers = &batch.answers;
        self.file.counts += &answers.counts;
        self.all += &answers.counts;
        self.wanted -= answers.counts.kept;
        self.report(batch);
        self.write(answers.lines())?;
        if self.wanted == 0 {
            self.close_file()?;
            return ControlFlow::Break(());
        }
        let Some(end) = &batch.end else {
            self.messages.show_progress(self.all.bytes, self.all.kept);
            return ControlFlow::Continue(());
        };
        self.end_file(end, batch.past.offset)
    }

    /// Tells the records that aren't judged.
    fn report(&mut self, batch: &Batch) {
        let name = self.name();
        let rows: Vec<String> = batch
            .answers
            .refused
            .iter()
            .map(|(place, refusal)| {
                let (number, words) = (refusal.number(), refusal.words());
                format!("{name}: byte {place}: {words} (refused {number})")
            })
            .collect();
        self.messages.say_all(&rows);
    }

    /// Writes; a write that fails ends the run. Where the reader of a pipe has closed it, that is no fault: nothing is
    /// told, and the exit status is the one that the run has so far, 0 where a record was kept and nothing was wrong.
    fn write(&mut self, bytes: &[u8]) -> ControlFlow<()> {
        if self.options.quiet || bytes.is_empty() {
            return ControlFlow::Continue(());
        }
        let Err(why) = self.output.write(bytes) else {
            return ControlFlow::Continue(());
        };
        if why.kind() != ErrorKind::BrokenPipe {
            self.is_wrong = true;
            self.messages
                .say(format!("{}: {}", self.output.name(), words(&why)));
        }
        ControlFlow::Break(())
    }

    /// Tells how a file ends, at the place behind its last whole record.
    fn end_file(&mut self, end: &End, place: u64) -> ControlFlow<()> {
        let packing = end.packing.filter(|_| self.file.counts.judged() == 0);
        match &end.kind {
            EndKind::Done => {}
            EndKind::Cut(left) => self.tell_cut(*left, place, packing.is_some()),
            EndKind::Failed(why) => {
                self.is_wrong = true;
                self.tell(words(why));
                if self.file.counts.bytes == 0 {
                    // of what can't be read at all there is nothing to count
                    self.next_file();
                    return ControlFlow::Continue(());
                }
            }
        }
        match packing {
            Some(packing) => self.tell_packed(packing),
            None => self.tell_unjudged(),
        }
        self.close_file()
    }

    fn tell_cut(&mut self, left: u64, place: u64, is_packed: bool) {
        self.is_wrong = true;
        self.file.counts.bytes += left;
        self.all.bytes += left;
        // of a packed file it is no news
        if self.options.report || !is_packed {
            self.tell(format!(
                "cut in the middle of a record: bytes left from byte {place} on: {left}"
            ));
        }
    }

    fn tell_packed(&mut self, packing: Packing) {
        self.is_wrong = true;
        let Packing { name, command, .. } = packing;
        let file = self.name();
        self.tell(format!(
            "packed with {name}; use: {command} {file} | mrtgrep [OPTIONS] [EXPRESSION...]"
        ));
    }

    /// Tells a file that has records but none that could be judged; a report has told each.
    fn tell_unjudged(&mut self) {
        let counts = &self.file.counts;
        if self.options.report || counts.judged() > 0 {
            return;
        }
        let Some((refusal, count)) = counts.commonest() else {
            return;
        };
        let (seen, number, words) = (counts.seen(), refusal.number(), refusal.words());
        self.tell(format!(
            "no record could be judged (seen: {seen}); the commonest reason ({count}): {words} (refused {number})"
        ));
    }

    /// Keeps a file's statistics, writes its count, and goes on to the next.
    fn close_file(&mut self) -> ControlFlow<()> {
        self.add_row();
        let count = self.options.count.then(|| self.count_line());
        self.next_file();
        self.write(&count.unwrap_or_default())
    }

    fn next_file(&mut self) {
        self.file = FileRun::new(self.file.input + 1);
    }

    fn count_line(&self) -> Vec<u8> {
        let count = format!("{}\n", self.file.counts.kept).into_bytes();
        if self.options.inputs.len() == 1 {
            return count;
        }
        [self.name().as_bytes(), b":", &count].concat()
    }

    fn add_row(&mut self) {
        if self.options.stats {
            let FileRun {
                counts, started, ..
            } = &self.file;
            self.rows.push(row(self.name(), counts, *started));
        }
    }

    /// The name of the file whose batches come.
    fn name(&self) -> &'a Input {
        &self.options.inputs[self.file.input]
    }

    fn tell(&mut self, what: String) {
        self.messages.say(format!("{}: {what}", self.name()));
    }

    /// Ends the run.
    pub fn finish(mut self) -> Status {
        self.messages.end_progress();
        if self.options.stats {
            if self.file.counts.bytes > 0 {
                // a write failed in the middle of it
                self.add_row();
            }
            self.rows.push(row("all files", &self.all, self.started));
            self.messages.say_all(&self.rows);
        }
        let has_kept = self.all.kept > 0;
        let is_strict = self.options.strict && self.all.refused() > 0;
        match (self.is_wrong || is_strict, has_kept) {
            (_, true) if self.options.quiet => Status::Kept,
            (true, _) => Status::Wrong,
            (false, true) => Status::Kept,
            (false, false) => Status::NoneKept,
        }
    }
}

/// A line of statistics.
fn row(name: impl Display, counts: &Counts, started: Instant) -> String {
    let seconds = started.elapsed().as_secs_f64();
    format!("{name}: {counts}, {seconds:.3} seconds")
}
