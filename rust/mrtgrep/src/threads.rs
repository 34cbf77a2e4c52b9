//! Has all batches read, judged and taken in their order, on one thread or on several.
//!
//! Of several, one reads, others judge, and the caller's takes what was judged. Each batch goes to the next thread in turn
//! and is taken in the same turn, so the order needs no numbers. A fixed number of batches goes round, which bounds the
//! memory.

use std::io;
use std::sync::mpsc::{channel, Receiver, Sender};
use std::sync::Arc;
use std::thread::{Builder, JoinHandle};

use crate::batch::Batch;
use crate::collect::Collector;
use crate::judge::Judge;
use crate::reader::Reader;

/// The batches for each judging thread: one that it judges, and one that waits for it.
const BATCHES_A_THREAD: usize = 2;

/// The batches besides: one that is read, and one that is written.
const BATCHES_BESIDES: usize = 2;

/// A thread that judges, and what it has judged.
struct Worker {
    judged: Receiver<Batch>,
    thread: JoinHandle<()>,
}

/// Does all on this thread.
pub fn run_alone(judge: &Judge, mut reader: Reader, collector: &mut Collector) {
    let mut batch = Batch::new();
    while reader.fill(&mut batch) {
        judge.judge(&mut batch, collector.wanted());
        if collector.take(&batch).is_break() {
            return;
        }
    }
}

/// Judges on so many threads; an error where one can't be started.
///
/// Where the run stops early the threads are left behind: the one that reads may wait for input that never comes.
pub fn run(
    threads: usize,
    judge: Arc<Judge>,
    reader: Reader,
    collector: &mut Collector,
) -> io::Result<()> {
    let mut queues = Vec::new();
    let mut workers = Vec::new();
    for _ in 0..threads {
        let (queue, waiting) = channel();
        queues.push(queue);
        workers.push(start_worker(judge.clone(), collector.wanted(), waiting)?);
    }
    let (free, unused) = channel();
    for _ in 0..BATCHES_A_THREAD * threads + BATCHES_BESIDES {
        let _ = free.send(Batch::new());
    }
    let reading = Builder::new().spawn(move || feed(reader, unused, queues))?;

    let mut turn = 0;
    while let Ok(mut batch) = workers[turn].judged.recv() {
        // its thread couldn't know how many were kept before
        if batch.answers.counts.kept >= collector.wanted() {
            judge.judge(&mut batch, collector.wanted());
        }
        if collector.take(&batch).is_break() {
            return Ok(());
        }
        // when all is read no one waits for it
        let _ = free.send(batch);
        turn = (turn + 1) % threads;
    }
    join(workers.swap_remove(turn).thread);
    join(reading);
    Ok(())
}

/// Fills unused batches for the threads in turn.
fn feed(mut reader: Reader, unused: Receiver<Batch>, queues: Vec<Sender<Batch>>) {
    for queue in queues.iter().cycle() {
        let Ok(mut batch) = unused.recv() else {
            return;
        };
        if !reader.fill(&mut batch) || queue.send(batch).is_err() {
            return;
        }
    }
}

fn start_worker(judge: Arc<Judge>, wanted: u64, waiting: Receiver<Batch>) -> io::Result<Worker> {
    let (done, judged) = channel();
    let thread = Builder::new().spawn(move || {
        for mut batch in waiting {
            judge.judge(&mut batch, wanted);
            if done.send(batch).is_err() {
                return;
            }
        }
    })?;
    Ok(Worker { judged, thread })
}

/// Sees to it that a thread that failed isn't taken for one that has no more to do.
fn join(thread: JoinHandle<()>) {
    thread.join().expect("a thread failed");
}
