//! A batch: whole records of one file, one after another, and what is answered of them.

use std::io;

use grainlantern::{NotJudged, Records, HEADER_SIZE, LINE_ROOM};

use crate::counts::Counts;
use crate::packing::Packing;

/// The bytes that are read at once: enough that a batch is worth a thread's turn, and few enough for a core's cache.
const BLOCK: usize = 1 << 18;

/// What a batch has to know of what came before it in its file, all of it: who judges a batch has nothing else of the
/// past. The reader, who sees the records in their order, carries it on by [`Batch::next_past`]. What later records refer
/// to, as a table of peers or pieces that came before, belongs here.
#[derive(Clone, Copy, Debug, Default)]
pub struct Past {
    /// The place in the file of the batch's first byte.
    pub offset: u64,
}

/// How a file ends.
#[derive(Debug)]
pub struct End {
    pub kind: EndKind,
    /// What the file is packed with, by its first bytes.
    pub packing: Option<Packing>,
}

#[derive(Debug)]
pub enum EndKind {
    /// After a whole record, or at once.
    Done,
    /// In the middle of a record, of which this many bytes are there.
    Cut(u64),
    /// It can't be opened, or read any further.
    Failed(io::Error),
}

/// A batch is used again and again: its buffers stay.
pub struct Batch {
    pub past: Past,
    /// The end of the file, where that comes behind the records.
    pub end: Option<End>,
    /// The bytes that were read, and room behind them.
    pub bytes: Vec<u8>,
    filled: usize,
    /// Where each record ends in the bytes.
    pub ends: Vec<usize>,
    /// The bytes of the file that the records take: more than are here for one over the limit.
    pub span: u64,
    pub answers: Answers,
}

/// What was answered of the records of a batch.
#[derive(Default)]
pub struct Answers {
    pub counts: Counts,
    /// The lines of the kept ones, and room behind them.
    lines: Vec<u8>,
    written: usize,
    /// The records that aren't judged, with their places in the file, where they are asked for.
    pub refused: Vec<(u64, NotJudged)>,
}

impl Batch {
    pub fn new() -> Batch {
        Batch {
            past: Past::default(),
            end: None,
            bytes: vec![0; BLOCK],
            filled: 0,
            ends: Vec::new(),
            span: 0,
            answers: Answers::default(),
        }
    }

    /// Begins anew with the first bytes of a record.
    pub fn begin(&mut self, past: Past, carried: &[u8]) {
        self.past = past;
        self.end = None;
        self.bytes[..carried.len()].copy_from_slice(carried);
        self.filled = carried.len();
        self.ends.clear();
        self.span = 0;
    }

    /// The room behind the bytes that are there.
    pub fn room(&mut self) -> &mut [u8] {
        &mut self.bytes[self.filled..]
    }

    /// Takes bytes that were read into the room, and finds the records that are whole now.
    pub fn add(&mut self, fresh: usize) {
        self.filled += fresh;
        let mut at = self.whole();
        for record in Records::new(&self.bytes[at..self.filled]) {
            at += record.len();
            self.ends.push(at);
        }
        self.span = at as u64;
    }

    /// Holds one record that is too long to be judged, by its header.
    pub fn set_overlong(&mut self, header: &[u8; HEADER_SIZE], size: u64) {
        self.bytes[..HEADER_SIZE].copy_from_slice(header);
        self.filled = HEADER_SIZE;
        self.ends.push(HEADER_SIZE);
        self.span = size;
    }

    pub fn has_records(&self) -> bool {
        !self.ends.is_empty()
    }

    /// All bytes that are there.
    pub fn read(&self) -> &[u8] {
        &self.bytes[..self.filled]
    }

    /// The bytes behind the last whole record.
    pub fn left(&self) -> &[u8] {
        &self.bytes[self.whole()..self.filled]
    }

    /// What the next batch of the file has to know.
    pub fn next_past(&self) -> Past {
        Past {
            offset: self.past.offset + self.span,
        }
    }

    fn whole(&self) -> usize {
        self.ends.last().copied().unwrap_or(0)
    }
}

impl Answers {
    pub fn clear(&mut self) {
        self.counts = Counts::default();
        self.written = 0;
        self.refused.clear();
    }

    /// Room for the lines of any record, behind those that are written.
    pub fn room(&mut self) -> &mut [u8] {
        if self.lines.len() < self.written + LINE_ROOM {
            self.lines.resize(self.written + 2 * LINE_ROOM, 0);
        }
        &mut self.lines[self.written..]
    }

    /// Keeps lines that were written to the room.
    pub fn keep(&mut self, written: usize) {
        self.written += written;
    }

    /// The lines that were kept.
    pub fn lines(&self) -> &[u8] {
        &self.lines[..self.written]
    }
}
