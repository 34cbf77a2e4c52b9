//! Reads files in blocks, and fills batches with their records.

use std::fs::File;
use std::io::{ErrorKind, Read, Result};
use std::vec::IntoIter;

use grainlantern::{HEADER_SIZE, RECORD_LIMIT};

use crate::batch::{Batch, End, EndKind, Past};
use crate::input::Input;
use crate::packing::Packing;

/// Where the length of a record's body stands in its header.
const LENGTH_AT: usize = 8;

/// The files, one after another.
pub struct Reader {
    /// Those that were not opened yet.
    inputs: IntoIter<Input>,
    /// The one that is read, if one is.
    source: Option<Source>,
}

/// A file that is read.
struct Source {
    file: File,
    past: Past,
    packing: Option<Packing>,
    /// What was read of a record that isn't whole.
    carried: Vec<u8>,
    /// A record of which only the header is kept.
    overlong: Option<Overlong>,
}

/// A record over the limit, whose bytes go by.
struct Overlong {
    header: [u8; HEADER_SIZE],
    /// The record's bytes, header included.
    size: u64,
    /// Those of them that were read.
    gone: u64,
}

impl Reader {
    pub fn new(inputs: Vec<Input>) -> Reader {
        Reader {
            inputs: inputs.into_iter(),
            source: None,
        }
    }

    /// Fills a batch with the next records that are there, or with the end of a file; false once all files have ended. It
    /// waits for input only while it has no whole record.
    pub fn fill(&mut self, batch: &mut Batch) -> bool {
        let source = match self.source.take() {
            Some(source) => Ok(source),
            None => match self.inputs.next() {
                Some(input) => input.open().map(Source::new),
                None => return false,
            },
        };
        match source {
            Ok(mut source) => {
                source.fill(batch);
                self.source = batch.end.is_none().then_some(source);
            }
            Err(error) => {
                batch.begin(Past::default(), &[]);
                batch.end = Some(End {
                    kind: EndKind::Failed(error),
                    packing: None,
                });
            }
        }
        true
    }
}

impl Source {
    fn new(file: File) -> Source {
        Source {
            file,
            past: Past::default(),
            packing: None,
            carried: Vec::new(),
            overlong: None,
        }
    }

    fn fill(&mut self, batch: &mut Batch) {
        batch.begin(self.past, &self.carried);
        self.carried.clear();
        let filled = match self.overlong.take() {
            Some(overlong) => self.pass(overlong, batch),
            None => self.read_records(batch),
        };
        self.past = batch.next_past();
        let kind = match filled {
            Ok(None) => return,
            Ok(Some(kind)) => kind,
            Err(error) => EndKind::Failed(error),
        };
        batch.end = Some(End {
            kind,
            packing: self.packing,
        });
    }

    /// Reads until some record is whole, or the file ends.
    fn read_records(&mut self, batch: &mut Batch) -> Result<Option<EndKind>> {
        loop {
            let fresh = read(&mut self.file, batch.room())?;
            if fresh == 0 {
                return Ok(Some(ending(batch.left().len() as u64)));
            }
            batch.add(fresh);
            if self.past.offset == 0 {
                self.packing = Packing::of(batch.read());
            }
            let overlong = Overlong::of(batch.left());
            if batch.has_records() {
                if overlong.is_none() {
                    self.carried.extend_from_slice(batch.left());
                }
                self.overlong = overlong;
                return Ok(None);
            }
            if let Some(overlong) = overlong {
                return self.pass(overlong, batch);
            }
        }
    }

    /// Lets the bytes of a record over the limit go by, then hands out its header.
    fn pass(&mut self, mut overlong: Overlong, batch: &mut Batch) -> Result<Option<EndKind>> {
        batch.begin(self.past, &[]);
        while overlong.gone < overlong.size {
            let room = batch.room();
            let wanted = (overlong.size - overlong.gone).min(room.len() as u64) as usize;
            let fresh = read(&mut self.file, &mut room[..wanted])?;
            if fresh == 0 {
                return Ok(Some(EndKind::Cut(overlong.gone)));
            }
            overlong.gone += fresh as u64;
        }
        batch.set_overlong(&overlong.header, overlong.size);
        Ok(None)
    }
}

impl Overlong {
    /// The record whose first bytes these are, where it is over the limit.
    fn of(bytes: &[u8]) -> Option<Overlong> {
        let header: &[u8; HEADER_SIZE] = bytes.first_chunk()?;
        let length: &[u8; 4] = header[LENGTH_AT..].first_chunk()?;
        let size = HEADER_SIZE as u64 + u64::from(u32::from_be_bytes(*length));
        (size > RECORD_LIMIT as u64).then_some(Overlong {
            header: *header,
            size,
            gone: bytes.len() as u64,
        })
    }
}

/// How a file ends that has these bytes left.
fn ending(left: u64) -> EndKind {
    match left {
        0 => EndKind::Done,
        _ => EndKind::Cut(left),
    }
}

/// Reads what is there, once.
fn read(file: &mut File, room: &mut [u8]) -> Result<usize> {
    loop {
        match file.read(room) {
            Err(error) if error.kind() == ErrorKind::Interrupted => {}
            answer => return answer,
        }
    }
}
