use std::iter::FusedIterator;

use crate::raw;

/// The records of a run of bytes, one after another, each with its header.
///
/// Records of any size are handed out, readable or not, until nothing remains or one is cut; [`closing`](Records::closing) then
/// says which. Lend the iterator to a loop (`&mut records`) to ask it afterwards.
///
/// ```
/// use grainlantern::{Closing, Records};
///
/// // two records without a body, and five bytes of a third
/// let run = [0; 29];
/// let mut records = Records::new(&run);
/// let sizes: Vec<usize> = records.by_ref().map(<[u8]>::len).collect();
/// assert_eq!(sizes, [12, 12]);
/// assert_eq!(records.closing(), Some(Closing::Cut { left: 5 }));
/// ```
#[derive(Clone, Debug)]
pub struct Records<'a> {
    run: &'a [u8],
    at: usize,
    closing: Option<Closing>,
}

/// How a run of records ends.
#[derive(Clone, Copy, Debug, PartialEq, Eq, Hash)]
pub enum Closing {
    /// After a whole record, or at once.
    Done,
    /// Within a record's header, or before the end of the body that the header announces.
    Cut {
        /// The bytes left, the header's among them.
        left: usize,
    },
}

impl<'a> Records<'a> {
    /// The records of these bytes, from the first on.
    pub fn new(run: &'a [u8]) -> Records<'a> {
        Records {
            run,
            at: 0,
            closing: None,
        }
    }

    /// How the run ends, once all its records were handed out.
    pub fn closing(&self) -> Option<Closing> {
        self.closing
    }

    fn close(&mut self, closing: Closing) -> Option<&'a [u8]> {
        self.closing = Some(closing);
        None
    }
}

impl<'a> Iterator for Records<'a> {
    type Item = &'a [u8];

    fn next(&mut self) -> Option<&'a [u8]> {
        // a size is at most that of the run
        let (number, [size, ..]) = raw::step(self.run, self.at);
        let size = size as usize;
        match number {
            0 => {
                let start = self.at;
                self.at += size;
                Some(&self.run[start..self.at])
            }
            1 => self.close(Closing::Done),
            2 => self.close(Closing::Cut { left: size }),
            _ => unreachable!("a step answers with 0, 1 or 2, not with {number}"),
        }
    }
}

/// After the end every further step answers the same.
impl FusedIterator for Records<'_> {}
