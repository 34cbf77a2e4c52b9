use std::str::FromStr;

use crate::not_judged::NotJudged;
use crate::program_record::ProgramRecord;
use crate::raw;
use crate::refusal::Refusal;
use crate::tally::Tally;
use crate::verdict::Verdict;
use crate::wrong_program::WrongProgram;
use crate::PROGRAM_ROOM;

/// A filter, compiled: a valid program.
///
/// ```
/// use grainlantern::Program;
///
/// let program = Program::compile("-peer 199036 -or -attr COMMUNITY")?;
/// let stored = program.as_bytes().to_vec();
/// assert_eq!(Program::from_bytes(&stored), Ok(program));
/// # Ok::<(), grainlantern::Refusal>(())
/// ```
///
/// What takes anything that can be parsed, converted or read as bytes takes a program too:
///
/// ```
/// use grainlantern::Program;
///
/// let program: Program = "-loops".parse()?;
/// assert_eq!(Program::try_from(program.as_ref())?, program);
/// # Ok::<(), Box<dyn std::error::Error>>(())
/// ```
#[derive(Clone, Debug, PartialEq, Eq, Hash)]
pub struct Program {
    bytes: Vec<u8>,
}

impl Program {
    /// Compiles a filter text.
    ///
    /// ```
    /// use grainlantern::{Program, Reason};
    ///
    /// assert!(Program::compile("-aspath '^199036 . 3333$'").is_ok());
    /// let refusal = Program::compile("-aspath !432").unwrap_err();
    /// assert_eq!((refusal.reason(), refusal.place()), (Reason::WrongToken, 8));
    /// ```
    pub fn compile(text: impl AsRef<[u8]>) -> Result<Program, Refusal> {
        let mut bytes = vec![0; PROGRAM_ROOM];
        // a size or a place, which lie within the buffer or the text
        let (number, [value, ..]) = raw::compile(text.as_ref(), &mut bytes);
        let value = value as usize;
        if number != 0 {
            return Err(Refusal::new(number, value));
        }
        bytes.truncate(value);
        bytes.shrink_to_fit();
        Ok(Program { bytes })
    }

    /// A program that was compiled before, as [`as_bytes`](Program::as_bytes) gave it.
    pub fn from_bytes(bytes: &[u8]) -> Result<Program, WrongProgram> {
        // an empty record is refused too, but a program that isn't valid comes first
        let (number, _) = raw::judge(bytes, &[], &mut []);
        if number == WrongProgram::NUMBER {
            return Err(WrongProgram);
        }
        let bytes = bytes.to_vec();
        Ok(Program { bytes })
    }

    /// The program's records, of [`ProgramRecord::SIZE`] bytes each, to be stored.
    pub fn as_bytes(&self) -> &[u8] {
        &self.bytes
    }

    /// The program's records, by which a person sees what a text was taken for. Their number is the text's weight.
    ///
    /// ```
    /// use grainlantern::{Item, Program, ProgramRecord};
    ///
    /// let program = Program::compile("-aspath '^ !3333'")?;
    /// let path = ProgramRecord::Path { from_start: true, to_end: false, items: 1 };
    /// assert_eq!(program.records().len(), 2);
    /// assert!(program.records().eq([path, ProgramRecord::Item(Item::Not(3333))]));
    /// # Ok::<(), grainlantern::Refusal>(())
    /// ```
    pub fn records(&self) -> impl ExactSizeIterator<Item = ProgramRecord> + '_ {
        let (records, _) = self.bytes.as_chunks();
        let mut communities = 0;
        records
            .iter()
            .map(move |record| ProgramRecord::of(record, &mut communities))
    }

    /// Judges a record, which is its header and its body, and writes the lines of one that is kept to the start of a buffer.
    ///
    /// A buffer of [`LINE_ROOM`](crate::LINE_ROOM) bytes is never too short. A dropped or refused record changes no byte of it.
    ///
    /// ```
    /// use grainlantern::{NotJudged, Program, Verdict, LINE_ROOM};
    ///
    /// // a KEEPALIVE of the peer 192.0.2.1, AS 65001
    /// let mut record = vec![0, 0, 0, 7, 0, 16, 0, 1, 0, 0, 0, 35];
    /// record.extend([0xFD, 0xE9, 0xFD, 0xEA, 0, 0, 0, 1, 192, 0, 2, 1, 192, 0, 2, 2]);
    /// record.extend([0xFF; 16]);
    /// record.extend([0, 19, 4]);
    ///
    /// let mut lines = vec![0; LINE_ROOM];
    /// let program = Program::compile("-type KEEPALIVE -and -timestamp <8")?;
    /// let verdict = program.judge(&record, &mut lines)?;
    /// assert!(matches!(verdict, Verdict::Kept { written: 0, .. }));
    /// assert_eq!(verdict.spent().steps, 3);
    ///
    /// let program = Program::compile("-peer 65002")?;
    /// let verdict = program.judge(&record, &mut lines)?;
    /// assert!(!verdict.is_kept());
    ///
    /// record.pop();
    /// assert_eq!(program.judge(&record, &mut lines), Err(NotJudged::WrongSize));
    /// # Ok::<(), Box<dyn std::error::Error>>(())
    /// ```
    pub fn judge(&self, record: &[u8], lines: &mut [u8]) -> Result<Verdict, NotJudged> {
        Verdict::of(raw::judge(&self.bytes, record, lines))
    }

    /// The same, and adds one to the tally's `seen` and one to its `kept`, its `dropped` or, for a record that isn't readable
    /// ([`is_of_record`](NotJudged::is_of_record)), its `refused`. A tally that is full is refused before the record is looked at.
    ///
    /// ```
    /// use grainlantern::{NotJudged, Program, Tally};
    ///
    /// let program = Program::compile("-loops")?;
    /// let mut tally = Tally::default();
    /// let answer = program.judge_counted(b"no record", &mut [], &mut tally);
    /// assert_eq!(answer, Err(NotJudged::WrongSize));
    /// assert_eq!((tally.seen, tally.refused), (1, 1));
    ///
    /// tally.seen = u32::MAX;
    /// let answer = program.judge_counted(b"no record", &mut [], &mut tally);
    /// assert_eq!(answer, Err(NotJudged::FullTally));
    /// # Ok::<(), grainlantern::Refusal>(())
    /// ```
    pub fn judge_counted(
        &self,
        record: &[u8],
        lines: &mut [u8],
        tally: &mut Tally,
    ) -> Result<Verdict, NotJudged> {
        Verdict::of(raw::judge_counted(&self.bytes, record, lines, tally))
    }
}

impl FromStr for Program {
    type Err = Refusal;

    fn from_str(text: &str) -> Result<Program, Refusal> {
        Program::compile(text)
    }
}

impl TryFrom<&[u8]> for Program {
    type Error = WrongProgram;

    fn try_from(bytes: &[u8]) -> Result<Program, WrongProgram> {
        Program::from_bytes(bytes)
    }
}

impl AsRef<[u8]> for Program {
    fn as_ref(&self) -> &[u8] {
        self.as_bytes()
    }
}
