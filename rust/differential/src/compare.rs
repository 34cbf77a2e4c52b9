//! One case through the archive and through the reference, and everything compared: the answer, its values, each byte of the lent buffer and of
//! those beside it, the tally.

use std::fmt;

use grainlantern::{raw, Tally};
use reference::{Judged, Refusal, Spent, Step};

use crate::random::Random;

/// Bytes before and behind the lent buffer that nobody may touch.
const BESIDE: usize = 64;

/// The largest buffer that is lent.
pub const LARGEST: usize = 1 << 16;

/// Seen, kept, dropped, refused; or no tally.
type Tallied = Option<[u32; 4]>;

/// A case on which the two differ.
#[derive(Debug)]
pub struct Difference {
    /// The seed, and the cases before this one.
    pub found: Option<(u64, u64)>,
    call: String,
    archive: String,
    reference: String,
}

impl fmt::Display for Difference {
    fn fmt(&self, out: &mut fmt::Formatter) -> fmt::Result {
        writeln!(out, "the archive and the reference differ")?;
        if let Some((seed, before)) = self.found {
            writeln!(out, "seed {seed}, after {before} cases")?;
        }
        writeln!(out, "archive:   {}", self.archive)?;
        writeln!(out, "reference: {}", self.reference)?;
        let call = &self.call;
        write!(
            out,
            "\n#[test]\nfn found() {{\n    differential::{call};\n}}"
        )
    }
}

/// What a side said of a case: its number and values, the bytes at the front of the lent buffer, the tally after.
struct Said<'a> {
    number: u32,
    value: [u64; 4],
    front: &'a [u8],
    tally: Tallied,
}

impl fmt::Display for Said<'_> {
    fn fmt(&self, out: &mut fmt::Formatter) -> fmt::Result {
        let Said {
            number,
            value,
            front,
            tally,
        } = self;
        write!(
            out,
            "{number} {value:?}, tally {tally:?}, wrote {}",
            hex(front)
        )
    }
}

fn hex(bytes: &[u8]) -> String {
    bytes.iter().map(|byte| format!("{byte:02x}")).collect()
}

pub fn unhex(digits: &str) -> Vec<u8> {
    assert!(digits.is_ascii() && digits.len().is_multiple_of(2));
    let pair = |at| u8::from_str_radix(&digits[at..at + 2], 16).expect("hex digits");
    (0..digits.len()).step_by(2).map(pair).collect()
}

pub struct Both {
    filler: Vec<u8>,
    lent: Vec<u8>,
}

impl Both {
    pub fn new(random: &mut Random) -> Both {
        let filler = random.bytes(LARGEST + 2 * BESIDE);
        let lent = filler.clone();
        Both { filler, lent }
    }

    /// A buffer of some room, amid bytes that aren't lent.
    fn lend(&mut self, room: usize) -> &mut [u8] {
        let whole = room + 2 * BESIDE;
        self.lent[..whole].copy_from_slice(&self.filler[..whole]);
        &mut self.lent[BESIDE..BESIDE + room]
    }

    /// Whether the lent buffer has these bytes at its front, and all else is as it was.
    fn has(&self, front: &[u8], room: usize) -> bool {
        if front.len() > room {
            return false;
        }
        let whole = room + 2 * BESIDE;
        let end = BESIDE + front.len();
        self.lent[BESIDE..end] == *front
            && self.lent[..BESIDE] == self.filler[..BESIDE]
            && self.lent[end..whole] == self.filler[end..whole]
    }

    /// Nothing if the archive said what the reference said, and did no more.
    fn compare(
        &self,
        (number, value): raw::Answer,
        tally: Tallied,
        room: usize,
        reference: &Said,
        call: impl FnOnce() -> String,
    ) -> Result<(), Box<Difference>> {
        let same = number == reference.number && value == reference.value;
        if same && tally == reference.tally && self.has(reference.front, room) {
            return Ok(());
        }
        let changed = |place: &usize| self.lent[BESIDE + place] != self.filler[BESIDE + place];
        let end = (0..room + BESIDE)
            .rev()
            .find(changed)
            .map_or(0, |last| last + 1);
        let archive = Said {
            number,
            value,
            front: &self.lent[BESIDE..BESIDE + end],
            tally,
        };
        Err(Box::new(Difference {
            found: None,
            call: call(),
            archive: archive.to_string(),
            reference: reference.to_string(),
        }))
    }

    /// Compiles a text for a program buffer of some room.
    pub fn compile(
        &mut self,
        text: &[u8],
        room: usize,
    ) -> Result<Result<Vec<u8>, Refusal>, Box<Difference>> {
        let answer = raw::compile(text, self.lend(room));
        let compiled = reference::compile(text, room);
        let (number, first, front) = match &compiled {
            Ok(program) => (0, program.len(), program.as_slice()),
            Err(refusal) => (refusal.number, refusal.place, [].as_slice()),
        };
        let said = Said {
            number,
            value: [first as u64, 0, 0, 0],
            front,
            tally: None,
        };
        let call = || format!("same_compiled({:?}, {room})", hex(text));
        self.compare(answer, None, room, &said, call)?;
        Ok(compiled)
    }

    /// Judges a record with a program, for a line buffer of some room, and counts it if a tally is given; the tally after is given too.
    pub fn judge(
        &mut self,
        program: &[u8],
        record: &[u8],
        room: usize,
        tally: Tallied,
    ) -> Result<(Judged, Tallied), Box<Difference>> {
        let (answer, after) = self.judge_by_archive(program, record, room, tally);
        let (judged, expected_after) = judge_by_reference(program, record, room, tally);
        let (number, spent, front) = match &judged {
            Judged::Kept { spent, lines } => (1, *spent, lines.as_slice()),
            Judged::Dropped { spent } => (0, *spent, [].as_slice()),
            Judged::Refused(number) => (*number, Spent::default(), [].as_slice()),
        };
        let said = Said {
            number,
            value: [spent.steps.into(), front.len() as u64, 0, 0],
            front,
            tally: expected_after,
        };
        let call = || {
            let (program, record) = (hex(program), hex(record));
            format!("same_judged({program:?}, {record:?}, {room}, {tally:?})")
        };
        self.compare(answer, after, room, &said, call)?;
        Ok((judged, after))
    }

    fn judge_by_archive(
        &mut self,
        program: &[u8],
        record: &[u8],
        room: usize,
        tally: Tallied,
    ) -> (raw::Answer, Tallied) {
        let lines = self.lend(room);
        let Some([seen, kept, dropped, refused]) = tally else {
            return (raw::judge(program, record, lines), None);
        };
        let mut counted = Tally {
            seen,
            kept,
            dropped,
            refused,
        };
        let answer = raw::judge_counted(program, record, lines, &mut counted);
        let after = [counted.seen, counted.kept, counted.dropped, counted.refused];
        (answer, Some(after))
    }

    /// What stands at a place of a run of records. No buffer is lent.
    pub fn step<'a>(&mut self, run: &'a [u8], at: usize) -> Result<Step<'a>, Box<Difference>> {
        self.lend(0);
        let answer = raw::step(run, at);
        let step = reference::step(run, at);
        let (number, first) = match step {
            Step::Record(record) => (0, record.len()),
            Step::Done => (1, 0),
            Step::Cut(left) => (2, left),
        };
        let said = Said {
            number,
            value: [first as u64, 0, 0, 0],
            front: &[],
            tally: None,
        };
        let call = || format!("same_step({:?}, {at})", hex(run));
        self.compare(answer, None, 0, &said, call)?;
        Ok(step)
    }
}

fn judge_by_reference(
    program: &[u8],
    record: &[u8],
    room: usize,
    tally: Tallied,
) -> (Judged, Tallied) {
    let Some([seen, kept, dropped, refused]) = tally else {
        return (reference::judge(program, record, room, None), None);
    };
    let mut counted = reference::Tally {
        seen,
        kept,
        dropped,
        refused,
    };
    let judged = reference::judge(program, record, room, Some(&mut counted));
    let after = [counted.seen, counted.kept, counted.dropped, counted.refused];
    (judged, Some(after))
}
