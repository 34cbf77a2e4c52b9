//! A way through cases of every kind, from a seed.

use reference::{Judged, Refusal, Step};

use crate::compare::{Both, Difference, LARGEST};
use crate::counts::Counts;
use crate::message::Message;
use crate::random::Random;
use crate::test::Test;
use crate::{program, record, text};

/// Room in which every program fits.
const PROGRAM_ROOM: usize = 8192;

type Outcome<T> = Result<T, Box<Difference>>;

struct Tour {
    random: Random,
    both: Both,
    counts: Counts,
}

/// The cases of a seed, as long as `more` says of their number so far.
pub fn run(seed: u64, mut more: impl FnMut(u64) -> bool) -> Outcome<Counts> {
    let mut random = Random::new(seed);
    let both = Both::new(&mut random);
    let mut tour = Tour {
        random,
        both,
        counts: Counts::default(),
    };
    while more(tour.counts.cases) {
        tour.round().map_err(|mut difference| {
            difference.found = Some((seed, tour.counts.cases));
            difference
        })?;
    }
    Ok(tour.counts)
}

impl Tour {
    fn round(&mut self) -> Outcome<()> {
        let message = Message::random(&mut self.random);
        match self.random.below(15) {
            0..=7 => self.one_test(&message),
            8 => self.whole_filter(&message),
            9 | 10 => self.bad_text(&message),
            11 => self.odd_program(&message),
            12 => self.bad_record(&message),
            13 => self.known_causes(message),
            _ => self.run_of_records(&message),
        }
    }

    /// A test alone tells its truth by the verdict.
    fn one_test(&mut self, message: &Message) -> Outcome<()> {
        let test = Test::aimed(message, &mut self.random);
        let text = text::of_test(&test, &mut self.random);
        let Ok(program) = self.compile(&text)? else {
            return Ok(());
        };
        let record = message.record(&[], &mut self.random);
        let truth = match self.judge(&program, &record)? {
            Judged::Kept { .. } => true,
            Judged::Dropped { .. } => false,
            Judged::Refused(_) => return Ok(()),
        };
        let barred = test.barred(message);
        assert!(
            !truth || barred.is_none(),
            "true with {barred:?}: {}",
            String::from_utf8_lossy(&text)
        );
        let truth = barred.unwrap_or(if truth { "true" } else { "false" });
        for label in test.labels() {
            self.counts.add(format!("{label}: {truth}"));
        }
        Ok(())
    }

    /// A filter of several tests, on the message that it is aimed at and on others.
    fn whole_filter(&mut self, message: &Message) -> Outcome<()> {
        let text = text::good(message, &mut self.random);
        let Ok(program) = self.compile(&text)? else {
            return Ok(());
        };
        let record = message.record(&[], &mut self.random);
        self.judge(&program, &record)?;
        for _ in 0..2 {
            let another = Message::random(&mut self.random);
            let record = another.record(&[], &mut self.random);
            self.judge(&program, &record)?;
        }
        Ok(())
    }

    fn bad_text(&mut self, message: &Message) -> Outcome<()> {
        let text = match self.random.below(7) {
            0 => text::edited(message, &mut self.random),
            1 => text::bordering(&mut self.random),
            2 => text::jumbled(&mut self.random),
            _ => {
                let slips = self.slips(1, 7);
                text::slipped(message, &slips, &mut self.random)
            }
        };
        let Ok(program) = self.compile(&text)? else {
            return Ok(());
        };
        let record = message.record(&[], &mut self.random);
        self.judge(&program, &record)?;
        Ok(())
    }

    /// A program that need not come from a text, and the same with damage.
    fn odd_program(&mut self, message: &Message) -> Outcome<()> {
        let record = message.record(&[], &mut self.random);
        let program = program::valid(message, &mut self.random);
        self.judge(&program, &record)?;
        for _ in 0..2 {
            let damaged = program::damaged(&program, &mut self.random);
            self.judge(&damaged, &record)?;
        }
        Ok(())
    }

    fn bad_record(&mut self, message: &Message) -> Outcome<()> {
        let program = program::valid(message, &mut self.random);
        for _ in 0..3 {
            let slips = self.slips(11, 18);
            let record = message.record(&slips, &mut self.random);
            self.judge(&program, &record)?;
        }
        let mut edited = message.record(&[], &mut self.random);
        record::edit(&mut edited, &mut self.random);
        self.judge(&program, &edited)?;
        Ok(())
    }

    /// A text, a program and a record, each refused for a cause that is known and counted.
    fn known_causes(&mut self, mut message: Message) -> Outcome<()> {
        let (cause, text) = text::wrong_communities(&mut self.random);
        let number = self
            .compile(&text)?
            .map_or_else(|refusal| refusal.number, |_| 0);
        assert_eq!(number, 5, "{cause}: {}", String::from_utf8_lossy(&text));
        self.counts.add(format!("compile 5, communities: {cause}"));

        let record = message.record(&[], &mut self.random);
        let (cause, program) = program::wrong_communities(&message, &mut self.random);
        assert_eq!(
            self.judge(&program, &record)?,
            Judged::Refused(20),
            "{cause}"
        );
        self.counts.add(format!("judge 20, communities: {cause}"));

        let program = program::valid(&message, &mut self.random);
        let cause = record::spoil_body(&mut message.attributes, message.wide, &mut self.random);
        let record = message.record(&[], &mut self.random);
        // the message may be no UPDATE or too long, and the tally full
        if self.judge(&program, &record)? == Judged::Refused(17) {
            let subtype = record::SUBTYPES[usize::from(message.wide)];
            self.counts.add(format!("judge 17, {cause}, {subtype}"));
        }
        Ok(())
    }

    /// Records one after another, judged with one program and counted in one tally; then steps at any place.
    fn run_of_records(&mut self, message: &Message) -> Outcome<()> {
        let program = program::valid(message, &mut self.random);
        let mut run = Vec::new();
        for _ in 0..self.random.below(5) {
            let slips = if self.random.one_in(3) {
                self.slips(11, 18)
            } else {
                Vec::new()
            };
            let next = Message::random(&mut self.random);
            run.extend(next.record(&slips, &mut self.random));
        }
        let left = self.random.below(20);
        let last = message.record(&[], &mut self.random);
        run.extend_from_slice(&last[..left]);

        let mut tally = Some([self.random.word() >> 8, 0, 0, 5]);
        let mut at = 0;
        while let Step::Record(record) = self.step(&run, at)? {
            let (judged, after) = self.both.judge(&program, record, LARGEST, tally)?;
            self.count_judged(&judged, true);
            tally = after;
            at += record.len();
        }
        let anywhere = self.random.within(0, run.len() + 2);
        let far = usize::MAX - self.random.below(20);
        for place in [at, anywhere, far] {
            self.step(&run, place)?;
        }
        Ok(())
    }

    /// One number of a table's part, or a few.
    fn slips(&mut self, first: usize, last: usize) -> Vec<u32> {
        let count = self.random.pick(&[1, 1, 1, 2, 3]);
        (0..count)
            .map(|_| self.random.within(first, last) as u32)
            .collect()
    }

    /// The program of a text, or its refusal; it is also compiled for a room about as large as it needs.
    fn compile(&mut self, text: &[u8]) -> Outcome<Result<Vec<u8>, Refusal>> {
        let compiled = self.both.compile(text, PROGRAM_ROOM)?;
        let size = match &compiled {
            Ok(program) => program.len(),
            Err(_) => self.random.below(300),
        };
        self.count_compiled(&compiled);
        let room = match self.random.below(5) {
            0 => size,
            1 => size.saturating_sub(1),
            2 => self.random.within(0, size),
            3 => size + self.random.below(40),
            _ => 0,
        };
        let again = self.both.compile(text, room)?;
        self.count_compiled(&again);
        Ok(compiled)
    }

    /// Judges for a room about as large as the lines need, counted or not.
    fn judge(&mut self, program: &[u8], record: &[u8]) -> Outcome<Judged> {
        let size = match reference::judge(program, record, LARGEST, None) {
            Judged::Kept { lines, .. } => lines.len(),
            _ => self.random.below(200),
        };
        let room = match self.random.below(16) {
            0 => size.saturating_sub(1),
            1 => self.random.within(0, size),
            2 => 0,
            3 => LARGEST,
            4..=7 => size,
            _ => (size + self.random.below(100)).min(LARGEST),
        };
        let tally = self.tally();
        let (judged, _) = self.both.judge(program, record, room, tally)?;
        self.count_judged(&judged, tally.is_some());
        Ok(judged)
    }

    fn step<'a>(&mut self, run: &'a [u8], at: usize) -> Outcome<Step<'a>> {
        let step = self.both.step(run, at)?;
        let answer = match step {
            Step::Record(_) => "record",
            Step::Done => "done",
            Step::Cut(_) => "cut",
        };
        self.counts.cases += 1;
        self.counts.add(format!("step {answer}"));
        Ok(step)
    }

    /// No tally, or one whose counts are anything, and sometimes full or nearly.
    fn tally(&mut self) -> Option<[u32; 4]> {
        if self.random.one_in(2) {
            return None;
        }
        let mut tally = [0; 4].map(|_: u32| self.random.word() >> self.random.within(1, 31));
        if self.random.one_in(5) {
            let high = self.random.pick(&[u32::MAX, u32::MAX - 1]);
            tally[self.random.below(4)] = high;
        }
        Some(tally)
    }

    fn count_compiled(&mut self, compiled: &Result<Vec<u8>, Refusal>) {
        let number = compiled
            .as_ref()
            .map_or_else(|refusal| refusal.number, |_| 0);
        self.counts.cases += 1;
        self.counts.add(format!("compile {number}"));
    }

    fn count_judged(&mut self, judged: &Judged, counted: bool) {
        let number = match judged {
            Judged::Kept { .. } => 1,
            Judged::Dropped { .. } => 0,
            Judged::Refused(number) => *number,
        };
        let counted = if counted { ", counted" } else { "" };
        self.counts.cases += 1;
        self.counts.add(format!("judge {number}{counted}"));
    }
}
