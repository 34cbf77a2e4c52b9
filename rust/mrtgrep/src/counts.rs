//! What was counted of the records.

use std::fmt::{self, Display, Formatter};
use std::ops::AddAssign;

use grainlantern::NotJudged;

/// Counts of records, and of their bytes. 64 bits hold more than can be read.
#[derive(Clone, Debug, Default, PartialEq, Eq)]
pub struct Counts {
    pub kept: u64,
    pub dropped: u64,
    /// Of each refusal of a record, in their order.
    refused: [u64; NotJudged::OF_RECORD.len()],
    pub bytes: u64,
}

impl Counts {
    pub fn refuse(&mut self, refusal: NotJudged) {
        let mut all = NotJudged::OF_RECORD.iter();
        let at = all.position(|one| *one == refusal);
        self.refused[at.expect("there is no tally, and the room for lines always suffices")] += 1;
    }

    pub fn refused(&self) -> u64 {
        self.refused.iter().sum()
    }

    pub fn judged(&self) -> u64 {
        self.kept + self.dropped
    }

    pub fn seen(&self) -> u64 {
        self.judged() + self.refused()
    }

    /// The refusal that came most often, and how often.
    pub fn commonest(&self) -> Option<(NotJudged, u64)> {
        // the last of equal ones is given, so the lowest number stands last
        let rows = self.refusals().collect::<Vec<_>>();
        rows.into_iter().rev().max_by_key(|(_, count)| *count)
    }

    fn refusals(&self) -> impl Iterator<Item = (NotJudged, u64)> + '_ {
        let rows = NotJudged::OF_RECORD.iter().copied().zip(self.refused);
        rows.filter(|(_, count)| *count > 0)
    }
}

impl AddAssign<&Counts> for Counts {
    fn add_assign(&mut self, other: &Counts) {
        self.kept += other.kept;
        self.dropped += other.dropped;
        self.bytes += other.bytes;
        for (count, more) in self.refused.iter_mut().zip(other.refused) {
            *count += more;
        }
    }
}

/// All counts in words, each refusal that came with its number.
impl Display for Counts {
    fn fmt(&self, f: &mut Formatter) -> fmt::Result {
        let (seen, refused) = (self.seen(), self.refused());
        write!(
            f,
            "seen {seen}, kept {}, dropped {}, refused {refused}",
            self.kept, self.dropped
        )?;
        let rows: Vec<String> = self
            .refusals()
            .map(|(refusal, count)| format!("{}: {count}, {}", refusal.number(), refusal.words()))
            .collect();
        if !rows.is_empty() {
            write!(f, " ({})", rows.join("; "))?;
        }
        write!(f, ", {} bytes", self.bytes)
    }
}

#[cfg(test)]
mod tests {
    use super::*;

    #[test]
    fn the_commonest_refusal_is_the_first_of_equal_ones() {
        let mut counts = Counts::default();
        assert_eq!(counts.commonest(), None);
        for refusal in [
            NotJudged::WrongPrefix,
            NotJudged::WrongSize,
            NotJudged::WrongKind,
        ] {
            counts.refuse(refusal);
        }
        assert_eq!(counts.commonest(), Some((NotJudged::WrongSize, 1)));
        counts.refuse(NotJudged::WrongPrefix);
        assert_eq!(counts.commonest(), Some((NotJudged::WrongPrefix, 2)));
    }

    #[test]
    fn all_counts_are_said() {
        let mut counts = Counts {
            kept: 1 << 40,
            dropped: 2,
            bytes: 3,
            ..Counts::default()
        };
        let said = counts.to_string();
        assert_eq!(
            said,
            "seen 1099511627778, kept 1099511627776, dropped 2, refused 0, 3 bytes"
        );
        counts.refuse(NotJudged::WrongKind);
        counts.refuse(NotJudged::WrongPrefix);
        let twice = counts.clone();
        counts += &twice;
        let refused =
            "refused 4 (12: 2, the record is no BGP4MP message; 18: 2, a prefix is wrong), 6 bytes";
        assert!(counts.to_string().ends_with(refused), "{counts}");
    }
}
