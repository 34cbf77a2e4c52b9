use std::error::Error;
use std::fmt::{self, Display, Formatter};

/// Why a record isn't judged, with the refusal's number.
///
/// The first that holds is given, in this order: 21, 11 to 18, and 19 once the record is known to be kept. Number 20, a program that
/// isn't valid, doesn't come: a [`Program`](crate::Program) is, and [`WrongProgram`](crate::WrongProgram) says it of bytes.
///
/// ```
/// use grainlantern::{NotJudged, Program};
///
/// let program = Program::compile("-loops").unwrap();
/// let refusal = program.judge(b"no record", &mut []).unwrap_err();
/// assert_eq!(refusal, NotJudged::WrongSize);
/// assert_eq!(refusal.number(), 11);
/// assert!(refusal.is_of_record());
/// ```
#[non_exhaustive]
#[derive(Clone, Copy, Debug, PartialEq, Eq, Hash)]
pub enum NotJudged {
    /// 11: under [`HEADER_SIZE`](crate::HEADER_SIZE) or over [`RECORD_LIMIT`](crate::RECORD_LIMIT) bytes, or the length field isn't the
    /// rest.
    WrongSize = 11,
    /// 12: the type isn't 16, or the subtype is neither 1 nor 4.
    WrongKind = 12,
    /// 13: the peer part is cut, or its address family isn't IPv4.
    WrongPeer = 13,
    /// 14: the marker or the length of the BGP message is wrong.
    WrongFrame = 14,
    /// 15: the sections of an UPDATE don't fit.
    WrongSections = 15,
    /// 16: an attribute overruns, or a code comes twice.
    WrongAttributes = 16,
    /// 17: the body of ORIGIN, AS_PATH, NEXT_HOP, ATOMIC_AGGREGATE, AGGREGATOR or COMMUNITY is wrong.
    WrongBody = 17,
    /// 18: a prefix is wrong.
    WrongPrefix = 18,
    /// 19: the record is kept, and its lines don't fit the buffer; [`LINE_ROOM`](crate::LINE_ROOM) always suffices.
    ShortLines = 19,
    /// 21: a count of the tally is at its highest.
    FullTally = 21,
}

impl NotJudged {
    /// What can be wrong with a record itself, in the order of its numbers.
    pub const OF_RECORD: &'static [NotJudged] = &[
        NotJudged::WrongSize,
        NotJudged::WrongKind,
        NotJudged::WrongPeer,
        NotJudged::WrongFrame,
        NotJudged::WrongSections,
        NotJudged::WrongAttributes,
        NotJudged::WrongBody,
        NotJudged::WrongPrefix,
    ];

    pub(crate) fn new(number: u32) -> NotJudged {
        match number {
            11 => NotJudged::WrongSize,
            12 => NotJudged::WrongKind,
            13 => NotJudged::WrongPeer,
            14 => NotJudged::WrongFrame,
            15 => NotJudged::WrongSections,
            16 => NotJudged::WrongAttributes,
            17 => NotJudged::WrongBody,
            18 => NotJudged::WrongPrefix,
            19 => NotJudged::ShortLines,
            21 => NotJudged::FullTally,
            _ => unreachable!("judging with a valid program answers with no {number}"),
        }
    }

    /// The refusal's number.
    pub fn number(&self) -> u32 {
        *self as u32
    }

    /// Whether the record itself isn't readable ([`OF_RECORD`](NotJudged::OF_RECORD)), which a tally counts; the others leave the tally
    /// alone.
    pub fn is_of_record(&self) -> bool {
        NotJudged::OF_RECORD.contains(self)
    }

    /// What is wrong, in words.
    ///
    /// ```
    /// use grainlantern::NotJudged;
    ///
    /// assert_eq!(NotJudged::WrongPrefix.words(), "a prefix is wrong");
    /// assert_eq!(NotJudged::WrongPrefix.to_string(), "a prefix is wrong (refusal 18)");
    /// ```
    pub fn words(&self) -> &'static str {
        match self {
            NotJudged::WrongSize => "the record's size is wrong",
            NotJudged::WrongKind => "the record is no BGP4MP message",
            NotJudged::WrongPeer => "the peer part is cut, or not of IPv4",
            NotJudged::WrongFrame => "the BGP message's marker or length is wrong",
            NotJudged::WrongSections => "the sections of the UPDATE don't fit",
            NotJudged::WrongAttributes => "an attribute overruns, or its code comes twice",
            NotJudged::WrongBody => "the body of a checked attribute is wrong",
            NotJudged::WrongPrefix => "a prefix is wrong",
            NotJudged::ShortLines => "the record's lines don't fit the buffer",
            NotJudged::FullTally => "a count of the tally is at its highest",
        }
    }
}

impl Display for NotJudged {
    fn fmt(&self, f: &mut Formatter) -> fmt::Result {
        write!(f, "{} (refusal {})", self.words(), self.number())
    }
}

impl Error for NotJudged {}
