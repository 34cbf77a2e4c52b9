use std::error::Error;
use std::fmt::{self, Display, Formatter};

use crate::{LEVEL_LIMIT, TEXT_LIMIT, WEIGHT_LIMIT};

/// Why a text isn't compiled, and where.
///
/// ```
/// use grainlantern::{Program, Reason};
///
/// let refusal = Program::compile("-loops -and -type 256").unwrap_err();
/// assert_eq!(refusal.reason(), Reason::WrongOperand);
/// assert_eq!((refusal.number(), refusal.place()), (5, 18));
/// assert_eq!(refusal.to_string(), "an operand breaks its test's rule at byte 18 (refusal 5)");
/// ```
#[derive(Clone, Copy, Debug, PartialEq, Eq, Hash)]
pub struct Refusal {
    reason: Reason,
    place: usize,
}

/// The reasons for which a text isn't compiled. Number 8, a program buffer that is too short, doesn't come: there is always room.
#[non_exhaustive]
#[derive(Clone, Copy, Debug, PartialEq, Eq, Hash)]
pub enum Reason {
    /// 1: the text has over [`TEXT_LIMIT`] bytes.
    LongText = 1,
    /// 2: a byte is none of 0x20 to 0x7E, tab and LF.
    ForbiddenByte = 2,
    /// 3: a quote isn't closed.
    OpenQuote = 3,
    /// 4: a token that no continuation allows, or the end of the text.
    WrongToken = 4,
    /// 5: an operand breaks its test's rule.
    WrongOperand = 5,
    /// 6: a `(` or `!` opens a level past [`LEVEL_LIMIT`].
    DeepLevel = 6,
    /// 7: the program would have over [`WEIGHT_LIMIT`] records.
    HeavyText = 7,
}

impl Refusal {
    pub(crate) fn new(number: u32, place: usize) -> Refusal {
        let reason = match number {
            1 => Reason::LongText,
            2 => Reason::ForbiddenByte,
            3 => Reason::OpenQuote,
            4 => Reason::WrongToken,
            5 => Reason::WrongOperand,
            6 => Reason::DeepLevel,
            7 => Reason::HeavyText,
            _ => {
                unreachable!("compiling answers with 0 to 7 where there is room, not with {number}")
            }
        };
        Refusal { reason, place }
    }

    /// What is wrong.
    pub fn reason(&self) -> Reason {
        self.reason
    }

    /// The refusal's number, 1 to 7.
    pub fn number(&self) -> u32 {
        self.reason as u32
    }

    /// The place in the text, in bytes: of the forbidden byte, the quote or the token, or the text's length where its end is
    /// refused; 0 for a text that is too long or too heavy.
    pub fn place(&self) -> usize {
        self.place
    }
}

impl Display for Reason {
    fn fmt(&self, f: &mut Formatter) -> fmt::Result {
        match self {
            Reason::LongText => write!(f, "the text has over {} bytes", grouped(TEXT_LIMIT)),
            Reason::ForbiddenByte => {
                f.write_str("a byte is neither printable ASCII nor tab nor LF")
            }
            Reason::OpenQuote => f.write_str("a quote isn't closed"),
            Reason::WrongToken => f.write_str("a token, or the end of the text, can't stand here"),
            Reason::WrongOperand => f.write_str("an operand breaks its test's rule"),
            Reason::DeepLevel => write!(f, "a '(' or '!' opens level {}", LEVEL_LIMIT + 1),
            Reason::HeavyText => {
                write!(
                    f,
                    "the program would have over {} records",
                    grouped(WEIGHT_LIMIT)
                )
            }
        }
    }
}

/// A number below a million with a comma before its last three digits, where it has more.
fn grouped(number: usize) -> String {
    match number {
        0..1000 => number.to_string(),
        _ => format!("{},{:03}", number / 1000, number % 1000),
    }
}

impl Display for Refusal {
    fn fmt(&self, f: &mut Formatter) -> fmt::Result {
        write!(f, "{}", self.reason)?;
        if !matches!(self.reason, Reason::LongText | Reason::HeavyText) {
            write!(f, " at byte {}", self.place)?;
        }
        write!(f, " (refusal {})", self.number())
    }
}

impl Error for Refusal {}
