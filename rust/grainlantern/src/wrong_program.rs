use std::error::Error;
use std::fmt::{self, Display, Formatter};

/// Bytes that aren't a valid program: refusal 20.
///
/// ```
/// use grainlantern::{Program, WrongProgram};
///
/// let wrong: WrongProgram = Program::from_bytes(b"no program").unwrap_err();
/// assert_eq!(wrong.to_string(), "the program isn't valid (refusal 20)");
/// ```
#[non_exhaustive]
#[derive(Clone, Copy, Debug, PartialEq, Eq, Hash)]
pub struct WrongProgram;

impl WrongProgram {
    pub(crate) const NUMBER: u32 = 20;

    /// The refusal's number, 20.
    pub fn number(&self) -> u32 {
        WrongProgram::NUMBER
    }
}

impl Display for WrongProgram {
    fn fmt(&self, f: &mut Formatter) -> fmt::Result {
        write!(f, "the program isn't valid (refusal {})", self.number())
    }
}

impl Error for WrongProgram {}
