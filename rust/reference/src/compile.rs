//! A text into a program: refusals 7 and 8, after those of its tokens and its grammar.

use crate::parse::parse;
use crate::program::{self, MOST_RECORDS};
use crate::record::RECORD;
use crate::token::tokens;

/// Why a text isn't compiled: the paper's number, 1 to 8, and the place in the text.
#[derive(Clone, Copy, Debug, PartialEq, Eq)]
pub struct Refusal {
    /// 1 to 8.
    pub number: u32,
    /// The byte in the text; 0 where the number has no place of its own.
    pub place: usize,
}

impl Refusal {
    pub(crate) fn new(number: u32, place: usize) -> Refusal {
        Refusal { number, place }
    }
}

/// The program of a text, for a program buffer of so many bytes.
pub fn compile(text: &[u8], room: usize) -> Result<Vec<u8>, Refusal> {
    let ops = parse(&tokens(text)?, text.len())?;
    let weight = program::weight(&ops);
    if weight > MOST_RECORDS {
        return Err(Refusal::new(7, 0));
    }
    if room < RECORD * weight {
        return Err(Refusal::new(8, 0));
    }
    Ok(program::encode(&ops))
}

#[cfg(test)]
mod tests {
    use super::*;

    fn refused(text: &str) -> Option<(u32, usize)> {
        let refusal = compile(text.as_bytes(), 8192).err()?;
        Some((refusal.number, refusal.place))
    }

    #[test]
    fn the_paper_s_refusals() {
        for (text, number, place) in [
            ("", 4, 0),
            (" \t\n", 4, 3),
            ("-loops )", 4, 7),
            ("-aspath !432", 4, 8),
            ("-type -and", 5, 6),
            ("-type", 4, 5),
            ("-type ", 4, 6),
            ("-loops-and", 4, 0),
            ("-loops '-and' -loops", 4, 7),
            ("'-loops'", 4, 0),
            ("(-loops", 4, 7),
            ("-loops -loops", 4, 7),
            ("-loops -and -or", 4, 12),
            ("-timestamp .5", 5, 11),
            ("-aspath ''", 5, 8),
            ("-aspath 'x", 3, 8),
            ("-communities", 4, 12),
            ("-communities !1:2", 4, 13),
            ("-communities ''", 5, 13),
            ("-communities -and", 5, 13),
            ("-communities 1:2 3:4", 4, 17),
            ("-communities '1:2 65536:0'", 5, 13),
        ] {
            assert_eq!(refused(text), Some((number, place)), "{text}");
        }
    }

    #[test]
    fn levels_up_to_32() {
        assert_eq!(refused(&("!".repeat(32) + "-loops")), None);
        assert_eq!(refused(&("!".repeat(33) + "-loops")), Some((6, 32)));
        assert_eq!(refused(&"(".repeat(4096)), Some((6, 32)));
        assert_eq!(refused(&vec!["(!-loops)"; 40].join("-or")), None);
        // no continuation allows it, whatever the level
        let deep = "(".repeat(32) + "-loops (";
        assert_eq!(refused(&deep), Some((4, 39)));
    }

    #[test]
    fn weights_up_to_512_and_room() {
        let path = |items| format!("-aspath '{}'", vec!["."; items].join(" "));
        assert_eq!(refused(&path(511)), None);
        assert_eq!(refused(&path(512)), Some((7, 0)));
        let communities = |items| format!("-communities '{}'", vec!["1:2"; items].join(" "));
        assert_eq!(refused(&communities(511)), None);
        assert_eq!(refused(&communities(512)), Some((7, 0)));
        assert_eq!(compile(b"-loops", 15), Err(Refusal::new(8, 0)));
        assert_eq!(compile(b"-loops", 16).map(|program| program.len()), Ok(16));
    }

    #[test]
    fn sizes_up_to_4096() {
        assert_eq!(refused(&format!("{:4096}", "-loops")), None);
        assert_eq!(refused(&format!("{:4097}", "-loops")), Some((1, 0)));
    }
}
