//! A filter whose tokens are arguments, one each.

use std::ffi::{OsStr, OsString};
use std::os::unix::ffi::OsStrExt;

use crate::arguments::{is_option, Misuse};

#[derive(Debug, PartialEq, Eq)]
pub struct Expression {
    pub text: Vec<u8>,
    /// What to do instead, where the first argument was hardly meant as a token.
    pub advice: Option<&'static str>,
}

impl Expression {
    pub fn of(arguments: &[OsString]) -> Result<Expression, Misuse> {
        let tokens: Vec<Vec<u8>> = arguments
            .iter()
            .map(|argument| token(argument))
            .collect::<Result<_, _>>()?;
        Ok(Expression {
            text: tokens.join(&b' '),
            advice: arguments.first().and_then(|first| advice(first)),
        })
    }
}

fn advice(first: &OsStr) -> Option<&'static str> {
    let bytes = first.as_bytes();
    if has_blank(bytes) {
        return Some("use -e for a filter in one argument");
    }
    if is_option(first) {
        return Some("options stand before the files");
    }
    matches!(bytes, [b'-', _]).then_some("there is no such option")
}

/// The token that an argument is: a mark or a word as it stands, all else in quotes.
fn token(argument: &OsStr) -> Result<Vec<u8>, Misuse> {
    let bytes = argument.as_bytes();
    if bytes.contains(&b'\'') {
        return Err(Misuse(format!(
            "{}: a token of the expression has no '; use -e or -f for this filter",
            argument.display()
        )));
    }
    let is_word = !bytes.is_empty() && !has_blank(bytes) && !bytes.iter().any(is_mark);
    let is_token = is_word || bytes.len() == 1 && is_mark(&bytes[0]);
    if is_token {
        return Ok(bytes.to_vec());
    }
    Ok([b"'", bytes, b"'"].concat())
}

fn has_blank(bytes: &[u8]) -> bool {
    bytes.iter().any(is_blank)
}

/// Whether a byte parts tokens of the filter language.
pub fn is_blank(byte: &u8) -> bool {
    matches!(byte, b' ' | b'\t' | b'\n')
}

/// Whether a byte is a token alone.
pub fn is_mark(byte: &u8) -> bool {
    matches!(byte, b'(' | b')' | b'!')
}

#[cfg(test)]
mod tests {
    use super::*;

    fn expression(arguments: &[&str]) -> Result<Expression, Misuse> {
        let arguments: Vec<OsString> = arguments.iter().map(OsString::from).collect();
        Expression::of(&arguments)
    }

    #[test]
    fn each_argument_is_a_token() {
        for (arguments, text) in [
            (&["!", "(", "-loops", ")"][..], "! ( -loops )"),
            (&["-aspath", "!5"], "-aspath '!5'"),
            (&["-aspath", "5 6\t7\n8"], "-aspath '5 6\t7\n8'"),
            (&["-aspath", ""], "-aspath ''"),
            (&["-peer", "a(b", "!!", "()"], "-peer 'a(b' '!!' '()'"),
        ] {
            let expression = expression(arguments).unwrap();
            assert_eq!(expression.text, text.as_bytes());
            assert_eq!(expression.advice, None);
        }
    }

    #[test]
    fn a_quote_is_no_part_of_a_token() {
        let Misuse(what) = expression(&["-aspath", "'5 6'"]).unwrap_err();
        assert!(what.ends_with("use -e or -f for this filter"), "{what}");
    }

    #[test]
    fn a_first_argument_that_is_no_token_gets_advice() {
        let advice = |first| expression(&[first, "-loops"]).unwrap().advice.unwrap();
        assert!(advice("-loops -and").starts_with("use -e "));
        assert!(advice("-c").starts_with("options stand before"));
        assert!(advice("--output=x").starts_with("options stand before"));
        assert!(advice("-x").starts_with("there is no such option"));
    }
}
