//! The tokens of a text: refusals 1 to 3.

use crate::compile::Refusal;

const LONGEST_TEXT: usize = 4096;

/// Blanks part words.
pub const BLANKS: [char; 3] = [' ', '\t', '\n'];

/// A token and its first byte's place.
#[derive(Clone, Copy, Debug, PartialEq, Eq)]
pub struct Token<'a> {
    pub kind: Kind<'a>,
    pub place: usize,
}

#[derive(Clone, Copy, Debug, PartialEq, Eq)]
pub enum Kind<'a> {
    Open,
    Close,
    Not,
    Word(&'a str),
    Quoted(&'a str),
}

/// All tokens of a text.
pub fn tokens(text: &[u8]) -> Result<Vec<Token<'_>>, Refusal> {
    if text.len() > LONGEST_TEXT {
        return Err(Refusal::new(1, 0));
    }
    if let Some(place) = text.iter().position(|byte| !is_allowed(*byte)) {
        return Err(Refusal::new(2, place));
    }
    let text = std::str::from_utf8(text).expect("allowed bytes are ASCII");
    let mut tokens = Vec::new();
    let mut place = 0;
    while let Some(skipped) = text[place..].find(|c| !BLANKS.contains(&c)) {
        place += skipped;
        let (kind, size) = token(&text[place..]).ok_or(Refusal::new(3, place))?;
        tokens.push(Token { kind, place });
        place += size;
    }
    Ok(tokens)
}

fn is_allowed(byte: u8) -> bool {
    matches!(byte, 0x20..=0x7E | b'\t' | b'\n')
}

/// The token at the front of a text that has no blank there, and its bytes; nothing for a quote that isn't closed.
fn token(text: &str) -> Option<(Kind<'_>, usize)> {
    if let Some(quoted) = text.strip_prefix('\'') {
        let (inner, _) = quoted.split_once('\'')?;
        return Some((Kind::Quoted(inner), inner.len() + 2));
    }
    Some(match text.as_bytes()[0] {
        b'(' => (Kind::Open, 1),
        b')' => (Kind::Close, 1),
        b'!' => (Kind::Not, 1),
        _ => {
            let size = text.find(ends_word).unwrap_or(text.len());
            (Kind::Word(&text[..size]), size)
        }
    })
}

fn ends_word(c: char) -> bool {
    BLANKS.contains(&c) || matches!(c, '(' | ')' | '!' | '\'')
}

#[cfg(test)]
mod tests {
    use super::*;

    fn kinds(text: &str) -> Vec<Kind<'_>> {
        let tokens = tokens(text.as_bytes()).unwrap();
        tokens.iter().map(|token| token.kind).collect()
    }

    #[test]
    fn marks_need_no_blanks() {
        assert_eq!(
            kinds("(-loops)!-a'5''6'"),
            [
                Kind::Open,
                Kind::Word("-loops"),
                Kind::Close,
                Kind::Not,
                Kind::Word("-a"),
                Kind::Quoted("5"),
                Kind::Quoted("6"),
            ]
        );
    }

    #[test]
    fn a_forbidden_byte_comes_before_an_open_quote() {
        assert_eq!(tokens(b"'a\r"), Err(Refusal::new(2, 2)));
        assert_eq!(tokens(b" 'a' 'b"), Err(Refusal::new(3, 5)));
        assert_eq!(tokens(&[0xFF; 4097]), Err(Refusal::new(1, 0)));
    }
}
