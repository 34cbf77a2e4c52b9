//! Tokens of the filter language, and texts made of them.

use crate::operand::{any_operand, one_of};
use crate::random::Random;

/// Words that stand wrong somewhere, or everywhere, with `|` between them.
const WORDS: &str = "-and|-or|-loops|-bogon-asn|-type|-attr|-aspath|-peer|-exact|-timestamp|-communities|-not|-a|-o|-AND|-loop|-loopss|x|5";

#[derive(Clone)]
pub enum Token {
    Mark(u8),
    Word(Vec<u8>),
    Quoted(Vec<u8>),
}

impl Token {
    pub fn word(word: &str) -> Token {
        Token::Word(word.as_bytes().to_vec())
    }

    /// An operand, in quotes if it needs them, and sometimes if it doesn't.
    pub fn operand(operand: Vec<u8>, random: &mut Random) -> Token {
        let needs = operand.is_empty() || operand.iter().any(|byte| b" \t\n()!".contains(byte));
        if needs || random.one_in(3) {
            return Token::Quoted(operand);
        }
        Token::Word(operand)
    }

    /// The same with quotes, or without.
    pub fn requoted(&self) -> Token {
        match self {
            Token::Mark(mark) => Token::Quoted(vec![*mark]),
            Token::Word(content) => Token::Quoted(content.clone()),
            Token::Quoted(content) => Token::Word(content.clone()),
        }
    }

    /// Any token at all.
    pub fn any(random: &mut Random) -> Token {
        match random.below(8) {
            0 => Token::Mark(b'('),
            1 => Token::Mark(b')'),
            2 => Token::Mark(b'!'),
            3 => Token::operand(any_operand(random), random),
            _ => Token::word(one_of(WORDS, random)),
        }
    }
}

/// Blanks: at least one if one is needed, else any number.
pub fn blanks(random: &mut Random, needed: bool) -> &'static str {
    if !needed && random.one_in(4) {
        return "";
    }
    random.pick(&[" ", " ", "\t", "\n", "  ", " \t\n"])
}

/// The tokens with blanks around them, where two words need some.
pub fn joined(tokens: &[Token], random: &mut Random) -> Vec<u8> {
    let mut text = blanks(random, false).as_bytes().to_vec();
    let mut after_word = false;
    for token in tokens {
        let is_word = matches!(token, Token::Word(_));
        text.extend_from_slice(blanks(random, after_word && is_word).as_bytes());
        match token {
            Token::Mark(mark) => text.push(*mark),
            Token::Word(word) => text.extend_from_slice(word),
            Token::Quoted(content) => {
                text.push(b'\'');
                text.extend_from_slice(content);
                text.push(b'\'');
            }
        }
        after_word = is_word;
    }
    text.extend_from_slice(blanks(random, false).as_bytes());
    text
}
