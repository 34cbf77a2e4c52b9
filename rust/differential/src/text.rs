//! Texts of the filter language: good ones, and ones with a slip for a refusal's number.

use crate::message::Message;
use crate::operand::{self, any_operand, near_operands, one_of, OPERANDS};
use crate::random::Random;
use crate::test::Test;
use crate::token::{joined, Token};

const TEXT_LIMIT: usize = 4096;
const LEVELS: usize = 32;
const WEIGHT_LIMIT: usize = 512;

fn put_expression(out: &mut Vec<Token>, depth: usize, message: &Message, random: &mut Random) {
    put_conjunction(out, depth, message, random);
    while random.one_in(3) {
        out.push(Token::word("-or"));
        put_conjunction(out, depth, message, random);
    }
}

fn put_conjunction(out: &mut Vec<Token>, depth: usize, message: &Message, random: &mut Random) {
    put_factor(out, depth, message, random);
    while random.one_in(3) {
        out.push(Token::word("-and"));
        put_factor(out, depth, message, random);
    }
}

fn put_factor(out: &mut Vec<Token>, depth: usize, message: &Message, random: &mut Random) {
    if depth == 0 || random.one_in(2) {
        out.extend(Test::aimed(message, random).tokens(random));
        return;
    }
    if random.one_in(2) {
        out.push(Token::Mark(b'!'));
        put_factor(out, depth - 1, message, random);
        return;
    }
    out.push(Token::Mark(b'('));
    put_expression(out, depth - 1, message, random);
    out.push(Token::Mark(b')'));
}

fn expression(message: &Message, random: &mut Random) -> Vec<Token> {
    let mut tokens = Vec::new();
    put_expression(&mut tokens, 4, message, random);
    tokens
}

/// A test alone, as a text.
pub fn of_test(test: &Test, random: &mut Random) -> Vec<u8> {
    let tokens = test.tokens(random);
    joined(&tokens, random)
}

/// A text of the language, aimed at a message.
pub fn good(message: &Message, random: &mut Random) -> Vec<u8> {
    let tokens = expression(message, random);
    joined(&tokens, random)
}

/// A text with a slip for each of the numbers 1 to 7 that are named, though one may hide another.
pub fn slipped(message: &Message, slips: &[u32], random: &mut Random) -> Vec<u8> {
    let mut tokens = expression(message, random);
    if slips.contains(&7) {
        tokens = heavy(tokens, random);
    }
    if slips.contains(&6) {
        tokens = deep(tokens, random);
    }
    if slips.contains(&5) {
        spoil_operand(&mut tokens, random);
    }
    if slips.contains(&4) {
        spoil_order(&mut tokens, random);
    }
    let mut text = joined(&tokens, random);
    if slips.contains(&3) {
        let place = random.within(0, text.len());
        text.insert(place, b'\'');
    }
    if slips.contains(&2) {
        let place = random.within(0, text.len());
        let forbidden = random.pick(&[0x00, 0x08, 0x0B, 0x0D, 0x1F, 0x7F, 0x80, 0xFF]);
        text.insert(place, forbidden);
    }
    if slips.contains(&1) {
        lengthen(&mut text, random);
    }
    text
}

/// Blanks, at the front or the end, up to about the limit.
fn lengthen(text: &mut Vec<u8>, random: &mut Random) {
    let wanted = TEXT_LIMIT + random.pick(&[0, 1, 1, 2, 200]);
    let missing = wanted.saturating_sub(text.len());
    let place = random.pick(&[0, text.len()]);
    text.splice(place..place, vec![b' '; missing]);
}

/// The tokens within about as many levels as there may be.
fn deep(tokens: Vec<Token>, random: &mut Random) -> Vec<Token> {
    let levels = random.within(LEVELS - 4, LEVELS + 2);
    let marks: Vec<u8> = (0..levels).map(|_| random.pick(b"(!")).collect();
    let mut out: Vec<Token> = marks.iter().map(|mark| Token::Mark(*mark)).collect();
    out.push(Token::Mark(b'('));
    out.extend(tokens);
    out.push(Token::Mark(b')'));
    let opened = marks.iter().filter(|mark| **mark == b'(').count();
    out.extend(vec![Token::Mark(b')'); opened]);
    out
}

/// A test with an item so many times.
fn listed(test: &str, item: &str, count: usize) -> [Token; 2] {
    let items = vec![item; count].join(" ");
    [Token::word(test), Token::Quoted(items.into_bytes())]
}

/// The tokens beside a pattern, a list of communities or a row of tests, of about as much weight as a text may have.
fn heavy(tokens: Vec<Token>, random: &mut Random) -> Vec<Token> {
    let records = WEIGHT_LIMIT - random.pick(&[0, 0, 1, 2, 3, 4, 8, 12]);
    let mut out = Vec::new();
    match random.below(3) {
        0 => out.extend(listed("-aspath", ".", records - 1)),
        1 => out.extend(listed("-communities", "1:2", records - 1)),
        _ => {
            for _ in 1..records / 2 {
                out.extend([Token::word("-loops"), Token::word("-or")]);
            }
            out.push(Token::word("-loops"));
        }
    }
    if random.one_in(2) {
        out.push(Token::word(random.pick(&["-and", "-or"])));
        out.extend(tokens);
    }
    out
}

/// Changes the operand of some test, if one has an operand.
fn spoil_operand(tokens: &mut [Token], random: &mut Random) {
    let near = |token: &Token| match token {
        Token::Word(word) => near_operands(word),
        _ => None,
    };
    let places: Vec<(usize, &str)> = (1..tokens.len())
        .filter_map(|place| Some((place, near(&tokens[place - 1])?)))
        .collect();
    if places.is_empty() {
        return;
    }
    let (place, near) = random.pick(&places);
    let (Token::Word(operand) | Token::Quoted(operand)) = &tokens[place] else {
        return;
    };
    let mut operand = operand.clone();
    match random.below(5) {
        0 => operand = any_operand(random),
        1 | 2 => edit(&mut operand, random),
        _ => operand = one_of(near, random).as_bytes().to_vec(),
    }
    tokens[place] = Token::operand(operand, random);
}

/// One byte put in, taken out or exchanged: mostly one that means something.
fn edit(bytes: &mut Vec<u8>, random: &mut Random) {
    const BYTES: &[u8] = b"()!' \t\n-+^$./:<>=0123456789aeorLNOPSUX_";
    let byte = match random.below(4) {
        0 => random.within(0x20, 0x7E) as u8,
        _ => random.pick(BYTES),
    };
    let place = random.within(0, bytes.len());
    if place == bytes.len() || random.one_in(3) {
        bytes.insert(place, byte);
        return;
    }
    if random.one_in(2) {
        bytes.remove(place);
        return;
    }
    bytes[place] = byte;
}

fn spoil_order(tokens: &mut Vec<Token>, random: &mut Random) {
    let place = random.below(tokens.len());
    match random.below(6) {
        0 => {
            tokens.remove(place);
        }
        1 => tokens.insert(place, tokens[place].clone()),
        2 => tokens.truncate(place),
        3 => tokens[place] = Token::any(random),
        4 => tokens[place] = tokens[place].requoted(),
        _ => tokens.insert(place, Token::any(random)),
    }
}

/// A good text with a few bytes changed.
pub fn edited(message: &Message, random: &mut Random) -> Vec<u8> {
    let mut text = good(message, random);
    for _ in 0..random.within(1, 3) {
        edit(&mut text, random);
    }
    text
}

/// A test alone, with an operand at the border of its rule.
pub fn bordering(random: &mut Random) -> Vec<u8> {
    let (tests, operands) = random.pick(&OPERANDS);
    let operand = one_of(operands, random).as_bytes().to_vec();
    let tokens = [
        Token::word(one_of(tests, random)),
        Token::operand(operand, random),
    ];
    joined(&tokens, random)
}

/// A list of communities that isn't taken, and what is wrong with it.
pub fn wrong_communities(random: &mut Random) -> (&'static str, Vec<u8>) {
    let (cause, operand) = operand::wrong_communities(random);
    let tokens = [
        Token::word("-communities"),
        Token::operand(operand.into_bytes(), random),
    ];
    (cause, joined(&tokens, random))
}

/// Any token after any token.
pub fn jumbled(random: &mut Random) -> Vec<u8> {
    let tokens: Vec<Token> = (0..random.below(8)).map(|_| Token::any(random)).collect();
    joined(&tokens, random)
}
