//! Tests as tokens, in any of the ways that they can be written.

use crate::random::Random;
use crate::test::{Item, Test, OPERATORS, RELATIONS, SIDES, WELL_KNOWN};
use crate::token::{blanks, Token};

/// Names of type and attribute codes.
const TYPES: [(&str, u8); 5] = [
    ("OPEN", 1),
    ("UPDATE", 2),
    ("NOTIFICATION", 3),
    ("KEEPALIVE", 4),
    ("ROUTE_REFRESH", 5),
];
const ATTRIBUTES: [(&str, u8); 13] = [
    ("ORIGIN", 1),
    ("AS_PATH", 2),
    ("NEXT_HOP", 3),
    ("MULTI_EXIT_DISC", 4),
    ("LOCAL_PREF", 5),
    ("ATOMIC_AGGREGATE", 6),
    ("AGGREGATOR", 7),
    ("COMMUNITY", 8),
    ("MP_REACH_NLRI", 14),
    ("MP_UNREACH_NLRI", 15),
    ("AS4_PATH", 17),
    ("AS4_AGGREGATOR", 18),
    ("LARGE_COMMUNITY", 32),
];

impl Test {
    /// The word of the test and its operand.
    pub fn tokens(&self, random: &mut Random) -> Vec<Token> {
        let (word, operand) = match self {
            Test::Loops => return vec![Token::word("-loops")],
            Test::Bogon => return vec![Token::word("-bogon-asn")],
            Test::Type(code) => ("-type", code_text(*code, &TYPES, random)),
            Test::Attribute(code) => ("-attr", code_text(*code, &ATTRIBUTES, random)),
            Test::Path { ends, items } => ("-aspath", pattern_text(*ends, items, random)),
            Test::Communities(asked) => ("-communities", communities_text(asked, random)),
            Test::Peer { number, address } => ("-peer", peer_text(*number, *address, random)),
            Test::Network {
                relation,
                side,
                prefix,
            } => {
                let side = SIDES[usize::from(*side)];
                let operand = format!("{side}{}/{}", dotted(prefix.address), prefix.len);
                (RELATIONS[usize::from(*relation)], operand)
            }
            Test::Time {
                operator,
                seconds,
                microseconds,
            } => {
                let operator = operator_text(*operator, random);
                let fraction = fraction_text(*microseconds, random);
                ("-timestamp", format!("{operator}{seconds}{fraction}"))
            }
        };
        vec![
            Token::word(word),
            Token::operand(operand.into_bytes(), random),
        ]
    }
}

fn code_text(code: u8, names: &[(&str, u8)], random: &mut Random) -> String {
    match names.iter().find(|(_, named)| *named == code) {
        Some((name, _)) if !random.one_in(3) => (*name).to_owned(),
        _ => code.to_string(),
    }
}

fn dotted(address: u32) -> String {
    let [a, b, c, d] = address.to_be_bytes();
    format!("{a}.{b}.{c}.{d}")
}

fn peer_text(number: Option<u32>, address: Option<u32>, random: &mut Random) -> String {
    let mut text = address.map(dotted).unwrap_or_default();
    if address.is_some() && number.is_some() {
        text.push_str(blanks(random, true));
    }
    if let Some(number) = number {
        text.push_str(&number.to_string());
    }
    text
}

/// No operator means `=`.
fn operator_text(operator: u8, random: &mut Random) -> &'static str {
    if operator == 0 && random.one_in(2) {
        return "";
    }
    OPERATORS[usize::from(operator)]
}

/// Nothing, or a dot and the digits with as many zeros behind them as one likes.
fn fraction_text(microseconds: u32, random: &mut Random) -> String {
    if microseconds == 0 && random.one_in(2) {
        return String::new();
    }
    let mut digits = format!(".{microseconds:06}");
    while digits.len() > 2 && digits.ends_with('0') && !random.one_in(3) {
        digits.pop();
    }
    digits
}

/// A name where there is one, or the halves.
fn community_text(community: u32, random: &mut Random) -> String {
    match WELL_KNOWN.iter().find(|(_, known)| *known == community) {
        Some((name, _)) if !random.one_in(3) => (*name).to_owned(),
        _ => format!("{}:{}", community >> 16, community & 0xFFFF),
    }
}

fn communities_text(asked: &[u32], random: &mut Random) -> String {
    let mut text = String::new();
    for (place, community) in asked.iter().enumerate() {
        if place > 0 {
            text.push_str(blanks(random, true));
        }
        text.push_str(&community_text(*community, random));
    }
    text
}

fn item_text(item: &Item) -> String {
    match item {
        Item::Number(number) => number.to_string(),
        Item::Not(number) => format!("!{number}"),
        Item::Any => ".".to_owned(),
    }
}

fn pattern_text(ends: u8, items: &[Item], random: &mut Random) -> String {
    let mut text = blanks(random, false).to_owned();
    if ends & 1 != 0 {
        text.push('^');
        text.push_str(blanks(random, false));
    }
    for (place, item) in items.iter().enumerate() {
        if place > 0 {
            text.push_str(blanks(random, true));
        }
        text.push_str(&item_text(item));
    }
    if ends & 2 != 0 {
        text.push_str(blanks(random, false));
        text.push('$');
    }
    text.push_str(blanks(random, false));
    text
}
