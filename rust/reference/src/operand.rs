//! What the operand of a test stands for; nothing where it breaks the test's rule.

use std::net::Ipv4Addr;

use crate::community::Community;
use crate::path::{Item, Pattern};
use crate::prefix::Prefix;
use crate::test::{Comparison, Network, Peer, Relation, Side, Time};
use crate::token::BLANKS;

const TYPES: [(&str, u8); 5] = [
    ("OPEN", 1),
    ("UPDATE", 2),
    ("NOTIFICATION", 3),
    ("KEEPALIVE", 4),
    ("ROUTE_REFRESH", 5),
];

const ATTRIBUTES: [(&str, u8); 13] = [
    ("ORIGIN", 1),
    ("AS_PATH", 2),
    ("NEXT_HOP", 3),
    ("MULTI_EXIT_DISC", 4),
    ("LOCAL_PREF", 5),
    ("ATOMIC_AGGREGATE", 6),
    ("AGGREGATOR", 7),
    ("COMMUNITY", 8),
    ("MP_REACH_NLRI", 14),
    ("MP_UNREACH_NLRI", 15),
    ("AS4_PATH", 17),
    ("AS4_AGGREGATOR", 18),
    ("LARGE_COMMUNITY", 32),
];

/// Longer signs stand before those that they begin with.
const COMPARISONS: [(&str, Comparison); 5] = [
    (">=", Comparison::GreaterOrEqual),
    ("<=", Comparison::LessOrEqual),
    (">", Comparison::Greater),
    ("<", Comparison::Less),
    ("=", Comparison::Equal),
];

pub fn message_type(operand: &str) -> Option<u8> {
    code(&TYPES, operand)
}

pub fn attribute(operand: &str) -> Option<u8> {
    code(&ATTRIBUTES, operand)
}

fn code(names: &[(&str, u8)], operand: &str) -> Option<u8> {
    match names.iter().find(|(name, _)| *name == operand) {
        Some((_, code)) => Some(*code),
        None => decimal(operand)?.try_into().ok(),
    }
}

/// Optional `^`, items parted by blanks, optional `$`.
pub fn pattern(operand: &str) -> Option<Pattern> {
    let trimmed = operand.trim_matches(BLANKS);
    if trimmed.is_empty() {
        return None;
    }
    let (start, rest) = stripped(trimmed.strip_prefix('^'), trimmed);
    let (end, items) = stripped(rest.strip_suffix('$'), rest);
    Some(Pattern {
        start,
        end,
        items: words(items).map(item).collect::<Option<_>>()?,
    })
}

fn stripped<'a>(rest: Option<&'a str>, whole: &'a str) -> (bool, &'a str) {
    (rest.is_some(), rest.unwrap_or(whole))
}

fn item(word: &str) -> Option<Item> {
    if word == "." {
        return Some(Item::Any);
    }
    match word.strip_prefix('!') {
        Some(number) => decimal(number).map(Item::Not),
        None => decimal(word).map(Item::Number),
    }
}

/// An AS number, an address, or an address, blanks and an AS number.
pub fn peer(operand: &str) -> Option<Peer> {
    if let Some((front, back)) = operand.split_once(BLANKS) {
        return Some(Peer::Both {
            address: address(front)?,
            number: decimal(back.trim_start_matches(BLANKS))?,
        });
    }
    decimal(operand)
        .map(Peer::Number)
        .or_else(|| address(operand).map(Peer::Address))
}

/// `a.b.c.d/len`, after `+` or `-` or neither.
pub fn network(relation: Relation, operand: &str) -> Option<Network> {
    let (side, text) = match operand.as_bytes().first()? {
        b'+' => (Side::Announced, &operand[1..]),
        b'-' => (Side::Withdrawn, &operand[1..]),
        _ => (Side::Either, operand),
    };
    let (front, back) = text.split_once('/')?;
    let length = decimal(back).filter(|length| *length <= 32)?;
    Some(Network {
        relation,
        prefix: Prefix::new(address(front)?, length as u8),
        side,
    })
}

/// Seconds, perhaps with a fraction, after a sign or none.
pub fn time(operand: &str) -> Option<Time> {
    let signed = |(sign, comparison)| Some((comparison, operand.strip_prefix(sign)?));
    let (comparison, text) = COMPARISONS
        .into_iter()
        .find_map(signed)
        .unwrap_or((Comparison::Equal, operand));
    let (seconds, micros) = match text.split_once('.') {
        Some((seconds, fraction)) => (seconds, micros(fraction)?),
        None => (text, 0),
    };
    Some(Time {
        comparison,
        seconds: decimal(seconds)?,
        micros,
    })
}

/// One or more communities parted by blanks, with none at the ends.
pub fn communities(operand: &str) -> Option<Vec<Community>> {
    let trimmed = operand.trim_matches(BLANKS);
    if trimmed.is_empty() || trimmed != operand {
        return None;
    }
    words(operand).map(community).collect()
}

/// `N:M` or a name.
fn community(word: &str) -> Option<Community> {
    if let Some(community) = Community::named(word) {
        return Some(community);
    }
    let (first, second) = word.split_once(':')?;
    Some(Community::new(half(first)?, half(second)?))
}

fn half(text: &str) -> Option<u16> {
    decimal(text)?.try_into().ok()
}

/// Runs without blanks.
fn words(text: &str) -> impl Iterator<Item = &str> {
    text.split(BLANKS).filter(|word| !word.is_empty())
}

/// One to six digits after the dot; leading zeros count.
fn micros(fraction: &str) -> Option<u32> {
    let missing = 6usize.checked_sub(fraction.len())?;
    Some(digits(fraction)? * 10u32.pow(missing as u32))
}

/// The standard library refuses leading zeros too.
fn address(text: &str) -> Option<u32> {
    text.parse::<Ipv4Addr>().ok().map(u32::from)
}

/// A number below 2^32 without leading zeros.
fn decimal(text: &str) -> Option<u32> {
    let leading_zero = text.len() > 1 && text.starts_with('0');
    if leading_zero {
        return None;
    }
    digits(text)
}

/// `parse` alone would take a sign.
fn digits(text: &str) -> Option<u32> {
    if !text.bytes().all(|byte| byte.is_ascii_digit()) {
        return None;
    }
    text.parse().ok()
}

#[cfg(test)]
mod tests {
    use super::*;

    #[test]
    fn codes_by_name_or_number() {
        assert_eq!(message_type("ROUTE_REFRESH"), Some(5));
        assert_eq!(message_type("255"), Some(255));
        assert_eq!(attribute("LARGE_COMMUNITY"), Some(32));
        assert_eq!(attribute("0"), Some(0));
        for wrong in ["256", "00", "01", "+1", "open", "ORIGIN ", "", "4294967296"] {
            assert_eq!(message_type(wrong), None, "{wrong}");
        }
    }

    #[test]
    fn patterns() {
        for (text, start, end, count) in [
            ("^", true, false, 0),
            ("$", false, true, 0),
            (" ^\t$\n", true, true, 0),
            ("^5$", true, true, 1),
            ("^ !5 . 4294967295 $", true, true, 3),
            ("0", false, false, 1),
        ] {
            let pattern = pattern(text).expect(text);
            let read = (pattern.start, pattern.end, pattern.items.len());
            assert_eq!(read, (start, end, count), "{text}");
        }
        for wrong in [
            "",
            " ",
            "! 5",
            "!.",
            ".5",
            "5.",
            "^^",
            "$ 5",
            "5 ^",
            "$$",
            "5!6",
            "!!5",
            "!",
            "05",
            "4294967296",
            "..",
            "!5.",
        ] {
            assert_eq!(pattern(wrong), None, "{wrong}");
        }
    }

    #[test]
    fn peers() {
        assert_eq!(peer("5"), Some(Peer::Number(5)));
        assert_eq!(peer("0.0.0.5"), Some(Peer::Address(5)));
        let (address, number) = (0x0102_03FF, 7);
        assert_eq!(peer("1.2.3.255 \t 7"), Some(Peer::Both { address, number }));
        for wrong in [
            "",
            " 5",
            "5 ",
            "1.2.3.4 ",
            "1.2.3.4 x",
            "5 1.2.3.4",
            "1.2.3",
            "1.2.3.4.5",
            "01.2.3.4",
            "1.2.3.256",
            "1.2.3.4 5 6",
            "1.2.3.00",
        ] {
            assert_eq!(peer(wrong), None, "{wrong}");
        }
    }

    #[test]
    fn networks() {
        let read = network(Relation::Subnet, "-10.1.2.3/8").unwrap();
        assert_eq!(read.side, Side::Withdrawn);
        assert_eq!(read.prefix, Prefix::new(0x0A00_0000, 8));
        assert!(network(Relation::Exact, "255.255.255.255/32").is_some());
        assert!(network(Relation::Exact, "+0.0.0.0/0").is_some());
        for wrong in [
            "",
            "+",
            "10.0.0.0",
            "10.0.0.0/",
            "10.0.0.0/33",
            "10.0.0.0/08",
            "+ 10.0.0.0/8",
            "++10.0.0.0/8",
            "10.0.0/8",
            "10.0.0.0/8/8",
            " 10.0.0.0/8",
            "10.0.0.0/+8",
        ] {
            assert_eq!(network(Relation::Exact, wrong), None, "{wrong}");
        }
    }

    #[test]
    fn times() {
        let read = |text| time(text).map(|t| (t.comparison, t.seconds, t.micros));
        assert_eq!(read("7.5"), Some((Comparison::Equal, 7, 500_000)));
        assert_eq!(read(">=7.000005"), Some((Comparison::GreaterOrEqual, 7, 5)));
        assert_eq!(read("<0"), Some((Comparison::Less, 0, 0)));
        assert_eq!(
            read("=4294967295.0"),
            Some((Comparison::Equal, u32::MAX, 0))
        );
        for wrong in [
            "",
            ".5",
            "7.",
            "7.1234567",
            "07",
            "4294967296",
            "=>7",
            "==7",
            ">= 7",
            "7.5.5",
            "7.+5",
            "-7",
            ">",
            "7 ",
        ] {
            assert_eq!(time(wrong), None, "{wrong}");
        }
    }

    #[test]
    fn community_lists() {
        let read = |text| communities(text).map(|all| all.iter().map(|c| c.halves()).collect());
        assert_eq!(read("0:0"), Some(vec![(0, 0)]));
        assert_eq!(read("65535:65535"), Some(vec![(65535, 65535)]));
        assert_eq!(
            read("3356:3 \t\nNO_EXPORT 3356:3"),
            Some(vec![(3356, 3), (65535, 65281), (3356, 3)])
        );
        for wrong in [
            "",
            " ",
            " 1:2",
            "1:2 ",
            "1:2\n",
            "65536:1",
            "1:65536",
            "01:2",
            "1:02",
            "00:0",
            "1:",
            ":1",
            ":",
            "1",
            "1:2:3",
            "1::2",
            "1 :2",
            "1: 2",
            "1.2",
            "1:2.",
            "1:2,3:4",
            "+1:2",
            "1:-2",
            "no_export",
            "NO_EXPOR",
            "NO_EXPORTS",
            "NO_EXPORT:1",
            "NO_EXPORT_SUB",
            "1:2 x",
        ] {
            assert_eq!(communities(wrong), None, "{wrong}");
        }
    }
}
