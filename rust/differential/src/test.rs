//! The tests of the filter language: how their truths are counted, and what they compile to.

use crate::message::{Message, Prefix, UPDATE};

/// Each by its variant, or its number, in a program.
pub const RELATIONS: [&str; 4] = ["-exact", "-supernet", "-subnet", "-related"];
pub const SIDES: [&str; 3] = ["", "+", "-"];
pub const OPERATORS: [&str; 5] = ["=", "<", "<=", ">", ">="];
pub const ENDS: [&str; 4] = ["plain", "^", "$", "^$"];

/// Communities that have a name.
pub const WELL_KNOWN: [(&str, u32); 3] = [
    ("NO_EXPORT", 0xFFFF_FF01),
    ("NO_ADVERTISE", 0xFFFF_FF02),
    ("NO_EXPORT_SUBCONFED", 0xFFFF_FF03),
];

#[derive(Clone, Copy)]
pub enum Item {
    Number(u32),
    Not(u32),
    Any,
}

pub enum Test {
    Type(u8),
    Attribute(u8),
    /// `ends` has 1 for `^` and 2 for `$`.
    Path {
        ends: u8,
        items: Vec<Item>,
    },
    Peer {
        number: Option<u32>,
        address: Option<u32>,
    },
    Loops,
    Bogon,
    Network {
        relation: u8,
        side: u8,
        prefix: Prefix,
    },
    Time {
        operator: u8,
        seconds: u32,
        microseconds: u32,
    },
    Communities(Vec<u32>),
}

/// One record of a program.
pub type Record = [u8; 16];

pub fn program_record(kind: u8, variant: u8, count: u16, a: u32, b: u32) -> Record {
    let mut record = [0; 16];
    record[0] = kind;
    record[1] = variant;
    record[2..4].copy_from_slice(&count.to_be_bytes());
    record[4..8].copy_from_slice(&a.to_be_bytes());
    record[8..12].copy_from_slice(&b.to_be_bytes());
    record
}

impl Item {
    fn name(&self) -> &'static str {
        match self {
            Item::Number(_) => "number",
            Item::Not(_) => "not",
            Item::Any => "any",
        }
    }

    fn record(&self) -> Record {
        match self {
            Item::Number(number) => program_record(4, 0, 0, *number, 0),
            Item::Not(number) => program_record(4, 1, 0, *number, 0),
            Item::Any => program_record(4, 2, 0, 0, 0),
        }
    }
}

impl Test {
    /// The names under which a truth of the test is counted.
    pub fn labels(&self) -> Vec<String> {
        let label = match self {
            Test::Type(_) => "-type".to_owned(),
            Test::Attribute(_) => "-attr".to_owned(),
            Test::Loops => "-loops".to_owned(),
            Test::Bogon => "-bogon-asn".to_owned(),
            Test::Path { ends, items } => return path_labels(*ends, items),
            Test::Communities(asked) => return community_labels(asked),
            Test::Peer { number, address } => match (number, address) {
                (Some(_), Some(_)) => "-peer both".to_owned(),
                (Some(_), None) => "-peer AS".to_owned(),
                (None, _) => "-peer address".to_owned(),
            },
            Test::Network { relation, side, .. } => {
                let name = RELATIONS[usize::from(*relation)];
                format!("{name} {}", SIDES[usize::from(*side)])
            }
            Test::Time {
                operator,
                microseconds,
                ..
            } => {
                let fraction = if *microseconds == 0 { "" } else { " fraction" };
                format!("-timestamp {}{fraction}", OPERATORS[usize::from(*operator)])
            }
        };
        vec![label]
    }

    /// Why the test can't be true of the message, where what the message is made of shows it.
    pub fn barred(&self, message: &Message) -> Option<&'static str> {
        match self {
            Test::Type(_) | Test::Peer { .. } | Test::Time { .. } => None,
            _ if message.kind != UPDATE => Some("no UPDATE"),
            Test::Attribute(_) | Test::Network { .. } => None,
            Test::Path { .. } | Test::Loops | Test::Bogon => match message.path {
                Some(_) => None,
                None => Some("no AS_PATH"),
            },
            Test::Communities(asked) => match &message.communities {
                Some(held) => lacking(asked, held),
                None => Some("no COMMUNITY"),
            },
        }
    }

    /// The records that the test compiles to.
    pub fn records(&self) -> Vec<Record> {
        let record = match self {
            Test::Type(code) => program_record(1, 0, 0, u32::from(*code), 0),
            Test::Attribute(code) => program_record(2, 0, 0, u32::from(*code), 0),
            Test::Loops => program_record(6, 0, 0, 0, 0),
            Test::Bogon => program_record(7, 0, 0, 0, 0),
            Test::Path { ends, items } => {
                let mut records = vec![program_record(3, *ends, items.len() as u16, 0, 0)];
                records.extend(items.iter().map(Item::record));
                return records;
            }
            Test::Communities(asked) => {
                let mut records = vec![program_record(13, 0, asked.len() as u16, 0, 0)];
                records.extend(asked.iter().map(|c| program_record(4, 0, 0, *c, 0)));
                return records;
            }
            Test::Peer { number, address } => {
                let variant = u8::from(number.is_some()) + 2 * u8::from(address.is_some());
                program_record(5, variant, 0, address.unwrap_or(0), number.unwrap_or(0))
            }
            Test::Network {
                relation,
                side,
                prefix,
            } => {
                let spare = 32 - u32::from(prefix.len);
                let address = prefix.address & u32::MAX.checked_shl(spare).unwrap_or(0);
                let len = u16::from(prefix.len);
                program_record(8, *relation, len, address, u32::from(*side))
            }
            Test::Time {
                operator,
                seconds,
                microseconds,
            } => program_record(9, *operator, 0, *seconds, *microseconds),
        };
        vec![record]
    }
}

/// Why not all that are asked for are held, if that is so.
fn lacking(asked: &[u32], held: &[u32]) -> Option<&'static str> {
    if held.is_empty() {
        return Some("empty COMMUNITY");
    }
    let found = asked.iter().filter(|c| held.contains(c)).count();
    if found == 0 {
        return Some("none held");
    }
    (found < asked.len()).then_some("some missing")
}

/// By what the list has beside communities that come once and without a name.
fn community_labels(asked: &[u32]) -> Vec<String> {
    let mut labels = vec!["-communities".to_owned()];
    let is_known = |c: &u32| WELL_KNOWN.iter().any(|(_, known)| known == c);
    if asked.iter().any(is_known) {
        labels.push("-communities well-known".to_owned());
    }
    let is_again = |place: usize| asked[..place].contains(&asked[place]);
    if (0..asked.len()).any(is_again) {
        labels.push("-communities repeated".to_owned());
    }
    labels
}

/// By the ends, and by each kind of item that the pattern has.
fn path_labels(ends: u8, items: &[Item]) -> Vec<String> {
    let ends = ENDS[usize::from(ends)];
    if items.is_empty() {
        return vec![format!("-aspath {ends} alone")];
    }
    let mut labels = vec![format!("-aspath {ends}")];
    for name in ["number", "not", "any"] {
        if items.iter().any(|item| item.name() == name) {
            labels.push(format!("-aspath item {name}"));
        }
    }
    labels
}
