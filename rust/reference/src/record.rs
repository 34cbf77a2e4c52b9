//! The records of a program: 16 bytes each, with the layout of the paper's table.

use crate::bytes::Bytes;
use crate::community::Community;
use crate::path::{Item, Pattern};
use crate::prefix::Prefix;
use crate::program::Op;
use crate::test::{Comparison, Network, Peer, Relation, Side, Test, Time};

/// The bytes of a record.
pub const RECORD: usize = 16;

/// The fields of a record; those that its kind doesn't use are zero.
#[derive(Clone, Copy)]
pub struct Record {
    kind: u8,
    variant: u8,
    count: u16,
    a: u32,
    b: u32,
}

impl Record {
    fn new(kind: u8, variant: u8) -> Record {
        Record {
            kind,
            variant,
            count: 0,
            a: 0,
            b: 0,
        }
    }

    fn counting(self, count: usize) -> Record {
        // a program has at most 512 records
        let count = count as u16;
        Record { count, ..self }
    }

    fn with(self, a: u32, b: u32) -> Record {
        Record { a, b, ..self }
    }

    pub fn append(self, program: &mut Vec<u8>) {
        program.extend_from_slice(&[self.kind, self.variant]);
        program.extend_from_slice(&self.count.to_be_bytes());
        program.extend_from_slice(&self.a.to_be_bytes());
        program.extend_from_slice(&self.b.to_be_bytes());
        program.extend_from_slice(&[0; 4]);
    }

    /// Nothing where the last four bytes aren't zero.
    pub fn read(record: &[u8]) -> Option<Record> {
        let mut bytes = Bytes(record);
        let record = Record {
            kind: bytes.u8()?,
            variant: bytes.u8()?,
            count: bytes.u16()?,
            a: bytes.u32()?,
            b: bytes.u32()?,
        };
        (bytes.u32()? == 0).then_some(record)
    }

    pub fn flip() -> Record {
        Record::new(10, 0)
    }

    pub fn pass(when: bool, records: usize) -> Record {
        let kind = if when { 12 } else { 11 };
        Record::new(kind, 0).counting(records)
    }

    /// The record of a test; its items follow it.
    pub fn of_test(test: &Test) -> Record {
        match test {
            Test::Type(code) => Record::new(1, 0).with((*code).into(), 0),
            Test::Attribute(code) => Record::new(2, 0).with((*code).into(), 0),
            Test::Path(pattern) => {
                let pins = u8::from(pattern.start) + 2 * u8::from(pattern.end);
                Record::new(3, pins).counting(test.item_count())
            }
            Test::Peer(Peer::Number(number)) => Record::new(5, 1).with(0, *number),
            Test::Peer(Peer::Address(address)) => Record::new(5, 2).with(*address, 0),
            Test::Peer(Peer::Both { address, number }) => Record::new(5, 3).with(*address, *number),
            Test::Loops => Record::new(6, 0),
            Test::Bogon => Record::new(7, 0),
            Test::Network(network) => Record::new(8, network.relation as u8)
                .counting(network.prefix.length.into())
                .with(network.prefix.address, network.side as u32),
            Test::Time(time) => {
                Record::new(9, time.comparison as u8).with(time.seconds, time.micros)
            }
            Test::Communities(_) => Record::new(13, 0).counting(test.item_count()),
        }
    }

    /// The items that follow the record of a test.
    pub fn of_items(test: &Test) -> Vec<Record> {
        match test {
            Test::Path(pattern) => pattern.items.iter().copied().map(Record::of_item).collect(),
            Test::Communities(asked) => asked.iter().copied().map(Record::of_community).collect(),
            _ => Vec::new(),
        }
    }

    fn of_item(item: Item) -> Record {
        match item {
            Item::Number(number) => Record::new(4, 0).with(number, 0),
            Item::Not(number) => Record::new(4, 1).with(number, 0),
            Item::Any => Record::new(4, 2),
        }
    }

    fn of_community(community: Community) -> Record {
        Record::new(4, 0).with(community.0, 0)
    }

    /// The operation that begins here, and the records after it. A pass still counts records.
    pub fn op(self, after: &[Record]) -> Option<(Op, &[Record])> {
        match (self.kind, self.variant, self.count, self.a, self.b) {
            (3, 0..=3, _, 0, 0) => {
                let (pattern, after) = self.pattern(after)?;
                Some((Op::Test(Test::Path(pattern)), after))
            }
            (10, 0, 0, 0, 0) => Some((Op::Flip, after)),
            (11 | 12, 0, 1.., 0, 0) => {
                let when = self.kind == 12;
                let over = self.count.into();
                Some((Op::Pass { when, over }, after))
            }
            (13, 0, 1.., 0, 0) => {
                let (items, after) = self.items(after, Record::community)?;
                Some((Op::Test(Test::Communities(items)), after))
            }
            _ => Some((Op::Test(self.test()?), after)),
        }
    }

    /// A test of a single record.
    fn test(self) -> Option<Test> {
        Some(
            match (self.kind, self.variant, self.count, self.a, self.b) {
                (1, 0, 0, code, 0) => Test::Type(code.try_into().ok()?),
                (2, 0, 0, code, 0) => Test::Attribute(code.try_into().ok()?),
                (5, 1, 0, 0, number) => Test::Peer(Peer::Number(number)),
                (5, 2, 0, address, 0) => Test::Peer(Peer::Address(address)),
                (5, 3, 0, address, number) => Test::Peer(Peer::Both { address, number }),
                (6, 0, 0, 0, 0) => Test::Loops,
                (7, 0, 0, 0, 0) => Test::Bogon,
                (8, _, 0..=32, _, _) => Test::Network(self.network()?),
                (9, _, 0, seconds, micros @ 0..=999_999) => Test::Time(Time {
                    comparison: comparison(self.variant)?,
                    seconds,
                    micros,
                }),
                _ => return None,
            },
        )
    }

    fn pattern(self, after: &[Record]) -> Option<(Pattern, &[Record])> {
        let (items, after) = self.items(after, Record::item)?;
        let is_empty = self.variant == 0 && items.is_empty();
        if is_empty {
            return None;
        }
        let pattern = Pattern {
            start: self.variant & 1 != 0,
            end: self.variant & 2 != 0,
            items,
        };
        Some((pattern, after))
    }

    /// As many items as the record counts, and the records after them.
    fn items<T>(
        self,
        after: &[Record],
        read: fn(Record) -> Option<T>,
    ) -> Option<(Vec<T>, &[Record])> {
        let (items, after) = after.split_at_checked(self.count.into())?;
        let items = items.iter().copied().map(read).collect::<Option<_>>()?;
        Some((items, after))
    }

    fn item(self) -> Option<Item> {
        match (self.kind, self.variant, self.count, self.a, self.b) {
            (4, 0, 0, number, 0) => Some(Item::Number(number)),
            (4, 1, 0, number, 0) => Some(Item::Not(number)),
            (4, 2, 0, 0, 0) => Some(Item::Any),
            _ => None,
        }
    }

    /// An item of variant 0, with any A.
    fn community(self) -> Option<Community> {
        match self.item()? {
            Item::Number(number) => Some(Community(number)),
            Item::Not(_) | Item::Any => None,
        }
    }

    fn network(self) -> Option<Network> {
        let prefix = Prefix::new(self.a, self.count as u8);
        let network = Network {
            relation: relation(self.variant)?,
            prefix,
            side: side(self.b)?,
        };
        // no text gives bits past the length
        (prefix.address == self.a).then_some(network)
    }
}

fn relation(variant: u8) -> Option<Relation> {
    Some(match variant {
        0 => Relation::Exact,
        1 => Relation::Supernet,
        2 => Relation::Subnet,
        3 => Relation::Related,
        _ => return None,
    })
}

fn side(b: u32) -> Option<Side> {
    Some(match b {
        0 => Side::Either,
        1 => Side::Announced,
        2 => Side::Withdrawn,
        _ => return None,
    })
}

fn comparison(variant: u8) -> Option<Comparison> {
    Some(match variant {
        0 => Comparison::Equal,
        1 => Comparison::Less,
        2 => Comparison::LessOrEqual,
        3 => Comparison::Greater,
        4 => Comparison::GreaterOrEqual,
        _ => return None,
    })
}
