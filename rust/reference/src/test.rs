//! The tests of the filter language, and whether one is true of a message.

use crate::community::{self, Community};
use crate::message::{Message, Update};
use crate::path::{AsPath, Pattern};
use crate::prefix::Prefix;

#[derive(Clone, Debug, PartialEq, Eq)]
pub enum Test {
    Type(u8),
    Attribute(u8),
    Path(Pattern),
    Peer(Peer),
    Loops,
    Bogon,
    Network(Network),
    Time(Time),
    Communities(Vec<Community>),
}

/// A peer by its address, its AS number or both.
#[derive(Clone, Copy, Debug, PartialEq, Eq)]
pub enum Peer {
    Number(u32),
    Address(u32),
    Both { address: u32, number: u32 },
}

#[derive(Clone, Copy, Debug, PartialEq, Eq)]
pub struct Network {
    pub relation: Relation,
    pub prefix: Prefix,
    pub side: Side,
}

/// What a prefix of the message is to the operand, with the variant in a program.
#[derive(Clone, Copy, Debug, PartialEq, Eq)]
pub enum Relation {
    Exact = 0,
    Supernet = 1,
    Subnet = 2,
    Related = 3,
}

/// Which prefixes of the message count, with the number in a program.
#[derive(Clone, Copy, Debug, PartialEq, Eq)]
pub enum Side {
    Either = 0,
    Announced = 1,
    Withdrawn = 2,
}

/// A comparison of the record's time with one in seconds and microseconds.
#[derive(Clone, Copy, Debug, PartialEq, Eq)]
pub struct Time {
    pub comparison: Comparison,
    pub seconds: u32,
    pub micros: u32,
}

/// How the record's time stands to the operand, with the variant in a program.
#[derive(Clone, Copy, Debug, PartialEq, Eq)]
pub enum Comparison {
    Equal = 0,
    Less = 1,
    LessOrEqual = 2,
    Greater = 3,
    GreaterOrEqual = 4,
}

impl Test {
    pub fn holds(&self, message: &Message) -> bool {
        match self {
            Test::Type(code) => message.kind == *code,
            Test::Attribute(code) => of_update(message, |update| update.codes.contains(*code)),
            Test::Path(pattern) => of_path(message, |path| pattern.matches(&path.numbers)),
            Test::Peer(peer) => peer.holds(message),
            Test::Loops => of_path(message, AsPath::has_loop),
            Test::Bogon => of_path(message, AsPath::has_bogon),
            Test::Network(network) => of_update(message, |update| network.holds(update)),
            Test::Time(time) => time.holds(message.seconds),
            Test::Communities(asked) => {
                of_communities(message, |held| community::holds_all(held, asked))
            }
        }
    }

    /// The items that follow the test's record in a program.
    pub fn item_count(&self) -> usize {
        match self {
            Test::Path(pattern) => pattern.items.len(),
            Test::Communities(asked) => asked.len(),
            _ => 0,
        }
    }
}

/// False of a message that is no UPDATE.
fn of_update(message: &Message, test: impl FnOnce(&Update) -> bool) -> bool {
    message.update.as_ref().is_some_and(test)
}

/// False of an UPDATE without AS_PATH too.
fn of_path(message: &Message, test: impl FnOnce(&AsPath) -> bool) -> bool {
    of_update(message, |update| update.path.as_ref().is_some_and(test))
}

/// False of an UPDATE without COMMUNITY too.
fn of_communities(message: &Message, test: impl FnOnce(&[Community]) -> bool) -> bool {
    of_update(message, |update| {
        update.communities.as_deref().is_some_and(test)
    })
}

impl Peer {
    fn holds(&self, message: &Message) -> bool {
        match *self {
            Peer::Number(number) => message.peer_number == number,
            Peer::Address(address) => message.peer_address == address,
            Peer::Both { address, number } => {
                message.peer_address == address && message.peer_number == number
            }
        }
    }
}

impl Network {
    fn holds(&self, update: &Update) -> bool {
        let some = |prefixes: &[Prefix]| prefixes.iter().any(|prefix| self.fits(prefix));
        match self.side {
            Side::Either => some(&update.announced) || some(&update.withdrawn),
            Side::Announced => some(&update.announced),
            Side::Withdrawn => some(&update.withdrawn),
        }
    }

    fn fits(&self, prefix: &Prefix) -> bool {
        match self.relation {
            Relation::Exact => *prefix == self.prefix,
            Relation::Supernet => prefix.covers(&self.prefix),
            Relation::Subnet => self.prefix.covers(prefix),
            Relation::Related => prefix.covers(&self.prefix) || self.prefix.covers(prefix),
        }
    }
}

impl Time {
    fn holds(&self, seconds: u32) -> bool {
        // a record's own fraction is 0
        let order = (seconds, 0).cmp(&(self.seconds, self.micros));
        match self.comparison {
            Comparison::Equal => order.is_eq(),
            Comparison::Less => order.is_lt(),
            Comparison::LessOrEqual => order.is_le(),
            Comparison::Greater => order.is_gt(),
            Comparison::GreaterOrEqual => order.is_ge(),
        }
    }
}
