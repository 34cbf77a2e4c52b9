//! Tests aimed at a message, so that each is often true and often false of it.

use crate::message::{self, Message, Prefix};
use crate::random::Random;
use crate::test::{Item, Test};

const MICROSECONDS: [u32; 8] = [0, 0, 0, 1, 5, 50, 500_000, 999_999];

impl Test {
    pub fn aimed(message: &Message, random: &mut Random) -> Test {
        match random.below(15) {
            0 => message_type(message, random),
            1 => attribute(message, random),
            2..=4 => pattern(message, random),
            5 | 6 => peer(message, random),
            7 => Test::Loops,
            8 => Test::Bogon,
            9 | 10 => network(message, random),
            11 | 12 => Test::Communities(communities(message, random)),
            _ => time(message, random),
        }
    }
}

fn message_type(message: &Message, random: &mut Random) -> Test {
    if random.one_in(2) {
        return Test::Type(message.kind);
    }
    Test::Type(random.pick(&[0, 1, 2, 3, 4, 5, 6, 255]))
}

/// The code of an attribute that is there, one that differs from it in a bit, or another.
fn attribute(message: &Message, random: &mut Random) -> Test {
    if message.attributes.is_empty() || random.one_in(3) {
        return Test::Attribute(random.pick(&[0, 1, 2, 3, 4, 6, 8, 17, 32, 255]));
    }
    let place = random.below(message.attributes.len());
    let code = message.attributes[place].code;
    if random.one_in(3) {
        return Test::Attribute(code ^ (1 << random.below(8)));
    }
    Test::Attribute(code)
}

/// An item that takes a member, or nearly.
fn item(member: u32, message: &Message, random: &mut Random) -> Item {
    let other = message::as_number(random, message.wide);
    match random.below(16) {
        0..=7 => Item::Number(member),
        8..=10 => Item::Any,
        11..=13 => Item::Not(other),
        14 => Item::Not(member),
        _ => Item::Number(other),
    }
}

/// The ends alone, or a window of the path that mostly suits them.
fn pattern(message: &Message, random: &mut Random) -> Test {
    if random.one_in(6) {
        let ends = random.pick(&[1, 2, 3, 3]);
        let items = Vec::new();
        return Test::Path { ends, items };
    }
    let ends = random.below(4) as u8;
    let members = match message.path.as_deref() {
        None | Some([]) => &[1, 2, 3],
        Some(path) => path,
    };
    let mut start = random.below(members.len());
    let mut end = random.within(start + 1, members.len());
    if ends & 1 != 0 && !random.one_in(4) {
        start = 0;
    }
    if ends & 2 != 0 && !random.one_in(4) {
        end = members.len();
    }
    let mut items: Vec<Item> = members[start..end]
        .iter()
        .map(|member| item(*member, message, random))
        .collect();
    if random.one_in(10) {
        items.push(Item::Any);
    }
    Test::Path { ends, items }
}

fn peer(message: &Message, random: &mut Random) -> Test {
    let mut number = message.peer_as;
    if random.one_in(3) {
        number = message::as_number(random, message.wide);
    }
    let mut address = message.peer_address;
    if random.one_in(3) {
        address = message::address(random);
    }
    let variant = random.within(1, 3);
    Test::Peer {
        number: (variant & 1 != 0).then_some(number),
        address: (variant & 2 != 0).then_some(address),
    }
}

/// A network at, above, below or beside one of the message's.
fn network(message: &Message, random: &mut Random) -> Test {
    let list = random.pick(&[&message.withdrawn, &message.announced]);
    let mut prefix = if list.is_empty() {
        Prefix::random(random)
    } else {
        random.pick(list)
    };
    match random.below(6) {
        0 => prefix.len = random.within(0, prefix.len.into()) as u8,
        1 => prefix.len = random.within(prefix.len.into(), 32) as u8,
        2 => prefix.address ^= 1 << random.below(32),
        3 => prefix.len = prefix.len.saturating_sub(1),
        _ => (),
    }
    Test::Network {
        relation: random.below(4) as u8,
        side: random.below(3) as u8,
        prefix,
    }
}

fn time(message: &Message, random: &mut Random) -> Test {
    let seconds = match random.below(5) {
        0 => message.seconds.wrapping_add(1),
        1 => message.seconds.wrapping_sub(1),
        2 => message::seconds(random),
        _ => message.seconds,
    };
    Test::Time {
        operator: random.below(5) as u8,
        seconds,
        microseconds: random.pick(&MICROSECONDS),
    }
}

/// Communities that the message holds, some that it doesn't, or only such, and sometimes one twice.
pub fn communities(message: &Message, random: &mut Random) -> Vec<u32> {
    let held = message.communities.as_deref().unwrap_or_default();
    // how many of four aren't the message's
    let others = random.pick(&[0, 0, 2, 4]);
    let mut asked: Vec<u32> = (0..random.within(1, 4))
        .map(|_| {
            if held.is_empty() || random.below(4) < others {
                return community_beside(held, random);
            }
            random.pick(held)
        })
        .collect();
    if random.one_in(4) {
        asked.push(random.pick(&asked));
    }
    asked
}

/// One that differs from a held one in a bit or has its halves exchanged, or any.
fn community_beside(held: &[u32], random: &mut Random) -> u32 {
    if held.is_empty() || random.one_in(2) {
        return message::community(random);
    }
    let community = random.pick(held);
    if random.one_in(3) {
        return community.rotate_left(16);
    }
    community ^ (1 << random.below(32))
}
