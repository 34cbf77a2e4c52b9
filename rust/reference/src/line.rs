//! The printed lines of a message.

use crate::community::Community;
use crate::message::{Message, Origin, Update};
use crate::path::{AsPath, Order, Width};
use crate::prefix::Prefix;

/// Appends the line of what is announced, then that of what is withdrawn.
pub fn write(message: &Message, out: &mut Vec<u8>) {
    let Some(update) = &message.update else {
        return;
    };
    if !update.announced.is_empty() {
        out.extend_from_slice(b"+|");
        write_prefixes(&update.announced, out);
        write_attributes(update, out);
        write_source(message, out);
    }
    if !update.withdrawn.is_empty() {
        out.extend_from_slice(b"-|");
        write_prefixes(&update.withdrawn, out);
        out.extend_from_slice(b"|||||||");
        write_source(message, out);
    }
}

/// From the bar before AS_PATH to the bar after COMMUNITIES.
fn write_attributes(update: &Update, out: &mut Vec<u8>) {
    out.push(b'|');
    if let Some(path) = &update.path {
        write_path(path, out);
    }
    out.push(b'|');
    if let Some(address) = update.next_hop {
        write_address(address, out);
    }
    out.push(b'|');
    if let Some(origin) = update.origin {
        out.push(match origin {
            Origin::Igp => b'i',
            Origin::Egp => b'e',
            Origin::Incomplete => b'?',
        });
    }
    out.push(b'|');
    if update.atomic {
        out.extend_from_slice(b"AT");
    }
    out.push(b'|');
    if let Some(aggregator) = update.aggregator {
        write_number(aggregator.number, out);
        out.push(b' ');
        write_address(aggregator.address, out);
    }
    out.push(b'|');
    if let Some(communities) = &update.communities {
        write_joined(communities, b' ', out, |c, out| write_community(*c, out));
    }
    out.push(b'|');
}

/// PEER, TIMESTAMP, ASN32BIT and the line's end.
fn write_source(message: &Message, out: &mut Vec<u8>) {
    write_address(message.peer_address, out);
    out.push(b' ');
    write_number(message.peer_number, out);
    out.push(b'|');
    write_number(message.seconds, out);
    out.extend_from_slice(match message.width {
        Width::Two => b"|0\n",
        Width::Four => b"|1\n",
    });
}

fn write_prefixes(prefixes: &[Prefix], out: &mut Vec<u8>) {
    write_joined(prefixes, b' ', out, |prefix, out| {
        write_address(prefix.address, out);
        out.push(b'/');
        write_number(prefix.length.into(), out);
    });
}

fn write_path(path: &AsPath, out: &mut Vec<u8>) {
    write_joined(path.segments(), b' ', out, |(order, numbers), out| {
        match order {
            Order::Sequence => write_joined(numbers, b' ', out, |n, out| write_number(*n, out)),
            Order::Set => {
                out.push(b'{');
                write_joined(numbers, b',', out, |n, out| write_number(*n, out));
                out.push(b'}');
            }
        };
    });
}

fn write_community(community: Community, out: &mut Vec<u8>) {
    if let Some(name) = community.name() {
        out.extend_from_slice(name.as_bytes());
        return;
    }
    let (first, second) = community.halves();
    write_number(first.into(), out);
    out.push(b':');
    write_number(second.into(), out);
}

fn write_joined<T>(
    parts: impl IntoIterator<Item = T>,
    between: u8,
    out: &mut Vec<u8>,
    mut write: impl FnMut(T, &mut Vec<u8>),
) {
    for (at, part) in parts.into_iter().enumerate() {
        if at > 0 {
            out.push(between);
        }
        write(part, out);
    }
}

fn write_address(address: u32, out: &mut Vec<u8>) {
    write_joined(address.to_be_bytes(), b'.', out, |part, out| {
        write_number(part.into(), out);
    });
}

/// Decimal digits; `write!` takes several times as long.
fn write_number(mut number: u32, out: &mut Vec<u8>) {
    let mut digits = [0; 10];
    let mut at = digits.len();
    loop {
        at -= 1;
        digits[at] = b'0' + (number % 10) as u8;
        number /= 10;
        if number == 0 {
            break;
        }
    }
    out.extend_from_slice(&digits[at..]);
}

#[cfg(test)]
mod tests {
    use super::*;

    #[test]
    fn numbers_are_decimal() {
        for number in [0, 7, 10, 99, 100, 255, 65536, 1_000_000_000, u32::MAX] {
            let mut out = Vec::new();
            write_number(number, &mut out);
            assert_eq!(out, number.to_string().into_bytes());
        }
    }
}
