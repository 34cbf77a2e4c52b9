use std::fmt::{self, Display, Formatter};
use std::net::{IpAddr, Ipv4Addr};

/// A record of a program, as [`Program::records`](crate::Program::records) gives it.
///
/// The records are run one after another over a flag. A test sets the flag, [`Flip`](ProgramRecord::Flip) turns it round,
/// a pass goes on further down, and the last flag is the verdict: true keeps.
///
/// ```
/// use grainlantern::{Program, ProgramRecord};
///
/// let program = Program::compile("-loops -or ! -type UPDATE")?;
/// let records: Vec<ProgramRecord> = program.records().collect();
/// assert_eq!(
///     records,
///     [
///         ProgramRecord::Loops,
///         ProgramRecord::PassIfTrue { over: 2 },
///         ProgramRecord::Type { code: 2 },
///         ProgramRecord::Flip,
///     ]
/// );
/// # Ok::<(), grainlantern::Refusal>(())
/// ```
#[non_exhaustive]
#[derive(Clone, Copy, Debug, PartialEq, Eq, Hash)]
pub enum ProgramRecord {
    /// 1, `-type`: the message is of this type.
    Type {
        /// The type's code.
        code: u8,
    },
    /// 2, `-attr`: the update has this attribute.
    Attribute {
        /// The attribute's code.
        code: u8,
    },
    /// 3, `-aspath`: the items that follow match neighbouring members of the path.
    Path {
        /// `^`: the first item is the path's first member.
        from_start: bool,
        /// `$`: the last item is the path's last member.
        to_end: bool,
        /// How many items follow.
        items: u16,
    },
    /// 4 behind a path record: an item of its pattern; no step of its own.
    Item(Item),
    /// 5, `-peer`: the record comes from this peer.
    Peer(Peer),
    /// 6, `-loops`: the path comes back to a number that it had left.
    Loops,
    /// 7, `-bogon-asn`: the path has a reserved or private number.
    Bogon,
    /// 8, `-exact`, `-supernet`, `-subnet`, `-related`: some prefix stands in this relation to the network.
    Network {
        /// Which of the four tests it is.
        relation: Relation,
        /// Which prefixes are looked at.
        side: Side,
        /// The network's address, with no bit set past the length.
        address: IpAddr,
        /// The network's length in bits, at most the address's.
        length: u8,
    },
    /// 9, `-timestamp`: the record's time stands in this order to the one here.
    Time {
        /// The sign before the time.
        sign: Sign,
        /// Seconds since 1970.
        seconds: u32,
        /// The fraction, below 1,000,000.
        microseconds: u32,
    },
    /// 10, `!`: turns the flag round.
    Flip,
    /// 11, `-and`: where the flag is false, the next records are passed over.
    PassIfFalse {
        /// How many, items and communities too.
        over: u16,
    },
    /// 12, `-or`: where the flag is true, the next records are passed over.
    PassIfTrue {
        /// How many, items and communities too.
        over: u16,
    },
    /// 13, `-communities`: the update's COMMUNITY attribute holds each of the communities that follow.
    Communities {
        /// How many communities follow.
        communities: u16,
    },
    /// 4 behind a communities record: one that it asks for; no step of its own.
    Community(Community),
}

/// An item of a path's pattern.
#[non_exhaustive]
#[derive(Clone, Copy, Debug, PartialEq, Eq, Hash)]
pub enum Item {
    /// This AS number.
    Number(u32),
    /// Any AS number but this one.
    Not(u32),
    /// Any AS number.
    Any,
}

/// A community of RFC 1997, written as the filter language and the lines have it.
///
/// ```
/// use grainlantern::{Community, Program, ProgramRecord};
///
/// let program = Program::compile("-communities '64500:1 65535:65281'")?;
/// let [first, second] = [Community { high: 64500, low: 1 }, Community { high: 65535, low: 65281 }];
/// assert!(program.records().skip(1).eq([first, second].map(ProgramRecord::Community)));
/// assert_eq!(format!("{first} {second}"), "64500:1 NO_EXPORT");
/// # Ok::<(), grainlantern::Refusal>(())
/// ```
#[derive(Clone, Copy, Debug, PartialEq, Eq, Hash)]
pub struct Community {
    /// The first half, mostly the number of the AS that gives the other half its meaning.
    pub high: u16,
    /// The second half.
    pub low: u16,
}

impl Community {
    /// The name of the three that have one: NO_EXPORT, NO_ADVERTISE and NO_EXPORT_SUBCONFED.
    pub fn name(&self) -> Option<&'static str> {
        match (self.high, self.low) {
            (65535, 65281) => Some("NO_EXPORT"),
            (65535, 65282) => Some("NO_ADVERTISE"),
            (65535, 65283) => Some("NO_EXPORT_SUBCONFED"),
            _ => None,
        }
    }
}

/// Its name, or else its halves.
impl Display for Community {
    fn fmt(&self, f: &mut Formatter) -> fmt::Result {
        match self.name() {
            Some(name) => f.write_str(name),
            None => write!(f, "{}:{}", self.high, self.low),
        }
    }
}

/// The peer that a test asks for.
#[derive(Clone, Copy, Debug, PartialEq, Eq, Hash)]
pub enum Peer {
    /// By its AS number.
    As(u32),
    /// By its address.
    Address(IpAddr),
    /// By both.
    Both(IpAddr, u32),
}

/// How a prefix stands to a test's network.
#[derive(Clone, Copy, Debug, PartialEq, Eq, Hash)]
pub enum Relation {
    /// It is the network.
    Exact,
    /// It covers the network, or is it.
    Supernet,
    /// It is covered by the network, or is it.
    Subnet,
    /// Either of the last two.
    Related,
}

/// The prefixes of an update that a test looks at.
#[derive(Clone, Copy, Debug, PartialEq, Eq, Hash)]
pub enum Side {
    /// All.
    Either,
    /// Those announced, `+`.
    Announced,
    /// Those withdrawn, `-`.
    Withdrawn,
}

/// How a record's time stands to a test's.
#[derive(Clone, Copy, Debug, PartialEq, Eq, Hash)]
pub enum Sign {
    /// `=`, or no sign.
    Equal,
    /// `<`
    Before,
    /// `<=`
    NotAfter,
    /// `>`
    After,
    /// `>=`
    NotBefore,
}

impl ProgramRecord {
    /// The bytes of a record.
    pub const SIZE: usize = 16;

    /// The record that these bytes of a valid program stand for. `communities` is how many of the records from here on are communities: what an
    /// item is lies in the record that it follows.
    pub(crate) fn of(bytes: &[u8; ProgramRecord::SIZE], communities: &mut u16) -> ProgramRecord {
        let [kind, variant, c0, c1, a0, a1, a2, a3, b0, b1, b2, b3, ..] = *bytes;
        let count = u16::from_be_bytes([c0, c1]);
        let a = u32::from_be_bytes([a0, a1, a2, a3]);
        let b = u32::from_be_bytes([b0, b1, b2, b3]);
        match kind {
            // a code and a length are below 256 in a valid program
            1 => ProgramRecord::Type { code: a as u8 },
            2 => ProgramRecord::Attribute { code: a as u8 },
            3 => ProgramRecord::Path {
                from_start: variant & 1 != 0,
                to_end: variant & 2 != 0,
                items: count,
            },
            4 if *communities > 0 => {
                *communities -= 1;
                ProgramRecord::Community(community(a))
            }
            4 => ProgramRecord::Item(item(variant, a)),
            5 => ProgramRecord::Peer(peer(variant, address(a), b)),
            6 => ProgramRecord::Loops,
            7 => ProgramRecord::Bogon,
            8 => ProgramRecord::Network {
                relation: relation(variant),
                side: side(b),
                address: address(a),
                length: count as u8,
            },
            9 => ProgramRecord::Time {
                sign: sign(variant),
                seconds: a,
                microseconds: b,
            },
            10 => ProgramRecord::Flip,
            11 => ProgramRecord::PassIfFalse { over: count },
            12 => ProgramRecord::PassIfTrue { over: count },
            13 => {
                *communities = count;
                ProgramRecord::Communities { communities: count }
            }
            _ => invalid(bytes),
        }
    }
}

fn item(variant: u8, number: u32) -> Item {
    match variant {
        0 => Item::Number(number),
        1 => Item::Not(number),
        2 => Item::Any,
        _ => invalid(variant),
    }
}

/// A community, whose halves fill A.
fn community(a: u32) -> Community {
    let [h0, h1, l0, l1] = a.to_be_bytes();
    Community {
        high: u16::from_be_bytes([h0, h1]),
        low: u16::from_be_bytes([l0, l1]),
    }
}

/// An address of IPv4, which fills A.
fn address(a: u32) -> IpAddr {
    Ipv4Addr::from(a).into()
}

fn peer(variant: u8, address: IpAddr, number: u32) -> Peer {
    match variant {
        1 => Peer::As(number),
        2 => Peer::Address(address),
        3 => Peer::Both(address, number),
        _ => invalid(variant),
    }
}

fn relation(variant: u8) -> Relation {
    match variant {
        0 => Relation::Exact,
        1 => Relation::Supernet,
        2 => Relation::Subnet,
        3 => Relation::Related,
        _ => invalid(variant),
    }
}

fn side(number: u32) -> Side {
    match number {
        0 => Side::Either,
        1 => Side::Announced,
        2 => Side::Withdrawn,
        _ => invalid(number),
    }
}

fn sign(variant: u8) -> Sign {
    match variant {
        0 => Sign::Equal,
        1 => Sign::Before,
        2 => Sign::NotAfter,
        3 => Sign::After,
        4 => Sign::NotBefore,
        _ => invalid(variant),
    }
}

/// A program is checked by the archive before it is a `Program`.
fn invalid(what: impl std::fmt::Debug) -> ! {
    unreachable!("a valid program has no record with {what:?}")
}
