//! Messages out of a few numbers and addresses, so that what is asked of them is often true and often false.

use crate::random::Random;

/// The most bytes of a BGP message.
pub const MESSAGE_LIMIT: usize = 4096;

pub const UPDATE: u8 = 2;
pub const ORIGIN: u8 = 1;
pub const AS_PATH: u8 = 2;
pub const NEXT_HOP: u8 = 3;
pub const ATOMIC_AGGREGATE: u8 = 6;
pub const AGGREGATOR: u8 = 7;
pub const COMMUNITY: u8 = 8;

/// AS numbers: the first are no bogons, the others are, and both hold the ends of the ranges.
const CLEAN: [u32; 12] = [
    1, 174, 3333, 6939, 23455, 23457, 64495, 131072, 199036, 396998, 4199999998, 4199999999,
];
const BOGON: [u32; 14] = [
    0, 23456, 64496, 64511, 64512, 65534, 65535, 65536, 65551, 65552, 131071, 4200000000,
    4294967294, 4294967295,
];

/// Where prefixes and peers come from: few, so that networks often share bits.
const ADDRESSES: [u32; 8] = [
    0x0000_0000,
    0x0A00_0000,
    0x0A01_0203,
    0x0A01_02FF,
    0x8000_0000,
    0xC000_0201,
    0xC000_0202,
    0xFFFF_FFFF,
];
const LENGTHS: [u8; 16] = [0, 1, 7, 8, 9, 15, 16, 17, 22, 23, 24, 24, 25, 31, 32, 32];
const SECONDS: [u32; 6] = [0, 1, 1_622_725_323, 0x7FFF_FFFF, 0x8000_0000, 0xFFFF_FFFF];

/// Communities: those with a name, their neighbours, 65535:666, and others, some with the halves exchanged.
const COMMUNITIES: [u32; 13] = [
    0xFFFF_FF01,
    0xFFFF_FF02,
    0xFFFF_FF03,
    0xFFFF_FF00,
    0xFFFF_FF04,
    0xFFFF_029A,
    0xFF01_FFFF,
    0x0000_0000,
    0x0000_0001,
    0x0001_0000,
    0x0D1C_0003,
    0x0003_0D1C,
    0xFFFF_FFFF,
];

/// Attribute codes that come up beside ORIGIN, AS_PATH, NEXT_HOP, AGGREGATOR and COMMUNITY.
const CODES: [u8; 12] = [0, 4, 5, 6, 6, 14, 15, 17, 18, 32, 64, 255];

/// A prefix as it stands on the wire: the bits past its length may be anything.
#[derive(Clone, Copy)]
pub struct Prefix {
    pub address: u32,
    pub len: u8,
}

#[derive(Clone)]
pub struct Attribute {
    pub flags: u8,
    pub code: u8,
    pub body: Vec<u8>,
}

/// What a record says, from which its bytes are made and at which filters are aimed.
pub struct Message {
    pub seconds: u32,
    pub wide: bool,
    pub peer_as: u32,
    pub local_as: u32,
    pub interface: u16,
    pub peer_address: u32,
    pub local_address: u32,
    pub kind: u8,
    pub withdrawn: Vec<Prefix>,
    pub attributes: Vec<Attribute>,
    pub announced: Vec<Prefix>,
    /// The numbers of all segments of the AS_PATH, if there is one.
    pub path: Option<Vec<u32>>,
    /// What the COMMUNITY holds, if there is one.
    pub communities: Option<Vec<u32>>,
    /// The body of a message that is no UPDATE.
    pub body: Vec<u8>,
}

impl Prefix {
    pub fn random(random: &mut Random) -> Prefix {
        Prefix {
            address: address(random),
            len: random.pick(&LENGTHS),
        }
    }

    /// As few bytes as hold its length.
    pub fn bytes(&self) -> usize {
        usize::from(self.len).div_ceil(8)
    }
}

pub fn address(random: &mut Random) -> u32 {
    let address = random.pick(&ADDRESSES);
    match random.below(4) {
        0 => address ^ (1 << random.below(32)),
        1 => random.word(),
        _ => address,
    }
}

pub fn seconds(random: &mut Random) -> u32 {
    if random.one_in(4) {
        return random.word();
    }
    random.pick(&SECONDS)
}

/// An AS number that fits a width.
pub fn as_number(random: &mut Random, wide: bool) -> u32 {
    let number = match random.below(8) {
        0 => random.word(),
        1..=3 => random.pick(&BOGON),
        _ => random.pick(&CLEAN),
    };
    if wide {
        return number;
    }
    number & 0xFFFF
}

/// One that is no bogon.
fn clean_number(random: &mut Random, wide: bool) -> u32 {
    let number = random.pick(&CLEAN);
    if wide || number <= 0xFFFF {
        return number;
    }
    CLEAN[0]
}

pub fn community(random: &mut Random) -> u32 {
    if random.one_in(6) {
        return random.word();
    }
    random.pick(&COMMUNITIES)
}

/// Out of a few, so that some come twice; rarely so many that the length takes two bytes, or that they fill most of a message.
fn communities(random: &mut Random) -> Vec<u32> {
    let known: Vec<u32> = (0..random.within(1, 4))
        .map(|_| community(random))
        .collect();
    let count = match random.below(100) {
        0 => random.pick(&[63, 64, 256, 900]),
        _ => random.pick(&[0, 1, 1, 2, 3, 4, 6]),
    };
    (0..count).map(|_| random.pick(&known)).collect()
}

pub fn put_number(out: &mut Vec<u8>, number: u32, wide: bool) {
    let bytes = number.to_be_bytes();
    out.extend_from_slice(if wide { &bytes } else { &bytes[2..] });
}

fn prefixes(random: &mut Random) -> Vec<Prefix> {
    let count = random.pick(&[0, 0, 1, 1, 2, 3, 6]);
    (0..count).map(|_| Prefix::random(random)).collect()
}

struct Segment {
    kind: u8,
    numbers: Vec<u32>,
}

/// The segments of a path out of a few numbers, so that some come twice, beside one another and apart.
fn path(random: &mut Random, wide: bool) -> Vec<Segment> {
    let number = if random.one_in(2) {
        clean_number
    } else {
        as_number
    };
    let known: Vec<u32> = (0..random.within(1, 5))
        .map(|_| number(random, wide))
        .collect();
    let segments = random.pick(&[0, 1, 1, 1, 1, 2, 3]);
    (0..segments)
        .map(|_| {
            let count = match random.below(200) {
                0 => random.pick(&[100, 128, 254, 255, 255]),
                _ => random.pick(&[1, 1, 2, 3, 4, 6]),
            };
            Segment {
                kind: random.pick(&[1, 2, 2, 2]),
                numbers: (0..count).map(|_| random.pick(&known)).collect(),
            }
        })
        .collect()
}

fn path_body(segments: &[Segment], wide: bool) -> Vec<u8> {
    let mut body = Vec::new();
    for segment in segments {
        body.extend([segment.kind, segment.numbers.len() as u8]);
        for number in &segment.numbers {
            put_number(&mut body, *number, wide);
        }
    }
    body
}

impl Message {
    pub fn random(random: &mut Random) -> Message {
        let wide = random.one_in(2);
        let kind = match random.below(8) {
            0 => random.pick(&[0, 1, 3, 4, 5, 255]),
            _ => UPDATE,
        };
        let left = random.below(12);
        let mut message = Message {
            seconds: seconds(random),
            wide,
            peer_as: as_number(random, wide),
            local_as: as_number(random, wide),
            interface: random.word() as u16,
            peer_address: address(random),
            local_address: address(random),
            kind,
            withdrawn: prefixes(random),
            attributes: Vec::new(),
            announced: prefixes(random),
            path: None,
            communities: None,
            body: random.bytes(left),
        };
        message.add_attributes(random);
        if random.one_in(100) {
            message.fill(random);
        }
        message
    }

    fn add_attributes(&mut self, random: &mut Random) {
        if !random.one_in(6) {
            let body = vec![random.below(3) as u8];
            self.add(random, ORIGIN, body);
        }
        if !random.one_in(6) {
            let segments = path(random, self.wide);
            self.add(random, AS_PATH, path_body(&segments, self.wide));
            let numbers = segments.into_iter().flat_map(|segment| segment.numbers);
            self.path = Some(numbers.collect());
        }
        if !random.one_in(6) {
            let body = address(random).to_be_bytes().to_vec();
            self.add(random, NEXT_HOP, body);
        }
        if random.one_in(4) {
            let mut body = Vec::new();
            put_number(&mut body, as_number(random, self.wide), self.wide);
            body.extend(address(random).to_be_bytes());
            self.add(random, AGGREGATOR, body);
        }
        if !random.one_in(4) {
            let communities = communities(random);
            let body = communities.iter().flat_map(|c| c.to_be_bytes()).collect();
            self.add(random, COMMUNITY, body);
            self.communities = Some(communities);
        }
        self.add_others(random);
    }

    /// Attributes whose bodies are free, and ATOMIC_AGGREGATE.
    fn add_others(&mut self, random: &mut Random) {
        let mut codes: Vec<u8> = (0..random.below(4)).map(|_| random.pick(&CODES)).collect();
        codes.sort_unstable();
        codes.dedup();
        for code in codes {
            let size = match random.below(60) {
                _ if code == ATOMIC_AGGREGATE => 0,
                0 => random.within(250, 300),
                _ => random.below(9),
            };
            let body = random.bytes(size);
            self.add(random, code, body);
        }
    }

    /// Lays an attribute at any place among those that are there.
    fn add(&mut self, random: &mut Random, code: u8, body: Vec<u8>) {
        let flags = random.pick(&[0x40, 0x40, 0x50, 0x80, 0xC0, 0xD0, 0x00, 0xFF]);
        let place = random.within(0, self.attributes.len());
        let attribute = Attribute { flags, code, body };
        self.attributes.insert(place, attribute);
    }

    /// Fills a list of prefixes until the message is about as large as one may be.
    fn fill(&mut self, random: &mut Random) {
        let wanted = MESSAGE_LIMIT - random.pick(&[0, 0, 1, 2, 300]);
        let mut size = self.framed(&[], random).len();
        let shortest = random.one_in(2);
        let list = if random.one_in(2) {
            &mut self.announced
        } else {
            &mut self.withdrawn
        };
        while size < wanted {
            let mut next = Prefix::random(random);
            if shortest || size + 5 > wanted {
                next.len = 0;
            }
            size += 1 + next.bytes();
            list.push(next);
        }
    }
}
