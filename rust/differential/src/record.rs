//! Messages as records: whole ones, and ones with a slip for a refusal's number.

use crate::message::{
    put_number, Attribute, Message, Prefix, AGGREGATOR, AS_PATH, ATOMIC_AGGREGATE, COMMUNITY,
    MESSAGE_LIMIT, NEXT_HOP, ORIGIN, UPDATE,
};
use crate::random::Random;

const HEADER: usize = 12;

/// The most bytes of a record.
const RECORD_LIMIT: usize = 8192;

/// Marker, length and type of a BGP message.
const FRAME: usize = 19;

fn put_length(out: &mut Vec<u8>, length: usize) {
    out.extend_from_slice(&(length as u16).to_be_bytes());
}

fn section(prefixes: &[Prefix]) -> Vec<u8> {
    let mut out = Vec::new();
    for prefix in prefixes {
        out.push(prefix.len);
        out.extend_from_slice(&prefix.address.to_be_bytes()[..prefix.bytes()]);
    }
    out
}

/// A section that ends with a prefix that is too long, or cut.
fn broken_section(prefixes: &[Prefix], random: &mut Random) -> Vec<u8> {
    let mut out = section(prefixes);
    let is_long = random.one_in(2);
    let held = random.below(if is_long { 7 } else { 4 });
    out.push(if is_long {
        random.pick(&[33, 33, 34, 40, 128, 255])
    } else {
        random.pick(&[8 * held as u8 + 1, 32])
    });
    out.extend(random.bytes(held));
    out
}

fn put_attribute(out: &mut Vec<u8>, attribute: &Attribute) {
    let size = attribute.body.len();
    let is_long = attribute.flags & 0x10 != 0 || size > 255;
    if is_long {
        out.extend([attribute.flags | 0x10, attribute.code]);
        put_length(out, size);
    } else {
        out.extend([attribute.flags, attribute.code, size as u8]);
    }
    out.extend_from_slice(&attribute.body);
}

/// A segment that says so many numbers, and the bytes that it has for them.
fn segment(kind: u8, count: u8, bytes: usize) -> Vec<u8> {
    let mut body = vec![kind, count];
    body.resize(2 + bytes, 1);
    body
}

/// Whether AS numbers have 2 bytes or 4, by `wide`.
pub const SUBTYPES: [&str; 2] = ["subtype 1", "subtype 4"];

/// Makes a body, given the bytes of an AS number.
type Body = fn(usize, &mut Random) -> Vec<u8>;

/// Bodies that attributes must not have: what is wrong, the attribute's code, and how one is made.
pub const WRONG_BODIES: [(&str, u8, Body); 14] = [
    ("ORIGIN of no byte", ORIGIN, |_, _| vec![]),
    ("ORIGIN over 2", ORIGIN, |_, random| {
        vec![random.pick(&[3, 4, 255])]
    }),
    ("ORIGIN of two bytes", ORIGIN, |_, _| vec![0, 0]),
    ("segment without a count", AS_PATH, |_, _| vec![2]),
    ("segment of no number", AS_PATH, |_, _| segment(2, 0, 0)),
    ("segment of another type", AS_PATH, |width, random| {
        segment(random.pick(&[0, 3, 4, 255]), 1, width)
    }),
    ("segment without its last number", AS_PATH, |width, _| {
        segment(2, 3, 2 * width)
    }),
    ("segment without its last byte", AS_PATH, |width, _| {
        segment(2, 2, 2 * width - 1)
    }),
    ("byte behind a segment", AS_PATH, |width, _| {
        segment(1, 1, width + 1)
    }),
    ("NEXT_HOP not of 4 bytes", NEXT_HOP, |_, random| {
        vec![0; random.pick(&[0, 3, 5, 8])]
    }),
    (
        "ATOMIC_AGGREGATE of some bytes",
        ATOMIC_AGGREGATE,
        |_, random| vec![0; random.pick(&[1, 4])],
    ),
    ("AGGREGATOR of the other width", AGGREGATOR, |width, _| {
        vec![0; if width == 2 { 8 } else { 6 }]
    }),
    ("AGGREGATOR of another size", AGGREGATOR, |_, random| {
        vec![0; random.pick(&[0, 1, 4, 5, 7, 9, 12])]
    }),
    ("COMMUNITY not a multiple of 4", COMMUNITY, |_, random| {
        vec![0; 4 * random.pick(&[0, 1, 2, 63, 64]) + random.within(1, 3)]
    }),
];

/// Lays a wrong body over an attribute, or beside them all, and says what is wrong.
pub fn spoil_body(
    attributes: &mut Vec<Attribute>,
    wide: bool,
    random: &mut Random,
) -> &'static str {
    let (cause, code, make) = random.pick(&WRONG_BODIES);
    let body = make(if wide { 4 } else { 2 }, random);
    let flags = 0x40;
    let wrong = Attribute { flags, code, body };
    match attributes.iter_mut().find(|other| other.code == code) {
        Some(attribute) => *attribute = wrong,
        None => attributes.push(wrong),
    }
    cause
}

impl Message {
    /// The message's record, with a slip for each of the numbers 11 to 18 that are named.
    pub fn record(&self, slips: &[u32], random: &mut Random) -> Vec<u8> {
        let rest = self.peer_and_message(slips, random);
        let mut record = self.header(slips, random).to_vec();
        record.extend_from_slice(&(rest.len() as u32).to_be_bytes());
        record.extend_from_slice(&rest);
        if slips.contains(&11) {
            spoil_size(&mut record, random);
        }
        record
    }

    /// Seconds, type and subtype.
    fn header(&self, slips: &[u32], random: &mut Random) -> [u8; 8] {
        let mut header = [0; 8];
        header[..4].copy_from_slice(&self.seconds.to_be_bytes());
        header[5] = 16;
        header[7] = if self.wide { 4 } else { 1 };
        if slips.contains(&12) {
            let wrong: [(usize, u8); 9] = [
                (4, 1),
                (5, 13),
                (5, 17),
                (6, 1),
                (7, 0),
                (7, 2),
                (7, 5),
                (7, 6),
                (7, 255),
            ];
            let (place, byte) = random.pick(&wrong);
            header[place] = byte;
        }
        header
    }

    fn peer_and_message(&self, slips: &[u32], random: &mut Random) -> Vec<u8> {
        let is_wrong = slips.contains(&13);
        let is_cut = is_wrong && random.one_in(2);
        let family: u16 = if is_wrong && !is_cut {
            random.pick(&[0, 2, 257, 0xFFFF])
        } else {
            1
        };
        let mut out = Vec::new();
        put_number(&mut out, self.peer_as, self.wide);
        put_number(&mut out, self.local_as, self.wide);
        out.extend_from_slice(&self.interface.to_be_bytes());
        out.extend_from_slice(&family.to_be_bytes());
        out.extend_from_slice(&self.peer_address.to_be_bytes());
        out.extend_from_slice(&self.local_address.to_be_bytes());
        if is_cut {
            out.truncate(random.below(out.len()));
            return out;
        }
        out.extend(self.framed(slips, random));
        out
    }

    /// The BGP message.
    pub fn framed(&self, slips: &[u32], random: &mut Random) -> Vec<u8> {
        let body = match self.kind {
            UPDATE => self.update(slips, random),
            _ => self.body.clone(),
        };
        let mut framed = vec![0xFF; 16];
        put_length(&mut framed, FRAME + body.len());
        framed.push(self.kind);
        framed.extend_from_slice(&body);
        if slips.contains(&14) {
            spoil_frame(&mut framed, random);
        }
        framed
    }

    fn update(&self, slips: &[u32], random: &mut Random) -> Vec<u8> {
        let mut withdrawn = section(&self.withdrawn);
        let mut announced = section(&self.announced);
        if slips.contains(&18) {
            if random.one_in(2) {
                withdrawn = broken_section(&self.withdrawn, random);
            } else {
                announced = broken_section(&self.announced, random);
            }
        }
        let attributes = self.attribute_section(slips, random);
        let mut sizes = [withdrawn.len(), attributes.len()];
        if slips.contains(&15) {
            let left = withdrawn.len() + attributes.len() + announced.len();
            sizes[random.below(2)] = random.pick(&[left + 1, left + 5, 0xFFFF]);
        }
        let mut body = Vec::new();
        put_length(&mut body, sizes[0]);
        body.extend_from_slice(&withdrawn);
        put_length(&mut body, sizes[1]);
        body.extend_from_slice(&attributes);
        body.extend_from_slice(&announced);
        if slips.contains(&15) && random.one_in(3) {
            body.truncate(random.below(4));
        }
        body
    }

    fn attribute_section(&self, slips: &[u32], random: &mut Random) -> Vec<u8> {
        let mut attributes = self.attributes.clone();
        if slips.contains(&17) {
            spoil_body(&mut attributes, self.wide, random);
        }
        let mut all: Vec<&Attribute> = attributes.iter().collect();
        let is_wrong = slips.contains(&16);
        let is_twice = is_wrong && random.one_in(2) && !all.is_empty();
        if is_twice {
            all.push(random.pick(&all));
        }
        let mut out = Vec::new();
        for attribute in all {
            put_attribute(&mut out, attribute);
        }
        if is_wrong && !is_twice {
            let overruns: [&[u8]; 7] = [
                &[0x40],
                &[0x40, 99],
                &[0x50, 99],
                &[0x50, 99, 0],
                &[0x40, 99, 1],
                &[0x40, 99, 255, 0],
                &[0x50, 99, 1, 0, 0],
            ];
            out.extend_from_slice(random.pick(&overruns));
        }
        out
    }
}

fn spoil_size(record: &mut Vec<u8>, random: &mut Random) {
    match random.below(5) {
        0 => record.truncate(random.below(HEADER)),
        1 => {
            let size = RECORD_LIMIT + random.within(1, 300);
            record.resize(size, 0);
            record[8..HEADER].copy_from_slice(&((size - HEADER) as u32).to_be_bytes());
        }
        2 => record.push(random.byte()),
        3 => {
            record.pop();
        }
        _ => {
            let length: [u8; 4] = random.pick(&[[0; 4], [0xFF; 4], [0, 1, 0, 0]]);
            record[8..HEADER].copy_from_slice(&length);
        }
    }
}

fn spoil_frame(framed: &mut Vec<u8>, random: &mut Random) {
    match random.below(6) {
        0 => framed[random.below(16)] ^= 1 << random.below(8),
        1 => framed.truncate(random.below(FRAME)),
        2 => {
            framed.pop();
        }
        3 => framed.push(random.byte()),
        4 => {
            let length: u16 = random.pick(&[0, 18, 19, 4096, 4097, 0xFFFF]);
            framed[16..18].copy_from_slice(&length.to_be_bytes());
        }
        _ => {
            let size = MESSAGE_LIMIT + random.within(1, 40);
            framed.resize(size, 0);
            framed[16..18].copy_from_slice(&(size as u16).to_be_bytes());
        }
    }
}

/// A few bytes changed, put in or taken out behind the header; mostly with the two lengths made right again.
pub fn edit(record: &mut Vec<u8>, random: &mut Random) {
    for _ in 0..random.within(1, 3) {
        let place = random.within(HEADER, record.len() - 1);
        match random.below(4) {
            0 => record[place] ^= 1 << random.below(8),
            1 => record[place] = random.pick(&[0, 1, 2, 3, 4, 16, 32, 33, 255]),
            2 => record.insert(place, random.byte()),
            _ => {
                record.remove(place);
            }
        }
    }
    if random.one_in(6) {
        return;
    }
    let rest = (record.len() - HEADER) as u32;
    record[8..HEADER].copy_from_slice(&rest.to_be_bytes());
    let message = if record[7] == 4 { 32 } else { 28 };
    if record.len() >= message + FRAME {
        let length = (record.len() - message) as u16;
        record[message + 16..message + 18].copy_from_slice(&length.to_be_bytes());
    }
}
