//! One MRT record taken apart (RFC 6396), with its BGP message (RFC 4271): refusals 11 to 18.

use crate::bytes::Bytes;
use crate::community::{self, Community};
use crate::path::{AsPath, Width};
use crate::prefix::{self, Prefix};

/// The bytes of a record's header.
pub const HEADER: usize = 12;

/// The type of an UPDATE.
const UPDATE: u8 = 2;

const LONGEST_RECORD: usize = 8192;
const BGP4MP: u16 = 16;
const MESSAGE: u16 = 1;
const MESSAGE_AS4: u16 = 4;
const IPV4: u16 = 1;

const MARKER: [u8; 16] = [0xFF; 16];
const MESSAGE_SIZES: std::ops::RangeInclusive<usize> = 19..=4096;
const EXTENDED_LENGTH: u8 = 0x10;

const ORIGIN: u8 = 1;
const AS_PATH: u8 = 2;
const NEXT_HOP: u8 = 3;
const ATOMIC_AGGREGATE: u8 = 6;
const AGGREGATOR: u8 = 7;
const COMMUNITY: u8 = 8;

/// A record that is readable.
#[derive(Debug)]
pub struct Message {
    pub seconds: u32,
    pub width: Width,
    pub peer_number: u32,
    pub peer_address: u32,
    pub kind: u8,
    /// The body, of an UPDATE only.
    pub update: Option<Update>,
}

/// The body of an UPDATE.
#[derive(Debug)]
pub struct Update {
    pub withdrawn: Vec<Prefix>,
    pub announced: Vec<Prefix>,
    pub codes: Codes,
    pub origin: Option<Origin>,
    pub path: Option<AsPath>,
    pub next_hop: Option<u32>,
    pub atomic: bool,
    pub aggregator: Option<Aggregator>,
    pub communities: Option<Vec<Community>>,
}

#[derive(Clone, Copy, Debug, PartialEq, Eq)]
pub enum Origin {
    Igp,
    Egp,
    Incomplete,
}

/// The speaker that formed an aggregate.
#[derive(Clone, Copy, Debug, PartialEq, Eq)]
pub struct Aggregator {
    pub number: u32,
    pub address: u32,
}

/// The codes of the attributes that are present, a bit for each.
#[derive(Debug, Default)]
pub struct Codes([u64; 4]);

impl Codes {
    pub fn contains(&self, code: u8) -> bool {
        self.0[usize::from(code >> 6)] & Codes::bit(code) != 0
    }

    /// Whether the code is new.
    fn insert(&mut self, code: u8) -> bool {
        let new = !self.contains(code);
        self.0[usize::from(code >> 6)] |= Codes::bit(code);
        new
    }

    fn bit(code: u8) -> u64 {
        1 << (code & 63)
    }
}

impl Message {
    /// A record taken apart, or the number of its refusal.
    pub fn decode(record: &[u8]) -> Result<Message, u32> {
        let mut bytes = Bytes(record);
        let header = Header::read(&mut bytes).ok_or(11u32)?;
        if record.len() > LONGEST_RECORD || header.length as usize != bytes.0.len() {
            return Err(11);
        }
        let width = match (header.kind, header.subtype) {
            (BGP4MP, MESSAGE) => Width::Two,
            (BGP4MP, MESSAGE_AS4) => Width::Four,
            _ => return Err(12),
        };
        let (peer_number, peer_address) = read_peer(&mut bytes, width).ok_or(13u32)?;
        let (kind, body) = read_frame(bytes.0).ok_or(14u32)?;
        let update = match kind {
            UPDATE => Some(Update::decode(body, width)?),
            _ => None,
        };
        Ok(Message {
            seconds: header.seconds,
            width,
            peer_number,
            peer_address,
            kind,
            update,
        })
    }
}

struct Header {
    seconds: u32,
    kind: u16,
    subtype: u16,
    length: u32,
}

impl Header {
    fn read(bytes: &mut Bytes) -> Option<Header> {
        Some(Header {
            seconds: bytes.u32()?,
            kind: bytes.u16()?,
            subtype: bytes.u16()?,
            length: bytes.u32()?,
        })
    }
}

/// The peer's AS number and its address.
fn read_peer(bytes: &mut Bytes, width: Width) -> Option<(u32, u32)> {
    let number = width.read(bytes)?;
    let _local_number = width.read(bytes)?;
    let _interface = bytes.u16()?;
    let family = bytes.u16()?;
    let address = bytes.u32()?;
    let _local_address = bytes.u32()?;
    (family == IPV4).then_some((number, address))
}

/// The type and the body of a message that fills the bytes.
fn read_frame(message: &[u8]) -> Option<(u8, &[u8])> {
    let mut bytes = Bytes(message);
    let marker = bytes.take(MARKER.len())?;
    let length = usize::from(bytes.u16()?);
    let kind = bytes.u8()?;
    let right = marker == MARKER && length == message.len() && MESSAGE_SIZES.contains(&length);
    right.then_some((kind, bytes.0))
}

impl Update {
    fn decode(body: &[u8], width: Width) -> Result<Update, u32> {
        let sections = Sections::read(body).ok_or(15u32)?;
        let attributes = Attributes::read(sections.attributes).ok_or(16u32)?;
        let origin = checked(attributes.origin, read_origin)?;
        let path = checked(attributes.path, |body| AsPath::read(body, width))?;
        let next_hop = checked(attributes.next_hop, read_next_hop)?;
        let atomic = checked(attributes.atomic, |body| body.is_empty().then_some(()))?;
        let aggregator = checked(attributes.aggregator, |body| read_aggregator(body, width))?;
        let communities = checked(attributes.communities, community::read_all)?;
        Ok(Update {
            withdrawn: prefix::read_all(sections.withdrawn).ok_or(18u32)?,
            announced: prefix::read_all(sections.announced).ok_or(18u32)?,
            codes: attributes.codes,
            origin,
            path,
            next_hop,
            atomic: atomic.is_some(),
            aggregator,
            communities,
        })
    }
}

struct Sections<'a> {
    withdrawn: &'a [u8],
    attributes: &'a [u8],
    announced: &'a [u8],
}

impl<'a> Sections<'a> {
    fn read(body: &'a [u8]) -> Option<Sections<'a>> {
        let mut bytes = Bytes(body);
        let withdrawn_length = bytes.u16()?;
        let withdrawn = bytes.take(withdrawn_length.into())?;
        let attributes_length = bytes.u16()?;
        let attributes = bytes.take(attributes_length.into())?;
        Some(Sections {
            withdrawn,
            attributes,
            announced: bytes.0,
        })
    }
}

/// The bodies of the attributes that are checked, and all codes.
#[derive(Default)]
struct Attributes<'a> {
    codes: Codes,
    origin: Option<&'a [u8]>,
    path: Option<&'a [u8]>,
    next_hop: Option<&'a [u8]>,
    atomic: Option<&'a [u8]>,
    aggregator: Option<&'a [u8]>,
    communities: Option<&'a [u8]>,
}

impl<'a> Attributes<'a> {
    /// Nothing where one overruns or a code comes twice.
    fn read(section: &'a [u8]) -> Option<Attributes<'a>> {
        let mut bytes = Bytes(section);
        let mut attributes = Attributes::default();
        while !bytes.is_empty() {
            let (code, body) = read_attribute(&mut bytes)?;
            if !attributes.codes.insert(code) {
                return None;
            }
            match code {
                ORIGIN => attributes.origin = Some(body),
                AS_PATH => attributes.path = Some(body),
                NEXT_HOP => attributes.next_hop = Some(body),
                ATOMIC_AGGREGATE => attributes.atomic = Some(body),
                AGGREGATOR => attributes.aggregator = Some(body),
                COMMUNITY => attributes.communities = Some(body),
                _ => {}
            }
        }
        Some(attributes)
    }
}

fn read_attribute<'a>(bytes: &mut Bytes<'a>) -> Option<(u8, &'a [u8])> {
    let flags = bytes.u8()?;
    let code = bytes.u8()?;
    let length = match flags & EXTENDED_LENGTH {
        0 => bytes.u8()?.into(),
        _ => bytes.u16()?.into(),
    };
    Some((code, bytes.take(length)?))
}

/// What a body holds, where the attribute is present; a wrong one is 17.
fn checked<'a, T>(
    body: Option<&'a [u8]>,
    read: impl FnOnce(&'a [u8]) -> Option<T>,
) -> Result<Option<T>, u32> {
    match body {
        Some(body) => read(body).map(Some).ok_or(17),
        None => Ok(None),
    }
}

fn read_origin(body: &[u8]) -> Option<Origin> {
    match body {
        [0] => Some(Origin::Igp),
        [1] => Some(Origin::Egp),
        [2] => Some(Origin::Incomplete),
        _ => None,
    }
}

fn read_next_hop(body: &[u8]) -> Option<u32> {
    body.try_into().ok().map(u32::from_be_bytes)
}

/// An AS number of the record's width and an address, and no more.
fn read_aggregator(body: &[u8], width: Width) -> Option<Aggregator> {
    let mut bytes = Bytes(body);
    let aggregator = Aggregator {
        number: width.read(&mut bytes)?,
        address: bytes.u32()?,
    };
    bytes.is_empty().then_some(aggregator)
}

#[cfg(test)]
mod tests {
    use super::*;

    #[test]
    fn an_aggregator_has_the_record_s_width() {
        let (number, address) = (64500, 0xC000_0201);
        let wanted = Some(Aggregator { number, address });
        let narrow = [0xFB, 0xF4, 192, 0, 2, 1];
        let wide = [0, 0, 0xFB, 0xF4, 192, 0, 2, 1];
        assert_eq!(read_aggregator(&narrow, Width::Two), wanted);
        assert_eq!(read_aggregator(&wide, Width::Four), wanted);
        assert_eq!(read_aggregator(&wide, Width::Two), None);
        assert_eq!(read_aggregator(&narrow, Width::Four), None);
        assert_eq!(read_aggregator(&[], Width::Two), None);
    }
}
