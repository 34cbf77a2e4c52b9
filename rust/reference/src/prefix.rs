//! IPv4 prefixes.

use crate::bytes::Bytes;

/// A network: the bits of its address past its length are zero.
#[derive(Clone, Copy, Debug, PartialEq, Eq)]
pub struct Prefix {
    pub address: u32,
    pub length: u8,
}

impl Prefix {
    /// The network of an address; the bits past the length, which is at most 32, are cleared.
    pub fn new(address: u32, length: u8) -> Prefix {
        Prefix {
            address: address & mask(length),
            length,
        }
    }

    /// Whether every address of the other network lies in this one.
    pub fn covers(&self, other: &Prefix) -> bool {
        self.length <= other.length && other.address & mask(self.length) == self.address
    }
}

fn mask(length: u8) -> u32 {
    u32::MAX.checked_shl(32 - u32::from(length)).unwrap_or(0)
}

/// The prefixes that fill a part of an UPDATE, or nothing where one is wrong.
pub fn read_all(part: &[u8]) -> Option<Vec<Prefix>> {
    let mut bytes = Bytes(part);
    // most have 24 bits, in 4 bytes
    let mut prefixes = Vec::with_capacity(part.len().div_ceil(4));
    while !bytes.is_empty() {
        prefixes.push(read(&mut bytes)?);
    }
    Some(prefixes)
}

fn read(bytes: &mut Bytes) -> Option<Prefix> {
    let length = bytes.u8().filter(|length| *length <= 32)?;
    let front = bytes.take(usize::from(length).div_ceil(8))?;
    let mut address = [0; 4];
    address[..front.len()].copy_from_slice(front);
    Some(Prefix::new(u32::from_be_bytes(address), length))
}

#[cfg(test)]
mod tests {
    use super::*;

    #[test]
    fn spare_bits_count_as_zero() {
        let read = read_all(&[0x17, 0x0A, 0x01, 0x03]);
        assert_eq!(read, Some(vec![Prefix::new(0x0A01_0200, 23)]));
    }

    #[test]
    fn lengths_up_to_32() {
        let read = read_all(&[32, 1, 2, 3, 4, 0]);
        assert_eq!(
            read,
            Some(vec![Prefix::new(0x0102_0304, 32), Prefix::new(0, 0)])
        );
        assert_eq!(read_all(&[33, 1, 2, 3, 4, 5]), None);
        assert_eq!(read_all(&[25, 1, 2, 3]), None);
    }

    #[test]
    fn a_network_covers_itself_and_its_parts() {
        let all = Prefix::new(0, 0);
        let eight = Prefix::new(0x0A00_0000, 8);
        let part = Prefix::new(0x0A80_0000, 9);
        assert!(all.covers(&eight) && eight.covers(&eight) && eight.covers(&part));
        assert!(!eight.covers(&all) && !part.covers(&eight));
        assert!(!eight.covers(&Prefix::new(0x0B00_0000, 9)));
    }
}
