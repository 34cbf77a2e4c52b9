//! AS_PATH: its segments, its numbers, and what is asked of them.

use crate::bytes::Bytes;

/// The bytes of an AS number on the wire.
#[derive(Clone, Copy, Debug, PartialEq, Eq)]
pub enum Width {
    Two,
    Four,
}

impl Width {
    pub fn bytes(self) -> usize {
        match self {
            Width::Two => 2,
            Width::Four => 4,
        }
    }

    pub fn read(self, bytes: &mut Bytes) -> Option<u32> {
        match self {
            Width::Two => bytes.u16().map(u32::from),
            Width::Four => bytes.u32(),
        }
    }
}

/// The order of the numbers of a segment.
#[derive(Clone, Copy, Debug, PartialEq, Eq)]
pub enum Order {
    Set,
    Sequence,
}

/// The numbers of all segments in one list, and how they part into segments.
#[derive(Debug)]
pub struct AsPath {
    pub numbers: Vec<u32>,
    segments: Vec<(Order, usize)>,
}

impl AsPath {
    /// The path of an attribute's body, or nothing where a segment is wrong.
    pub fn read(body: &[u8], width: Width) -> Option<AsPath> {
        let mut bytes = Bytes(body);
        let mut path = AsPath {
            numbers: Vec::with_capacity(body.len() / width.bytes()),
            segments: Vec::new(),
        };
        while !bytes.is_empty() {
            path.read_segment(&mut bytes, width)?;
        }
        Some(path)
    }

    fn read_segment(&mut self, bytes: &mut Bytes, width: Width) -> Option<()> {
        let order = match bytes.u8()? {
            1 => Order::Set,
            2 => Order::Sequence,
            _ => return None,
        };
        let count = usize::from(bytes.u8().filter(|count| *count > 0)?);
        let members = bytes.take(count * width.bytes())?;
        match width {
            Width::Two => self.numbers.extend(
                members
                    .chunks_exact(2)
                    .map(|n| u32::from(u16::from_be_bytes([n[0], n[1]]))),
            ),
            Width::Four => self.numbers.extend(
                members
                    .chunks_exact(4)
                    .map(|n| u32::from_be_bytes([n[0], n[1], n[2], n[3]])),
            ),
        }
        self.segments.push((order, count));
        Some(())
    }

    /// Each segment with its numbers.
    pub fn segments(&self) -> impl Iterator<Item = (Order, &[u32])> {
        let mut rest = self.numbers.as_slice();
        self.segments.iter().map(move |(order, count)| {
            let (numbers, others) = rest.split_at(*count);
            rest = others;
            (*order, numbers)
        })
    }

    /// Whether some number occurs twice with a different number between: in two runs of equal neighbours.
    pub fn has_loop(&self) -> bool {
        let mut runs = self.numbers.clone();
        runs.dedup();
        runs.sort_unstable();
        runs.windows(2).any(|pair| pair[0] == pair[1])
    }

    /// Whether some number is a bogon.
    pub fn has_bogon(&self) -> bool {
        self.numbers.iter().any(|number| is_bogon(*number))
    }
}

/// Numbers that no public path should have.
fn is_bogon(number: u32) -> bool {
    matches!(
        number,
        0 | 23456
            | 64496..=64511
            | 64512..=65534
            | 65535
            | 65536..=65551
            | 65552..=131071
            | 4200000000..=4294967294
            | 4294967295
    )
}

/// One item of a path pattern.
#[derive(Clone, Copy, Debug, PartialEq, Eq)]
pub enum Item {
    Number(u32),
    Not(u32),
    Any,
}

impl Item {
    fn matches(&self, member: u32) -> bool {
        match self {
            Item::Number(number) => *number == member,
            Item::Not(number) => *number != member,
            Item::Any => true,
        }
    }
}

/// Items that match neighbouring members, at the path's start or end where they are pinned there.
#[derive(Clone, Debug, PartialEq, Eq)]
pub struct Pattern {
    pub start: bool,
    pub end: bool,
    pub items: Vec<Item>,
}

impl Pattern {
    pub fn matches(&self, members: &[u32]) -> bool {
        let Some(last) = members.len().checked_sub(self.items.len()) else {
            return false;
        };
        let lowest = if self.end { last } else { 0 };
        let highest = if self.start { 0 } else { last };
        (lowest..=highest).any(|at| self.matches_at(&members[at..]))
    }

    fn matches_at(&self, members: &[u32]) -> bool {
        self.items
            .iter()
            .zip(members)
            .all(|(item, member)| item.matches(*member))
    }
}

#[cfg(test)]
mod tests {
    use super::*;

    fn path(numbers: &[u32]) -> AsPath {
        AsPath {
            numbers: numbers.to_vec(),
            segments: vec![(Order::Sequence, numbers.len())],
        }
    }

    #[test]
    fn prepending_is_no_loop() {
        assert!(!path(&[1, 1, 2]).has_loop());
        assert!(!path(&[1, 2, 2, 2]).has_loop());
        assert!(path(&[1, 2, 1]).has_loop());
        assert!(path(&[3, 1, 1, 2, 1]).has_loop());
        assert!(!path(&[]).has_loop());
    }

    #[test]
    fn bogons_at_the_bounds() {
        for number in [0, 23456, 64496, 65535, 131071, 4200000000, u32::MAX] {
            assert!(is_bogon(number), "{number}");
        }
        for number in [1, 23455, 23457, 64495, 131072, 4199999999] {
            assert!(!is_bogon(number), "{number}");
        }
    }

    #[test]
    fn segments_are_whole() {
        let read = AsPath::read(&[2, 1, 0, 7, 1, 2, 0, 8, 0, 9], Width::Two).unwrap();
        let segments: Vec<_> = read.segments().collect();
        assert_eq!(
            segments,
            [(Order::Sequence, &[7][..]), (Order::Set, &[8, 9][..])]
        );
        for wrong in [
            &[2][..],
            &[2, 0],
            &[3, 1, 0, 7],
            &[2, 1, 0],
            &[2, 1, 0, 7, 2],
        ] {
            assert!(AsPath::read(wrong, Width::Two).is_none(), "{wrong:?}");
        }
    }

    #[test]
    fn pins_hold_the_ends() {
        let pattern = |start, end, items: &[Item]| Pattern {
            start,
            end,
            items: items.to_vec(),
        };
        let seven = [Item::Number(7)];
        assert!(pattern(false, false, &seven).matches(&[6, 7, 8]));
        assert!(!pattern(true, false, &seven).matches(&[6, 7]));
        assert!(pattern(false, true, &seven).matches(&[6, 7]));
        assert!(!pattern(true, true, &seven).matches(&[7, 7]));
        assert!(pattern(true, true, &[]).matches(&[]));
        assert!(!pattern(true, true, &[]).matches(&[7]));
        assert!(pattern(true, false, &[]).matches(&[7]));
        assert!(pattern(false, true, &[]).matches(&[7]));
        assert!(pattern(false, false, &[Item::Not(7), Item::Any]).matches(&[7, 6, 7]));
        assert!(!pattern(false, false, &[Item::Any]).matches(&[]));
    }
}
