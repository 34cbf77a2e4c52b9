//! Communities (RFC 1997).

/// A community: the first half is the high one.
#[derive(Clone, Copy, Debug, PartialEq, Eq)]
pub struct Community(pub u32);

/// Those that are read and printed by name.
const NAMED: [(&str, Community); 3] = [
    ("NO_EXPORT", Community(0xFFFF_FF01)),
    ("NO_ADVERTISE", Community(0xFFFF_FF02)),
    ("NO_EXPORT_SUBCONFED", Community(0xFFFF_FF03)),
];

impl Community {
    pub fn new(first: u16, second: u16) -> Community {
        Community(u32::from(first) << 16 | u32::from(second))
    }

    pub fn halves(self) -> (u16, u16) {
        ((self.0 >> 16) as u16, self.0 as u16)
    }

    pub fn named(name: &str) -> Option<Community> {
        let (_, community) = NAMED.iter().find(|(known, _)| *known == name)?;
        Some(*community)
    }

    pub fn name(self) -> Option<&'static str> {
        let (name, _) = NAMED.iter().find(|(_, known)| *known == self)?;
        Some(name)
    }
}

/// The communities that fill an attribute's body, or nothing where the last one is cut.
pub fn read_all(body: &[u8]) -> Option<Vec<Community>> {
    let communities = body.chunks_exact(4);
    if !communities.remainder().is_empty() {
        return None;
    }
    let read = |c: &[u8]| Community(u32::from_be_bytes([c[0], c[1], c[2], c[3]]));
    Some(communities.map(read).collect())
}

/// Whether each that is asked for is held, in any order.
pub fn holds_all(held: &[Community], asked: &[Community]) -> bool {
    asked.iter().all(|community| held.contains(community))
}

#[cfg(test)]
mod tests {
    use super::*;

    #[test]
    fn names_are_those_of_rfc_1997() {
        for (name, second) in [
            ("NO_EXPORT", 65281),
            ("NO_ADVERTISE", 65282),
            ("NO_EXPORT_SUBCONFED", 65283),
        ] {
            let community = Community::new(65535, second);
            assert_eq!(Community::named(name), Some(community));
            assert_eq!(community.name(), Some(name));
            assert_eq!(community.halves(), (65535, second));
        }
        for second in [65280, 65284, 666] {
            assert_eq!(Community::new(65535, second).name(), None);
        }
        assert_eq!(Community::named("no_export"), None);
    }

    #[test]
    fn bodies_are_whole_communities() {
        assert_eq!(read_all(&[]), Some(vec![]));
        let twice = vec![Community::new(1, 2); 2];
        assert_eq!(read_all(&[0, 1, 0, 2, 0, 1, 0, 2]), Some(twice));
        for size in [1, 2, 3, 5, 6, 7] {
            assert_eq!(read_all(&vec![0; size]), None, "{size}");
        }
    }

    #[test]
    fn all_that_are_asked_for_are_held() {
        let [a, b, c] = [1, 2, 3].map(Community);
        assert!(holds_all(&[a, b, c], &[c, a, c]));
        assert!(holds_all(&[b, b], &[b]));
        assert!(!holds_all(&[a, b], &[a, c]));
        assert!(!holds_all(&[], &[a]));
    }
}
