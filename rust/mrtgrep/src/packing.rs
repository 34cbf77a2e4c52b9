//! Files that have to be unpacked first, known by their first bytes.

/// What a file is packed with.
#[derive(Clone, Copy, Debug, PartialEq, Eq)]
pub struct Packing {
    pub name: &'static str,
    /// The command that unpacks.
    pub command: &'static str,
    magic: &'static [u8],
}

const KNOWN: [Packing; 4] = [
    Packing {
        name: "gzip",
        command: "gzip -dc",
        magic: b"\x1F\x8B\x08",
    },
    Packing {
        name: "bzip2",
        command: "bzip2 -dc",
        magic: b"BZh",
    },
    Packing {
        name: "xz",
        command: "xz -dc",
        magic: b"\xFD7zXZ\0",
    },
    Packing {
        name: "zstd",
        command: "zstd -dc",
        magic: b"\x28\xB5\x2F\xFD",
    },
];

impl Packing {
    pub fn of(first: &[u8]) -> Option<Packing> {
        KNOWN
            .into_iter()
            .find(|packing| first.starts_with(packing.magic))
    }
}
