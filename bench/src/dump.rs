//! A long dump out of short ones: their readable records in a random order, from many peers, with times that go on.
//!
//! The dumps hold a few paths of 255 members and more, made to try the limits. They are measured apart, since in a search for loops they would outweigh all
//! others. For a test that looks at each number of a path there are full paths, 255 numbers of the other records each, none of them a bogon.

use reference::{Filter, Step};

const PEERS: u64 = 256;

/// The first record's seconds, and how many records come in a second.
const START: u32 = 1_700_000_000;
const A_SECOND: u32 = 500;

/// Places in a record: the seconds, the subtype's low byte, the peer part.
const SECONDS: usize = 0;
const SUBTYPE: usize = 7;
const PEER: usize = 12;

/// Paths of so many members or more are long.
const LONG: usize = 100;

/// Numbers of a full path: as many as one segment holds.
const FULL: usize = 255;

/// The field of a line that has the path.
const AS_PATH_FIELD: usize = 2;

/// The readable records of some dumps, those with long paths or those without.
fn readable(dumps: &[Vec<u8>], long: bool) -> Vec<&[u8]> {
    let text = format!("-aspath '{}'", vec!["."; LONG].join(" "));
    let program = reference::compile(text.as_bytes(), 16 * (LONG + 1)).expect("a filter");
    let is_long = Filter::new(&program).expect("its program");
    let mut records = Vec::new();
    for dump in dumps {
        let mut at = 0;
        while let Step::Record(record) = reference::step(dump, at) {
            at += record.len();
            let verdict = is_long.judge(record, &mut Vec::new());
            if verdict.is_ok_and(|verdict| verdict.keep == long) {
                records.push(record);
            }
        }
    }
    records
}

/// The numbers of the paths of some records that have no bogon, as often as they come.
fn clean_numbers(records: &[&[u8]]) -> Vec<u32> {
    let program = reference::compile(b"! -bogon-asn", 32).expect("a filter");
    let clean = Filter::new(&program).expect("its program");
    let mut numbers = Vec::new();
    for record in records {
        let mut lines = Vec::new();
        if clean
            .judge(record, &mut lines)
            .is_ok_and(|verdict| verdict.keep)
        {
            let line = String::from_utf8(lines).expect("a line");
            let path = line.split('|').nth(AS_PATH_FIELD).unwrap_or("");
            numbers.extend(
                path.split([' ', ',', '{', '}'])
                    .filter_map(|number| number.parse::<u32>().ok()),
            );
        }
    }
    numbers
}

/// An update that announces 10.0.0.0/8 by a path of one sequence.
fn update(path: &[u32]) -> Vec<u8> {
    let mut body = vec![2, path.len() as u8];
    body.extend(path.iter().flat_map(|number| number.to_be_bytes()));
    let mut attributes = vec![0x40, 1, 1, 0, 0x50, 2];
    attributes.extend((body.len() as u16).to_be_bytes());
    attributes.extend(body);
    attributes.extend([0x40, 3, 4, 192, 0, 2, 1]);

    let mut message = vec![0xFF; 16];
    message.extend((23 + attributes.len() as u16 + 2).to_be_bytes());
    message.extend([2, 0, 0]);
    message.extend((attributes.len() as u16).to_be_bytes());
    message.extend(attributes);
    message.extend([8, 10]);

    let mut record = vec![0, 0, 0, 0, 0, 16, 0, 4];
    record.extend((20 + message.len() as u32).to_be_bytes());
    record.extend([0; 10]);
    record.extend([0, 1, 192, 0, 2, 1, 192, 0, 2, 2]);
    record.extend(message);
    record
}

/// Gives a record another peer, by address and AS number.
fn set_peer(record: &mut [u8], peer: u64) {
    let width = if record[SUBTYPE] == 4 { 4 } else { 2 };
    let number = (3000 + 37 * peer as u32).to_be_bytes();
    record[PEER..PEER + width].copy_from_slice(&number[4 - width..]);
    let address = PEER + 2 * width + 4;
    record[address..address + 4].copy_from_slice(&[185, 1, (peer >> 4) as u8, peer as u8]);
}

/// A number that can't be foreseen, for each call another.
struct Drawn(u64);

impl Drawn {
    fn next(&mut self) -> u64 {
        self.0 = self
            .0
            .wrapping_mul(6364136223846793005)
            .wrapping_add(1442695040888963407);
        self.0 >> 33
    }
}

/// At least so many bytes of records, in an order that a processor can't learn.
pub fn updates(dumps: &[Vec<u8>], bytes: usize, long: bool) -> Vec<u8> {
    joined(&readable(dumps, long), bytes)
}

/// At least so many bytes of records with full paths.
pub fn full_paths(dumps: &[Vec<u8>], bytes: usize) -> Vec<u8> {
    let numbers = clean_numbers(&readable(dumps, false));
    let mut drawn = Drawn(1);
    let records: Vec<Vec<u8>> = (0..PEERS)
        .map(|_| {
            let path: Vec<u32> = (0..FULL)
                .map(|_| numbers[(drawn.next() % numbers.len() as u64) as usize])
                .collect();
            update(&path)
        })
        .collect();
    let records: Vec<&[u8]> = records.iter().map(Vec::as_slice).collect();
    joined(&records, bytes)
}

fn joined(records: &[&[u8]], bytes: usize) -> Vec<u8> {
    let mut out: Vec<u8> = Vec::with_capacity(bytes + 4096);
    let mut numbers = Drawn(1);
    let mut count = 0;
    while out.len() < bytes {
        let drawn = numbers.next();
        let start = out.len();
        out.extend_from_slice(records[(drawn % records.len() as u64) as usize]);
        let record = &mut out[start..];
        let seconds = START + count / A_SECOND;
        record[SECONDS..SECONDS + 4].copy_from_slice(&seconds.to_be_bytes());
        set_peer(record, drawn / records.len() as u64 % PEERS);
        count += 1;
    }
    out
}
