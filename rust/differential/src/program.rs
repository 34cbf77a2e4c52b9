//! Programs: valid ones, most of which no text gives, and damaged ones.

use crate::aim;
use crate::message::Message;
use crate::random::Random;
use crate::test::{program_record, Record, Test};

/// A test with its items, a flip, or a pass whose count is still open.
enum Block {
    Test(Vec<Record>),
    Flip,
    Pass(u8),
}

impl Block {
    fn size(&self) -> usize {
        match self {
            Block::Test(records) => records.len(),
            Block::Flip | Block::Pass(_) => 1,
        }
    }
}

fn blocks(message: &Message, random: &mut Random) -> Vec<Block> {
    let test = |random: &mut Random| Block::Test(Test::aimed(message, random).records());
    let mut blocks = vec![test(random)];
    for _ in 0..random.below(12) {
        blocks.push(match random.below(4) {
            0 => Block::Flip,
            1 => Block::Pass(random.pick(&[11, 12])),
            _ => test(random),
        });
    }
    if matches!(blocks.last(), Some(Block::Pass(_))) {
        blocks.push(test(random));
    }
    blocks
}

/// A valid program: the first record is a test, and each pass lands on a block or at the end.
pub fn valid(message: &Message, random: &mut Random) -> Vec<u8> {
    let blocks = blocks(message, random);
    let mut records: Vec<Record> = Vec::new();
    for (place, block) in blocks.iter().enumerate() {
        match block {
            Block::Test(test) => records.extend(test),
            Block::Flip => records.push(program_record(10, 0, 0, 0, 0)),
            Block::Pass(kind) => {
                let passed = random.within(1, blocks.len() - place - 1);
                let count: usize = blocks[place + 1..=place + passed]
                    .iter()
                    .map(Block::size)
                    .sum();
                records.push(program_record(*kind, 0, count as u16, 0, 0));
            }
        }
    }
    records.concat()
}

/// Places and sizes of a record's fields.
const VARIANT: (usize, usize) = (1, 1);
const COUNT: (usize, usize) = (2, 2);
const A: (usize, usize) = (4, 4);
const B: (usize, usize) = (8, 4);

/// For the records of a kind, the last values that a field may hold, and the first ones that it may not.
const BORDERS: [(u8, (usize, usize), u32); 40] = [
    (1, A, 255),
    (1, A, 256),
    (2, A, 255),
    (2, A, 256),
    (3, VARIANT, 0),
    (3, VARIANT, 3),
    (3, VARIANT, 4),
    (3, COUNT, 0),
    (3, COUNT, 511),
    (4, VARIANT, 2),
    (4, VARIANT, 3),
    (5, VARIANT, 0),
    (5, VARIANT, 3),
    (5, VARIANT, 4),
    (5, A, 0),
    (5, B, 0),
    (8, VARIANT, 3),
    (8, VARIANT, 4),
    (8, COUNT, 0),
    (8, COUNT, 32),
    (8, COUNT, 33),
    (8, A, 1),
    (8, B, 2),
    (8, B, 3),
    (9, VARIANT, 4),
    (9, VARIANT, 5),
    (9, B, 999_999),
    (9, B, 1_000_000),
    (11, COUNT, 0),
    (11, COUNT, 1),
    (11, COUNT, 510),
    (12, COUNT, 0),
    (12, COUNT, 1),
    (12, COUNT, 511),
    (13, VARIANT, 1),
    (13, COUNT, 0),
    (13, COUNT, 1),
    (13, COUNT, 511),
    (13, A, 1),
    (13, B, 1),
];

fn set(record: &mut [u8], (place, size): (usize, usize), value: u32) {
    record[place..place + size].copy_from_slice(&value.to_be_bytes()[4 - size..]);
}

fn spoil_field(record: &mut [u8], random: &mut Random) {
    let borders: Vec<_> = BORDERS
        .iter()
        .filter(|(kind, _, _)| *kind == record[0])
        .collect();
    if !borders.is_empty() && random.one_in(2) {
        let (_, field, value) = random.pick(&borders);
        set(record, *field, *value);
        return;
    }
    match random.below(4) {
        0 => record[0] = random.below(15) as u8,
        1 => set(record, random.pick(&[VARIANT, COUNT, A, B]), 1),
        2 => record[random.within(12, 15)] = random.byte(),
        _ => record[random.below(16)] ^= 1 << random.below(8),
    }
}

/// Changes the records of a list of communities: the test's, and its items'.
type Damage = fn(&mut Vec<Record>, &mut Random);

/// Damage after which no program with the list is valid, by what is wrong then.
pub const LIST_DAMAGES: [(&str, Damage); 11] = [
    ("count 0, no items", |list, _| {
        set(&mut list[0], COUNT, 0);
        list.truncate(1);
    }),
    ("count 0 before items", |list, _| {
        set(&mut list[0], COUNT, 0)
    }),
    ("count of more than 511", |list, random| {
        set(&mut list[0], COUNT, random.pick(&[512, 513, 0xFFFF]));
    }),
    ("fewer items than counted", |list, _| {
        list.pop();
    }),
    ("more items than counted", |list, _| list.push(list[1])),
    ("variant not 0", |list, random| {
        set(&mut list[0], VARIANT, random.pick(&[1, 2, 3, 255]));
    }),
    ("A not 0", |list, random| {
        set(&mut list[0], A, 1 << random.below(32))
    }),
    ("B not 0", |list, random| {
        set(&mut list[0], B, 1 << random.below(32))
    }),
    ("item of variant 1", |list, random| {
        set(any_item(list, random), VARIANT, 1);
    }),
    ("item of variant 2", |list, random| {
        // with A zero it could stand in a path
        *any_item(list, random) = program_record(4, 2, 0, 0, 0);
    }),
    ("pass onto an item", |list, random| {
        let count = random.within(1, list.len() - 1) as u16;
        let pass = program_record(random.pick(&[11, 12]), 0, count, 0, 0);
        list.splice(0..0, [program_record(6, 0, 0, 0, 0), pass]);
    }),
];

fn any_item<'a>(list: &'a mut [Record], random: &mut Random) -> &'a mut Record {
    let place = random.within(1, list.len() - 1);
    &mut list[place]
}

/// A program that isn't valid for its list of communities, and what is wrong there.
pub fn wrong_communities(message: &Message, random: &mut Random) -> (&'static str, Vec<u8>) {
    let mut list = Test::Communities(aim::communities(message, random)).records();
    let (cause, damage) = random.pick(&LIST_DAMAGES);
    damage(&mut list, random);
    if random.one_in(2) {
        list.insert(0, program_record(7, 0, 0, 0, 0));
    }
    if random.one_in(2) {
        list.push(program_record(10, 0, 0, 0, 0));
    }
    (cause, list.concat())
}

/// A program with a little damage, after which it may still be valid.
pub fn damaged(program: &[u8], random: &mut Random) -> Vec<u8> {
    let mut damaged = program.to_vec();
    let records = program.len() / 16;
    let place = 16 * random.below(records);
    let record = program[place..place + 16].to_vec();
    match random.below(12) {
        0 => damaged.truncate(random.below(program.len())),
        1 => damaged.push(random.byte()),
        2 => {
            damaged.drain(place..place + 16);
        }
        3 => {
            damaged.splice(place..place, record);
        }
        4 => {
            let other = 16 * random.below(records);
            damaged.copy_within(other..other + 16, place);
        }
        5 => {
            // As many records as there may be, or one more.
            let missing = (511 + random.below(3)).saturating_sub(records);
            let test = program_record(random.pick(&[6, 7, 10]), 0, 0, 0, 0);
            damaged.extend((0..missing).flat_map(|_| test));
        }
        _ => spoil_field(&mut damaged[place..place + 16], random),
    }
    damaged
}
