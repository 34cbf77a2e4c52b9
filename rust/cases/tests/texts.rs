//! Every row of texts.tsv: the number, the value, the program, and the buffer around it; and the limits of a text, one by one.

use cases::{bytes, compile, rows};

const FILL: u8 = 0xA5;
const RECORD: usize = 16;

fn check(text: &[u8], room: usize, number: u32, value: u64, program: &[u8], what: &str) {
    let mut buffer = vec![FILL; room];
    assert_eq!(
        compile(text, &mut buffer),
        (number, [value, 0, 0, 0]),
        "{what}"
    );
    assert_eq!(&buffer[..program.len()], program, "{what}: program");
    assert!(
        buffer[program.len()..].iter().all(|b| *b == FILL),
        "{what}: bytes were touched that aren't reported"
    );
}

/// A text that compiles to `weight` records does so in exactly that room, and is refused in one byte less.
fn compiles(text: &str, weight: usize) -> Vec<u8> {
    let mut program = vec![FILL; RECORD * weight];
    assert_eq!(
        compile(text.as_bytes(), &mut program),
        (0, [(RECORD * weight) as u64, 0, 0, 0]),
        "{text}"
    );
    check(text.as_bytes(), RECORD * weight - 1, 8, 0, &[], text);
    check(
        text.as_bytes(),
        RECORD * weight + 40,
        0,
        (RECORD * weight) as u64,
        &program,
        text,
    );
    program
}

fn refused(text: &str, number: u32, place: usize) {
    for room in [0, 16, 8192, 10000] {
        check(text.as_bytes(), room, number, place as u64, &[], text);
    }
}

#[test]
fn every_text_gives_its_number_and_program() {
    let table = rows("texts.tsv");
    assert_eq!(table.len(), 1091);
    for (row, columns) in table.iter().enumerate() {
        let text = bytes(&columns[0]);
        let room: usize = columns[1].parse().unwrap();
        let number: u32 = columns[2].parse().unwrap();
        let value: u64 = columns[3].parse().unwrap();
        let program = bytes(columns.get(4).map_or("", String::as_str));
        check(&text, room, number, value, &program, &format!("row {row}"));
    }
}

#[test]
fn every_number_occurs_in_the_table() {
    let table = rows("texts.tsv");
    for number in [0, 2, 3, 4, 5, 8] {
        let number = number.to_string();
        assert!(table.iter().any(|columns| columns[2] == number), "{number}");
    }
}

#[test]
fn levels_up_to_32() {
    let program = compiles(&format!("{}-loops", "!".repeat(32)), 33);
    assert_eq!(program[0], 6);
    assert!((1..33).all(|i| program[RECORD * i] == 10));
    refused(&format!("{}-loops", "!".repeat(33)), 6, 32);
    compiles(&format!("{}-loops{}", "(".repeat(32), ")".repeat(32)), 1);
    refused(
        &format!("{}-loops{}", "(".repeat(33), ")".repeat(33)),
        6,
        32,
    );
    refused(&"(".repeat(4096), 6, 32);
    // a level that is closed leaves room for another
    compiles(&vec!["(-loops)"; 40].join("-and"), 79);
}

#[test]
fn sizes_up_to_4096() {
    for (blanks, refusal) in [(4090, None), (4091, Some(1))] {
        let text = format!("-loops{}", " ".repeat(blanks));
        match refusal {
            None => {
                compiles(&text, 1);
            }
            Some(number) => refused(&text, number, 0),
        }
    }
    // a text that is too long isn't read: no byte of it is looked at
    check(&[0xFF; 4097], 16, 1, 0, &[], "4,097 forbidden bytes");
    check(&[0xFF; 4096], 16, 2, 0, &[], "4,096 forbidden bytes");
}

#[test]
fn weights_up_to_512() {
    // a path and its items, and communities
    let path = |items: usize| format!("-aspath '{}'", vec!["."; items].join(" "));
    let program = compiles(&path(511), 512);
    assert_eq!(&program[..4], &[3, 0, 1, 255]);
    refused(&path(512), 7, 0);
    let communities = |count: usize| format!("-communities '{}'", vec!["0:0"; count].join(" "));
    let program = compiles(&communities(511), 512);
    assert_eq!(&program[..4], &[13, 0, 1, 255]);
    refused(&communities(512), 7, 0);
    // joints, with the largest pass
    let joined = |items: usize| format!("-loops -and {}", path(items));
    let program = compiles(&joined(509), 512);
    assert_eq!(&program[RECORD..RECORD + 4], &[11, 0, 1, 254]);
    refused(&joined(510), 7, 0);
}

#[test]
fn empty_buffers_and_texts() {
    check(b"", 0, 4, 0, &[], "empty text");
    check(b"-loops", 0, 8, 0, &[], "no room at all");
    check(b" \t\n", 16, 4, 3, &[], "blanks alone");
}
