//! Every row of records.tsv under a filter that keeps everything: the number, the steps, the lines, and the buffer around them.

use cases::{bytes, judge, program, rows, KEEP_ALL, LINE_ROOM};

const FILL: u8 = 0xA5;

/// The steps of the filter: its first test decides an UPDATE, and all of it is looked at for another message.
fn steps(record: &[u8]) -> u64 {
    let type_at = if record[7] == 4 { 50 } else { 46 };
    if record[type_at] == 2 {
        2
    } else {
        4
    }
}

fn check(
    keep_all: &[u8],
    record: &[u8],
    answer: (u32, [u64; 4]),
    text: &[u8],
    room: usize,
    row: usize,
) {
    let mut buffer = vec![FILL; room];
    assert_eq!(
        judge(keep_all, record, &mut buffer),
        answer,
        "row {row} with room {room}"
    );
    assert_eq!(
        &buffer[..text.len()],
        text,
        "lines of row {row} with room {room}"
    );
    assert!(
        buffer[text.len()..].iter().all(|b| *b == FILL),
        "row {row} with room {room} touched bytes that it didn't report"
    );
}

#[test]
fn every_record_gives_its_number_and_lines() {
    let keep_all = program(KEEP_ALL);
    let table = rows("records.tsv");
    assert_eq!(table.len(), 849);
    for (row, columns) in table.iter().enumerate() {
        let record = bytes(&columns[0]);
        let number: u32 = columns[1].parse().unwrap();
        let text = bytes(&columns[2]);
        let answer = match number {
            0 => (1, [steps(&record), text.len() as u64, 0, 0]),
            refusal => (refusal, [0; 4]),
        };
        check(&keep_all, &record, answer, &text, LINE_ROOM, row);
        check(&keep_all, &record, answer, &text, text.len(), row);
        if !text.is_empty() {
            check(&keep_all, &record, (19, [0; 4]), &[], text.len() - 1, row);
            check(&keep_all, &record, (19, [0; 4]), &[], 0, row);
        }
    }
}

#[test]
fn every_number_occurs_in_the_table() {
    let table = rows("records.tsv");
    for number in std::iter::once(0).chain(11..=18) {
        let number = number.to_string();
        assert!(table.iter().any(|columns| columns[1] == number), "{number}");
    }
}
