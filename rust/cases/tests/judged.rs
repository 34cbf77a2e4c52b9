//! Every row of judged.tsv: the number, the steps, the whole line buffer and the tally.

use cases::{bytes, judge, judge_counted, rows, tally};

const FILL: u8 = 0xA5;

#[test]
fn every_record_gives_its_answer_and_tally() {
    let table = rows("judged.tsv");
    assert_eq!(table.len(), 1158);
    for (row, columns) in table.iter().enumerate() {
        let program = bytes(&columns[0]);
        let record = bytes(&columns[1]);
        let room: usize = columns[2].parse().unwrap();
        let number: u32 = columns[4].parse().unwrap();
        let steps: u64 = columns[5].parse().unwrap();
        let text = bytes(&columns[6]);

        let mut buffer = vec![FILL; room];
        let mut counted = tally(&columns[3]);
        let answer = match &mut counted {
            None => judge(&program, &record, &mut buffer),
            Some(tally) => judge_counted(&program, &record, &mut buffer, tally),
        };
        assert_eq!(
            answer,
            (number, [steps, text.len() as u64, 0, 0]),
            "answer of row {row}"
        );
        let mut wanted = text;
        wanted.resize(room, FILL);
        assert!(buffer == wanted, "line buffer of row {row}");
        assert_eq!(counted, tally(&columns[7]), "tally of row {row}");
    }
}

#[test]
fn every_number_occurs_in_the_table() {
    let table = rows("judged.tsv");
    for number in [0, 1].into_iter().chain(11..=21) {
        let number = number.to_string();
        assert!(table.iter().any(|columns| columns[4] == number), "{number}");
    }
}
