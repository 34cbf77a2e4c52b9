//! Every row of walks.tsv: the records handed out, the closing answer, and that it stays.

use cases::{bytes, rows, step};

#[test]
fn every_run_is_walked() {
    let table = rows("walks.tsv");
    assert_eq!(table.len(), 146);
    for (row, columns) in table.iter().enumerate() {
        let run = bytes(&columns[0]);
        let sizes: Vec<usize> = columns[1]
            .split(',')
            .filter(|size| !size.is_empty())
            .map(|size| size.parse().unwrap())
            .collect();
        let mut at = 0;
        for size in sizes {
            assert_eq!(
                step(&run, at),
                (0, [size as u64, 0, 0, 0]),
                "row {row} at {at}"
            );
            at += size;
        }
        let left: u64 = columns[3].parse().unwrap();
        let closing = match columns[2].as_str() {
            "done" => (1, [0; 4]),
            "cut" => (2, [left, 0, 0, 0]),
            other => panic!("row {row} closes with {other}"),
        };
        assert_eq!(run.len() as u64 - at as u64, left, "row {row}");
        assert_eq!(step(&run, at), closing, "row {row} at its end");
        assert_eq!(step(&run, at), closing, "row {row} once more");
    }
}

#[test]
fn a_place_past_the_end_is_done() {
    let run = bytes(&rows("walks.tsv")[0][0]);
    for at in [run.len(), run.len() + 1, usize::MAX - 8, usize::MAX] {
        assert_eq!(step(&run, at), (1, [0; 4]), "at {at}");
    }
}
