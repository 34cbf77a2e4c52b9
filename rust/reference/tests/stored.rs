//! Every stored row and the real dumps: the answers of another implementation.

use std::path::Path;

use reference::{compile, judge, step, Filter, Judged, Refusal, Spent, Step, Tally};

/// Room in which every program and the lines of every record fit.
const PROGRAM_ROOM: usize = 8192;
const LINE_ROOM: usize = 65536;

const KEEP_ALL: &[u8] = b"-type 2 -or ! -type 2";

fn stored(name: &str) -> Vec<u8> {
    let file = Path::new(env!("CARGO_MANIFEST_DIR"))
        .join("../../tests")
        .join(name);
    std::fs::read(&file).unwrap_or_else(|why| panic!("{}: {why}", file.display()))
}

/// The rows of a table, without its heading.
fn rows(name: &str, count: usize) -> Vec<Vec<String>> {
    let text = String::from_utf8(stored(&format!("cases/{name}"))).expect(name);
    let rows: Vec<Vec<String>> = text
        .lines()
        .skip(1)
        .map(|row| row.split('\t').map(str::to_owned).collect())
        .collect();
    assert_eq!(rows.len(), count, "rows of {name}");
    rows
}

fn bytes(hex: &str) -> Vec<u8> {
    assert_eq!(hex.len() % 2, 0, "odd number of hex digits: {hex}");
    (0..hex.len())
        .step_by(2)
        .map(|at| u8::from_str_radix(&hex[at..at + 2], 16).expect(hex))
        .collect()
}

/// `-` is no tally.
fn tally(column: &str) -> Option<Tally> {
    if column == "-" {
        return None;
    }
    let counts: Vec<u32> = column.split(',').map(|n| n.parse().unwrap()).collect();
    let [seen, kept, dropped, refused] = counts[..] else {
        panic!("not four counts: {column}");
    };
    Some(Tally {
        seen,
        kept,
        dropped,
        refused,
    })
}

#[test]
fn texts() {
    for (row, columns) in rows("texts.tsv", 1091).iter().enumerate() {
        let room: usize = columns[1].parse().unwrap();
        let number: u32 = columns[2].parse().unwrap();
        let value: usize = columns[3].parse().unwrap();
        let wanted = match number {
            0 => Ok(bytes(&columns[4])),
            number => Err(Refusal {
                number,
                place: value,
            }),
        };
        let answer = compile(&bytes(&columns[0]), room);
        assert_eq!(answer, wanted, "row {row}");
        if let Ok(program) = answer {
            assert_eq!(program.len(), value, "row {row}");
            assert!(Filter::new(&program).is_some(), "row {row}");
        }
    }
}

#[test]
fn records() {
    let keep_all = compile(KEEP_ALL, PROGRAM_ROOM).unwrap();
    for (row, columns) in rows("records.tsv", 849).iter().enumerate() {
        let record = bytes(&columns[0]);
        let number: u32 = columns[1].parse().unwrap();
        let text = bytes(&columns[2]);
        for room in [LINE_ROOM, text.len()] {
            match judge(&keep_all, &record, room, None) {
                Judged::Kept { lines, .. } => {
                    assert_eq!(number, 0, "row {row}");
                    assert_eq!(lines, text, "row {row}");
                }
                other => assert_eq!(other, Judged::Refused(number), "row {row}"),
            }
        }
        if let Some(short) = text.len().checked_sub(1) {
            let answer = judge(&keep_all, &record, short, None);
            assert_eq!(answer, Judged::Refused(19), "row {row}");
        }
    }
}

#[test]
fn judged() {
    for (row, columns) in rows("judged.tsv", 1158).iter().enumerate() {
        let room: usize = columns[2].parse().unwrap();
        let steps: u32 = columns[5].parse().unwrap();
        let spent = Spent { steps };
        let wanted = match columns[4].parse().unwrap() {
            1 => Judged::Kept {
                spent,
                lines: bytes(&columns[6]),
            },
            0 => Judged::Dropped { spent },
            number => Judged::Refused(number),
        };
        let mut counted = tally(&columns[3]);
        let answer = judge(
            &bytes(&columns[0]),
            &bytes(&columns[1]),
            room,
            counted.as_mut(),
        );
        assert_eq!(answer, wanted, "row {row}");
        assert_eq!(counted, tally(&columns[7]), "tally of row {row}");
    }
}

#[test]
fn walks() {
    for (row, columns) in rows("walks.tsv", 146).iter().enumerate() {
        let run = bytes(&columns[0]);
        let mut at = 0;
        for size in columns[1].split(',').filter(|size| !size.is_empty()) {
            let end = at + size.parse::<usize>().unwrap();
            assert_eq!(step(&run, at), Step::Record(&run[at..end]), "row {row}");
            at = end;
        }
        let left: usize = columns[3].parse().unwrap();
        let closing = match columns[2].as_str() {
            "done" => Step::Done,
            "cut" => Step::Cut(left),
            other => panic!("row {row} closes with {other}"),
        };
        assert_eq!(run.len() - at, left, "row {row}");
        assert_eq!(step(&run, at), closing, "row {row}");
        assert_eq!(step(&run, run.len() + 1), Step::Done, "row {row}");
        assert_eq!(step(&run, usize::MAX), Step::Done, "row {row}");
    }
}

/// All lines of a run, judged by a filter that was made once.
fn lines(run: &[u8]) -> Vec<u8> {
    let keep_all = compile(KEEP_ALL, PROGRAM_ROOM).unwrap();
    let filter = Filter::new(&keep_all).unwrap();
    let mut lines = Vec::new();
    let mut at = 0;
    while let Step::Record(record) = step(run, at) {
        // refused records print nothing
        let _ = filter.judge(record, &mut lines);
        at += record.len();
    }
    assert_eq!(step(run, at), Step::Done);
    lines
}

#[test]
fn real_dumps() {
    for name in ["frr", "gobgp"] {
        let printed = lines(&stored(&format!("real/{name}.mrt")));
        let wanted = stored(&format!("real/{name}.lines"));
        assert!(printed == wanted, "{name}: the lines differ");
    }
}
