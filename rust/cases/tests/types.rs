//! The types of the crate grainlantern over the stored rows: each answer by number is the one of its type.

use std::collections::BTreeSet;
use std::net::IpAddr;

use cases::{bytes, rows, tally, KEEP_ALL, LINE_ROOM};
use grainlantern::{
    Closing, Community, Item, NotJudged, Peer, Program, ProgramRecord, Records, Relation, Side,
    Sign, Verdict, WrongProgram, PROGRAM_ROOM,
};

#[test]
fn texts_give_programs_or_refusals() {
    for (row, columns) in rows("texts.tsv").iter().enumerate() {
        let text = bytes(&columns[0]);
        let room: usize = columns[1].parse().unwrap();
        let number: u32 = columns[2].parse().unwrap();
        let place: usize = columns[3].parse().unwrap();
        match Program::compile(&text) {
            // a buffer that is too short is another caller's: here there is always room, and the reference has the program
            Ok(program) if number == 8 => {
                let wanted = reference::compile(&text, PROGRAM_ROOM).unwrap();
                assert_eq!(program.as_bytes(), wanted, "row {row}");
                assert!(wanted.len() > room, "row {row}");
            }
            Ok(program) => {
                assert_eq!(number, 0, "row {row}");
                assert_eq!(program.as_bytes(), bytes(&columns[4]), "row {row}");
            }
            Err(refusal) => {
                assert_eq!(
                    (refusal.number(), refusal.place()),
                    (number, place),
                    "row {row}"
                );
            }
        }
    }
}

/// An address as A has it.
fn a(address: IpAddr) -> u32 {
    match address {
        IpAddr::V4(address) => address.into(),
        IpAddr::V6(address) => panic!("{address} is in no record"),
    }
}

/// The kind, variant, count, A and B of a program record.
fn fields(record: ProgramRecord) -> (u8, u8, u16, u32, u32) {
    match record {
        ProgramRecord::Type { code } => (1, 0, 0, code.into(), 0),
        ProgramRecord::Attribute { code } => (2, 0, 0, code.into(), 0),
        ProgramRecord::Path {
            from_start,
            to_end,
            items,
        } => (3, u8::from(from_start) + 2 * u8::from(to_end), items, 0, 0),
        ProgramRecord::Item(Item::Number(number)) => (4, 0, 0, number, 0),
        ProgramRecord::Item(Item::Not(number)) => (4, 1, 0, number, 0),
        ProgramRecord::Item(Item::Any) => (4, 2, 0, 0, 0),
        ProgramRecord::Peer(Peer::As(number)) => (5, 1, 0, 0, number),
        ProgramRecord::Peer(Peer::Address(address)) => (5, 2, 0, a(address), 0),
        ProgramRecord::Peer(Peer::Both(address, number)) => (5, 3, 0, a(address), number),
        ProgramRecord::Loops => (6, 0, 0, 0, 0),
        ProgramRecord::Bogon => (7, 0, 0, 0, 0),
        ProgramRecord::Network {
            relation,
            side,
            address,
            length,
        } => {
            let variant = match relation {
                Relation::Exact => 0,
                Relation::Supernet => 1,
                Relation::Subnet => 2,
                Relation::Related => 3,
            };
            let side = match side {
                Side::Either => 0,
                Side::Announced => 1,
                Side::Withdrawn => 2,
            };
            (8, variant, length.into(), a(address), side)
        }
        ProgramRecord::Time {
            sign,
            seconds,
            microseconds,
        } => {
            let variant = match sign {
                Sign::Equal => 0,
                Sign::Before => 1,
                Sign::NotAfter => 2,
                Sign::After => 3,
                Sign::NotBefore => 4,
            };
            (9, variant, 0, seconds, microseconds)
        }
        ProgramRecord::Flip => (10, 0, 0, 0, 0),
        ProgramRecord::PassIfFalse { over } => (11, 0, over, 0, 0),
        ProgramRecord::PassIfTrue { over } => (12, 0, over, 0, 0),
        ProgramRecord::Communities { communities } => (13, 0, communities, 0, 0),
        ProgramRecord::Community(Community { high, low }) => {
            (4, 0, 0, u32::from(high) * 65536 + u32::from(low), 0)
        }
        other => panic!("{other:?} has no fields here"),
    }
}

#[test]
fn program_records_have_all_that_the_bytes_have() {
    let mut kinds = BTreeSet::new();
    for (row, columns) in rows("texts.tsv").iter().enumerate() {
        let Ok(program) = Program::compile(bytes(&columns[0])) else {
            continue;
        };
        let mut written = Vec::new();
        for record in program.records() {
            let (kind, variant, count, a, b) = fields(record);
            kinds.insert((kind, variant));
            written.extend([kind, variant]);
            written.extend(count.to_be_bytes());
            written.extend(a.to_be_bytes());
            written.extend(b.to_be_bytes());
            written.extend([0; 4]);
        }
        assert_eq!(written, program.as_bytes(), "row {row}");
    }
    // the variants of each kind, none left out
    let variants = [1, 1, 4, 3, 3, 1, 1, 4, 5, 1, 1, 1, 1];
    assert_eq!(kinds.len(), variants.iter().sum(), "{kinds:?}");
}

#[test]
fn items_are_communities_behind_their_record_only() {
    let program = Program::compile("-communities '1:2 NO_EXPORT' -or -aspath '65538 !5'").unwrap();
    let wanted = [
        ProgramRecord::Communities { communities: 2 },
        ProgramRecord::Community(Community { high: 1, low: 2 }),
        ProgramRecord::Community(Community {
            high: 65535,
            low: 65281,
        }),
        ProgramRecord::PassIfTrue { over: 3 },
        ProgramRecord::Path {
            from_start: false,
            to_end: false,
            items: 2,
        },
        ProgramRecord::Item(Item::Number(65538)),
        ProgramRecord::Item(Item::Not(5)),
    ];
    assert_eq!(program.records().len(), wanted.len());
    assert!(program.records().eq(wanted));
}

#[test]
fn programs_are_parsed_and_converted_as_any_value() {
    let program = Program::compile(KEEP_ALL).unwrap();
    assert_eq!(KEEP_ALL.parse::<Program>().as_ref(), Ok(&program));
    assert_eq!(AsRef::<[u8]>::as_ref(&program), program.as_bytes());
    assert_eq!(Program::try_from(program.as_bytes()).as_ref(), Ok(&program));
    let refusal = "-loops )".parse::<Program>().unwrap_err();
    assert_eq!((refusal.number(), refusal.place()), (4, 7));
    let wrong: WrongProgram = Program::try_from(&b"no program"[..]).unwrap_err();
    assert_eq!(wrong.to_string(), "the program isn't valid (refusal 20)");
}

#[test]
fn every_refusal_says_what_and_where() {
    let heavy = format!("-aspath '{}'", ". ".repeat(512));
    for (text, number, says) in [
        (" ".repeat(4097), 1, "the text has over 4,096 bytes"),
        ("-loops \r".to_owned(), 2, "at byte 7"),
        ("-aspath '5".to_owned(), 3, "at byte 8"),
        ("-loops )".to_owned(), 4, "at byte 7"),
        ("-type 256".to_owned(), 5, "at byte 6"),
        ("!".repeat(33), 6, "opens level 33 at byte 32"),
        (heavy, 7, "over 512 records (refusal 7)"),
    ] {
        let refusal = Program::compile(&text).unwrap_err();
        assert_eq!(refusal.number(), number, "{text}");
        let said = refusal.to_string();
        assert!(said.contains(says), "{said}");
        assert!(said.ends_with(&format!("(refusal {number})")), "{said}");
    }
}

/// The number of an answer, its steps and its lines.
fn parts(answer: Result<Verdict, NotJudged>, lines: &[u8]) -> (u32, u32, &[u8]) {
    match answer {
        Ok(Verdict::Kept { spent, written }) => (1, spent.steps, &lines[..written]),
        Ok(Verdict::Dropped { spent }) => (0, spent.steps, &[]),
        Err(refusal) => (refusal.number(), 0, &[]),
    }
}

#[test]
fn records_give_verdicts_or_refusals() {
    for (row, columns) in rows("judged.tsv").iter().enumerate() {
        let number: u32 = columns[4].parse().unwrap();
        let program = match Program::from_bytes(&bytes(&columns[0])) {
            Ok(program) => program,
            Err(wrong) => {
                assert_eq!((wrong.number(), number), (20, 20), "row {row}");
                continue;
            }
        };
        let record = bytes(&columns[1]);
        let room: usize = columns[2].parse().unwrap();
        let mut lines = vec![0; room];
        let mut counted = tally(&columns[3]);
        let answer = match &mut counted {
            None => program.judge(&record, &mut lines),
            Some(tally) => program.judge_counted(&record, &mut lines, tally),
        };
        assert_eq!(counted, tally(&columns[7]), "tally of row {row}");
        let steps: u32 = columns[5].parse().unwrap();
        let wanted = (number, steps, &bytes(&columns[6])[..]);
        assert_eq!(parts(answer, &lines), wanted, "row {row}");
    }
}

#[test]
fn records_that_are_not_readable_are_told_from_the_rest() {
    let keep_all = Program::compile(KEEP_ALL).unwrap();
    let mut lines = vec![0; LINE_ROOM];
    for (row, columns) in rows("records.tsv").iter().enumerate() {
        let number: u32 = columns[1].parse().unwrap();
        match keep_all.judge(&bytes(&columns[0]), &mut lines) {
            Ok(verdict) => assert!(verdict.is_kept() && number == 0, "row {row}"),
            Err(refusal) => {
                assert!(refusal.is_of_record(), "row {row}");
                assert_eq!(refusal.number(), number, "row {row}");
                let said = refusal.to_string();
                assert!(said.ends_with(&format!("(refusal {number})")), "{said}");
            }
        }
    }
    for refusal in [NotJudged::ShortLines, NotJudged::FullTally] {
        assert!(!refusal.is_of_record(), "{refusal}");
    }
}

#[test]
fn runs_are_walked_to_their_closing_answer() {
    for (row, columns) in rows("walks.tsv").iter().enumerate() {
        let run = bytes(&columns[0]);
        let left: usize = columns[3].parse().unwrap();
        let closing = match columns[2].as_str() {
            "done" => Closing::Done,
            _ => Closing::Cut { left },
        };
        let mut records = Records::new(&run);
        assert_eq!(records.closing(), None, "row {row}");
        let parts: Vec<&[u8]> = records.by_ref().collect();
        let sizes: Vec<String> = parts.iter().map(|part| part.len().to_string()).collect();
        assert_eq!(sizes.join(","), columns[1], "row {row}");
        assert_eq!(parts.concat(), run[..run.len() - left], "row {row}");
        assert_eq!(records.closing(), Some(closing), "row {row}");
        assert_eq!(records.next(), None, "row {row} once more");
        assert_eq!(records.closing(), Some(closing), "row {row} once more");
    }
}
