//! The known pairs of the paper, its record with further attributes, and programs that no text gives.

use reference::{compile, judge, Judged, Spent, Tally};

const PROGRAM_ROOM: usize = 8192;
const LINE_ROOM: usize = 65536;

/// Record R of the paper, and its line.
const R: [u8; 83] = [
    0x60, 0xB8, 0xD2, 0xCB, 0, 16, 0, 4, 0, 0, 0, 0x47, // header
    0, 3, 0x09, 0x7C, 0, 0, 0xFB, 0xF4, 0, 0, 0, 1, 192, 0, 2, 1, 192, 0, 2, 2, // peer part
    255, 255, 255, 255, 255, 255, 255, 255, 255, 255, 255, 255, 255, 255, 255, 255, // marker
    0, 0x33, 2, 0, 0, 0, 0x18, // length, type, nothing withdrawn, bytes of attributes
    0x40, 1, 1, 0, 0x40, 2, 10, 2, 2, 0, 3, 0x09, 0x7C, 0, 0, 0x0D, 0x05, // ORIGIN, AS_PATH
    0x40, 3, 4, 192, 0, 2, 1, 24, 10, 1, 2, // NEXT_HOP, announced
];
const R_LINE: &[u8] = b"+|10.1.2.0/24|199036 3333|192.0.2.1|i||||192.0.2.1 199036|1622725323|1\n";

fn kept(steps: u32) -> Judged {
    let lines = R_LINE.to_vec();
    Judged::Kept {
        spent: Spent { steps },
        lines,
    }
}

fn dropped(steps: u32) -> Judged {
    Judged::Dropped {
        spent: Spent { steps },
    }
}

fn judge_r(text: &str, room: usize) -> Judged {
    let program = compile(text.as_bytes(), PROGRAM_ROOM).expect(text);
    judge(&program, &R, room, None)
}

#[test]
fn filters_on_r() {
    for (text, answer) in [
        ("-peer 199036", kept(1)),
        ("-peer 2428", dropped(1)),
        ("-aspath '3333$'", kept(1)),
        ("-aspath '^3333'", dropped(1)),
        ("-loops -and -bogon-asn", dropped(2)),
        ("! -loops", kept(2)),
        ("-subnet 10.0.0.0/8", kept(1)),
        ("-exact -10.1.2.0/24", dropped(1)),
        ("-exact +10.1.2.0/24", kept(1)),
        ("-supernet 10.1.2.128/25", kept(1)),
        ("-related 0.0.0.0/0", kept(1)),
        ("-timestamp >=1622725323.5", dropped(1)),
        ("-timestamp <1622725323.5", kept(1)),
        ("-peer '192.0.2.1 199036'", kept(1)),
        ("-attr NEXT_HOP -and ! -attr 8", kept(4)),
        // the first of three decides, and both passes are looked at
        ("-type 2 -or -loops -or -loops", kept(3)),
        ("-type 2 -or -loops -and -loops", kept(2)),
        ("(-type 2 -or -loops) -and -loops", dropped(4)),
    ] {
        assert_eq!(judge_r(text, LINE_ROOM), answer, "{text}");
    }
}

#[test]
fn r_takes_71_bytes() {
    assert_eq!(judge_r("-peer 199036", 71), kept(1));
    assert_eq!(judge_r("-peer 199036", 70), Judged::Refused(19));
    assert_eq!(judge_r("-peer 2428", 0), dropped(1));
}

/// The line of R with further attributes, where it is kept, or the number of its refusal.
fn judge_r_with(attributes: &[u8], text: &str) -> Result<Option<String>, u32> {
    const MESSAGE: usize = 32;
    const PREFIX: usize = 4;
    let mut record = R.to_vec();
    let end = record.len() - PREFIX;
    record.splice(end..end, attributes.iter().copied());
    for lowest_byte in [11, MESSAGE + 17, MESSAGE + 22] {
        record[lowest_byte] += attributes.len() as u8;
    }
    let program = compile(text.as_bytes(), PROGRAM_ROOM).expect(text);
    match judge(&program, &record, LINE_ROOM, None) {
        Judged::Kept { lines, .. } => Ok(Some(String::from_utf8(lines).unwrap())),
        Judged::Dropped { .. } => Ok(None),
        Judged::Refused(number) => Err(number),
    }
}

#[test]
fn aggregators_and_communities_are_printed() {
    let line = |fields: &str| {
        let front = "+|10.1.2.0/24|199036 3333|192.0.2.1|i|";
        Ok(Some(format!(
            "{front}|{fields}|192.0.2.1 199036|1622725323|1\n"
        )))
    };
    let judged = |attributes: &[u8]| judge_r_with(attributes, "-type UPDATE");
    let aggregator = [0xC0, 7, 8, 0, 0, 0xFB, 0xF4, 192, 0, 2, 1];
    assert_eq!(judged(&aggregator), line("64500 192.0.2.1|"));
    assert_eq!(judged(&[0xC0, 8, 0]), line("|"));
    let known = [
        0xC0, 8, 20, 255, 255, 255, 3, 0, 1, 0, 2, 255, 255, 255, 1, 0, 1, 0, 2, 255, 255, 255, 2,
    ];
    let names = "|NO_EXPORT_SUBCONFED 1:2 NO_EXPORT 1:2 NO_ADVERTISE";
    assert_eq!(judged(&known), line(names));
    let blackhole = [0xC0, 8, 4, 255, 255, 2, 154];
    assert_eq!(judged(&blackhole), line("|65535:666"));

    for wrong in [
        &[0xC0, 7, 0][..],
        &[0xC0, 7, 6, 0xFB, 0xF4, 192, 0, 2, 1],
        &[0xC0, 8, 6, 0, 1, 0, 2, 0, 1],
        &[0xC0, 8, 1, 0],
    ] {
        assert_eq!(judged(wrong), Err(17), "{wrong:?}");
    }
    // AS4_AGGREGATOR and other attributes are free
    assert_eq!(judged(&[0xC0, 18, 1, 0, 0xC0, 32, 1, 0]), line("|"));
}

#[test]
fn all_communities_that_are_asked_for() {
    let two = &[0xC0, 8, 8, 0, 1, 0, 2, 255, 255, 255, 1][..];
    for (attributes, operand, kept) in [
        (two, "1:2", true),
        (two, "NO_EXPORT", true),
        (two, "65535:65281 1:2", true),
        (two, "1:2 1:2", true),
        (two, "2:1", false),
        (two, "1:2 1:3", false),
        (two, "NO_ADVERTISE", false),
        (&[0xC0, 8, 0], "1:2", false),
        (&[], "1:2", false),
    ] {
        let judged = judge_r_with(attributes, &format!("-communities '{operand}'"));
        assert_eq!(judged.map(|line| line.is_some()), Ok(kept), "{operand}");
    }
}

/// A record of a program, with its last four bytes zero.
fn record(kind: u8, variant: u8, count: u16, a: u32, b: u32) -> Vec<u8> {
    let (count, a, b) = (count.to_be_bytes(), a.to_be_bytes(), b.to_be_bytes());
    [&[kind, variant][..], &count, &a, &b, &[0; 4]].concat()
}

#[test]
fn programs_that_no_text_gives() {
    let loops = record(6, 0, 0, 0, 0);
    let item = record(4, 2, 0, 0, 0);
    let community = record(4, 0, 0, 0xFFFF_FF01, 0);
    let one = record(13, 0, 1, 0, 0);
    let mut last_bytes = loops.clone();
    last_bytes[15] = 1;
    let not_valid = [
        vec![],
        loops[..15].to_vec(),
        loops.repeat(513),
        last_bytes,
        item.clone(),
        record(0, 0, 0, 0, 0),
        record(13, 0, 0, 0, 0),
        record(10, 0, 0, 0, 0),
        record(1, 0, 0, 256, 0),
        record(2, 0, 0, 1, 1),
        record(3, 0, 0, 0, 0),
        record(3, 4, 0, 0, 0),
        record(3, 1, 1, 0, 0),
        record(5, 0, 0, 0, 0),
        record(5, 1, 0, 1, 1),
        record(5, 2, 0, 1, 1),
        record(6, 1, 0, 0, 0),
        record(8, 0, 33, 0, 0),
        record(8, 0, 8, 0x0A01_0000, 0),
        record(8, 4, 8, 0, 0),
        record(8, 0, 8, 0, 3),
        record(9, 5, 0, 0, 0),
        record(9, 0, 0, 0, 1_000_000),
        [loops.clone(), record(11, 0, 0, 0, 0)].concat(),
        [loops.clone(), record(11, 0, 1, 0, 0)].concat(),
        [loops.clone(), item.clone()].concat(),
        [record(3, 0, 1, 0, 0), record(4, 2, 0, 1, 0)].concat(),
        // a pass that lands on an item
        [
            loops.clone(),
            record(12, 0, 1, 0, 0),
            record(3, 0, 1, 0, 0),
            item.clone(),
        ]
        .concat(),
        // one that lands on a community
        [
            loops.clone(),
            record(12, 0, 1, 0, 0),
            one.clone(),
            community.clone(),
        ]
        .concat(),
        // communities that aren't as many as the record counts, or no item of variant 0
        one.clone(),
        community.clone(),
        [record(13, 0, 0, 0, 0), loops.clone()].concat(),
        [record(13, 1, 1, 0, 0), community.clone()].concat(),
        [record(13, 0, 1, 1, 0), community.clone()].concat(),
        [record(13, 0, 1, 0, 1), community.clone()].concat(),
        [record(13, 0, 2, 0, 0), community.clone()].concat(),
        [record(13, 0, 2, 0, 0), community.clone(), loops.clone()].concat(),
        [record(13, 0, 512, 0, 0), community.repeat(512)].concat(),
        [one.clone(), community.repeat(2)].concat(),
        [one.clone(), record(4, 1, 0, 5, 0)].concat(),
        [one.clone(), record(4, 0, 1, 5, 0)].concat(),
        [one.clone(), record(4, 0, 0, 5, 1)].concat(),
        [one, item].concat(),
    ];
    for program in not_valid {
        let answer = judge(&program, &R, LINE_ROOM, None);
        assert_eq!(answer, Judged::Refused(20), "{program:?}");
    }
}

#[test]
fn programs_that_are_valid_record_by_record() {
    let loops = record(6, 0, 0, 0, 0);
    let flip = record(10, 0, 0, 0, 0);
    let two_tests = [loops.clone(), loops.clone(), flip].concat();
    assert_eq!(judge(&two_tests, &R, LINE_ROOM, None), kept(3));
    assert_eq!(judge(&loops.repeat(512), &R, LINE_ROOM, None), dropped(512));
    let longest = [loops.clone(), record(11, 0, 510, 0, 0), loops.repeat(510)].concat();
    assert_eq!(judge(&longest, &R, LINE_ROOM, None), dropped(2));
    let most = [record(13, 0, 511, 0, 0), record(4, 0, 0, 7, 0).repeat(511)].concat();
    assert_eq!(judge(&most, &R, LINE_ROOM, None), dropped(1));
}

#[test]
fn a_full_tally_comes_after_the_program_and_before_the_record() {
    let full = Tally {
        refused: u32::MAX,
        ..Tally::default()
    };
    let program = compile(b"-loops", PROGRAM_ROOM).unwrap();
    let mut tally = full;
    assert_eq!(judge(&[], &[], 0, Some(&mut tally)), Judged::Refused(20));
    assert_eq!(
        judge(&program, &[], 0, Some(&mut tally)),
        Judged::Refused(21)
    );
    assert_eq!(tally, full);

    let mut tally = Tally::default();
    judge(&program, &[], 0, Some(&mut tally));
    judge(&program, &R, 0, Some(&mut tally));
    let wanted = Tally {
        seen: 2,
        kept: 0,
        dropped: 1,
        refused: 1,
    };
    assert_eq!(tally, wanted);
}
