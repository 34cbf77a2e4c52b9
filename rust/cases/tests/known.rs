//! The known pairs of document 01 that aren't starred, and its easy slips, through compiling and judging. The starred pairs are proved
//! (crate pairs). The limits of a text stand in texts.rs (`levels_up_to_32`, `sizes_up_to_4096`), prefixes of 23, 32 and 33 bits on their own and
//! in R in crates/vectors.

use std::collections::BTreeSet;

use cases::{bytes, judge, program, LINE_ROOM, R, R_LINE};

const FILL: u8 = 0xA5;

/// Whether a filter keeps a record.
fn keeps(text: &str, record: &[u8]) -> bool {
    let mut lines = vec![FILL; LINE_ROOM];
    match judge(&program(text), record, &mut lines) {
        (1, _) => true,
        (0, _) => false,
        refused => panic!("{text}: {refused:?}"),
    }
}

/// R with another AS_PATH attribute, or none.
fn with_path(attribute: &[u8]) -> Vec<u8> {
    let r = bytes(R);
    let (front, path, back) = (&r[..59], &r[59..72], &r[72..]);
    let mut record = [front, attribute, back].concat();
    for length_at in [10, 48, 53] {
        let old = u16::from_be_bytes([r[length_at], r[length_at + 1]]);
        let new = old - path.len() as u16 + attribute.len() as u16;
        record[length_at..length_at + 2].copy_from_slice(&new.to_be_bytes());
    }
    record
}

/// An AS_PATH of one sequence.
fn sequence(numbers: &[u32]) -> Vec<u8> {
    let mut body = vec![2, numbers.len() as u8];
    for number in numbers {
        body.extend_from_slice(&number.to_be_bytes());
    }
    [&[0x40, 2, body.len() as u8], &body[..]].concat()
}

#[test]
fn r_prints_71_bytes() {
    let r = bytes(R);
    for room in [71, 72, LINE_ROOM] {
        let mut lines = vec![FILL; room];
        assert_eq!(
            judge(&program("-peer 199036"), &r, &mut lines),
            (1, [1, 71, 0, 0]),
            "room {room}"
        );
        assert_eq!(&lines[..71], R_LINE.as_bytes(), "room {room}");
        assert!(lines[71..].iter().all(|b| *b == FILL), "room {room}");
    }
}

#[test]
fn r_in_70_bytes_is_19_and_leaves_them() {
    for room in [0, 70] {
        let mut lines = vec![FILL; room];
        assert_eq!(
            judge(&program("-peer 199036"), &bytes(R), &mut lines),
            (19, [0; 4]),
            "room {room}"
        );
        assert!(lines.iter().all(|b| *b == FILL), "room {room}");
    }
}

#[test]
fn spare_bits_of_a_prefix_count_as_zero() {
    let mut record = bytes(R);
    record[79..83].copy_from_slice(&[0x17, 0x0A, 0x01, 0x03]);
    assert!(keeps("-exact 10.1.2.0/23", &record));
    assert!(!keeps("-subnet 10.1.3.0/24", &record));
}

#[test]
fn half_a_second_is_500000_microseconds() {
    // a record's own fraction is 0, so only the program tells .5 from .000005
    assert_eq!(
        program("-timestamp 1622725323.5")[8..12],
        500_000u32.to_be_bytes()
    );
    assert_eq!(
        program("-timestamp 1622725323.000005")[8..12],
        5u32.to_be_bytes()
    );
    let r = bytes(R);
    assert!(!keeps("-timestamp 1622725323.5", &r));
    assert!(keeps("-timestamp 1622725323.0", &r));
}

#[test]
fn or_is_looser_than_and() {
    let r = bytes(R);
    // true -or ( false -and false ), and ( false -and false ) -or true: read the other way round both would be false
    assert!(keeps("-peer 199036 -or -loops -and -bogon-asn", &r));
    assert!(keeps("-loops -and -bogon-asn -or -peer 199036", &r));
    assert!(!keeps("( -peer 199036 -or -loops ) -and -bogon-asn", &r));
}

/// Document 01's bogon ranges, each as its first and its last number.
const BOGON_RANGES: [(u32, u32); 9] = [
    (0, 0),
    (23456, 23456),
    (64496, 64511),
    (64512, 65534),
    (65535, 65535),
    (65536, 65551),
    (65552, 131071),
    (4200000000, 4294967294),
    (4294967295, 4294967295),
];

#[test]
fn bogons_at_the_bounds_and_beside_them() {
    let bounds = BOGON_RANGES.iter().flat_map(|(low, high)| [*low, *high]);
    let numbers: BTreeSet<u32> = bounds
        .flat_map(|bound| [bound.saturating_sub(1), bound, bound.saturating_add(1)])
        .collect();
    for number in numbers {
        let listed = BOGON_RANGES
            .iter()
            .any(|(low, high)| *low <= number && number <= *high);
        // alone, and as the last of a path of clean numbers
        for path in [vec![number], vec![3333, 199036, number]] {
            let record = with_path(&sequence(&path));
            assert_eq!(keeps("-bogon-asn", &record), listed, "{number}");
        }
    }
}

#[test]
fn prepending_is_no_loop() {
    assert!(!keeps("-loops", &with_path(&sequence(&[1, 1, 2]))));
    assert!(keeps("-loops", &with_path(&sequence(&[1, 2, 1]))));
    assert!(keeps("-loops", &with_path(&sequence(&[1, 1, 2, 1]))));
}

#[test]
fn an_empty_pattern_between_pins_needs_an_empty_path() {
    let empty = with_path(&[0x40, 2, 0]);
    let absent = with_path(&[]);
    assert!(keeps("-aspath ^$", &empty));
    assert!(!keeps("-aspath ^$", &absent));
    assert!(!keeps("-aspath ^$", &bytes(R)));
    assert!(keeps("-attr AS_PATH", &empty));
    assert!(!keeps("-attr AS_PATH", &absent));
}
