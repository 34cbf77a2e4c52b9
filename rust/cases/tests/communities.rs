//! Request 1 by hand: what `-communities` is true of, how communities and the aggregator are printed, and which of their sizes are 17.

use cases::{bytes, judge, program, stored, KEEP_ALL, LINE_ROOM, R};

const AGGREGATOR: u8 = 7;
const COMMUNITY: u8 = 8;

/// 64500:1 and NO_EXPORT.
const TWO: [u8; 8] = [0xFB, 0xF4, 0, 1, 0xFF, 0xFF, 0xFF, 1];

/// The number of an answer, and the lines.
fn judged(text: &str, record: &[u8]) -> (u32, String) {
    let mut lines = vec![0; LINE_ROOM];
    let (number, [_, written, ..]) = judge(&program(text), record, &mut lines);
    lines.truncate(written as usize);
    (number, String::from_utf8(lines).unwrap())
}

/// Whether a filter keeps a record.
fn keeps(text: &str, record: &[u8]) -> bool {
    match judged(text, record) {
        (1, _) => true,
        (0, _) => false,
        (refused, _) => panic!("{text}: {refused}"),
    }
}

fn attribute(code: u8, body: &[u8]) -> Vec<u8> {
    [&[0xC0, code, body.len() as u8], body].concat()
}

/// R with these attributes; for subtype 1 from AS 3333, as R's peer doesn't fit into two bytes.
fn update(subtype: u8, attributes: &[u8]) -> Vec<u8> {
    let r = bytes(R);
    let peer = match subtype {
        4 => &r[12..16],
        _ => &[0x0D, 5],
    };
    let (interface_to_marker, prefix) = (&r[20..48], &r[79..]);
    let message = [
        &u16::to_be_bytes(19 + 4 + (attributes.len() + prefix.len()) as u16)[..],
        &[2, 0, 0],
        &u16::to_be_bytes(attributes.len() as u16),
        attributes,
        prefix,
    ]
    .concat();
    // the local AS number is the peer's too
    let body = [peer, peer, interface_to_marker, &message].concat();
    let length = u32::to_be_bytes(body.len() as u32);
    [&r[..6], &[0, subtype], &length, &body].concat()
}

/// The line of such an UPDATE that has no other attributes than these two.
fn line(subtype: u8, aggregator: &str, communities: &str) -> String {
    let (peer, wide) = if subtype == 4 { (199036, 1) } else { (3333, 0) };
    format!("+|10.1.2.0/24|||||{aggregator}|{communities}|192.0.2.1 {peer}|1622725323|{wide}\n")
}

#[test]
fn all_that_are_asked_for_must_be_held() {
    let record = update(4, &attribute(COMMUNITY, &TWO));
    for held in [
        "64500:1",
        "NO_EXPORT",
        "65535:65281",
        "'64500:1 NO_EXPORT'",
        "'NO_EXPORT\t64500:1\n64500:1'",
    ] {
        assert!(keeps(&format!("-communities {held}"), &record), "{held}");
    }
    for not_held in [
        "64500:2",
        "1:64500",
        "NO_ADVERTISE",
        // across the border of the two
        "1:65535",
        "'64500:1 64500:2'",
        "'64500:1 NO_EXPORT NO_EXPORT_SUBCONFED'",
    ] {
        let text = format!("-communities {not_held}");
        assert!(!keeps(&text, &record), "{not_held}");
        assert!(keeps(&format!("! {text}"), &record), "{not_held}");
    }
    // any of them
    assert!(keeps(
        "-communities 64500:2 -or -communities 64500:1",
        &record
    ));
}

#[test]
fn without_communities_none_is_held() {
    let empty = update(4, &attribute(COMMUNITY, &[]));
    assert!(keeps("-attr COMMUNITY", &empty));
    assert_eq!(judged(KEEP_ALL, &empty), (1, line(4, "", "")));
    let mut keepalive = bytes(R)[..51].to_vec();
    keepalive[8..12].copy_from_slice(&39u32.to_be_bytes());
    keepalive[48..51].copy_from_slice(&[0, 19, 4]);
    for record in [empty, update(4, &[]), bytes(R), keepalive] {
        assert!(!keeps("-communities 0:0", &record));
        assert!(keeps("! -communities 0:0", &record));
    }
}

#[test]
fn communities_are_printed_in_their_order_and_three_by_name() {
    let body = [
        0, 0, 0, 0, // 0:0
        0xFF, 0xFF, 0xFF, 3, // NO_EXPORT_SUBCONFED
        0xFF, 0xFF, 2, 0x9A, // 65535:666
        0xFF, 0xFF, 0xFF, 2, // NO_ADVERTISE
        0xFF, 0xFF, 0xFF, 1, // NO_EXPORT
        0xFF, 0xFF, 0xFF, 0, // 65535:65280
        0xFF, 0xFF, 0xFF, 4, // 65535:65284
        0, 0, 0, 0, // 0:0 once more
    ];
    let printed =
        "0:0 NO_EXPORT_SUBCONFED 65535:666 NO_ADVERTISE NO_EXPORT 65535:65280 65535:65284 0:0";
    let record = update(1, &attribute(COMMUNITY, &body));
    assert_eq!(judged(KEEP_ALL, &record), (1, line(1, "", printed)));
}

#[test]
fn the_aggregator_is_a_number_and_an_address() {
    for (subtype, body, printed) in [
        (1, &[0xFB, 0xF4, 192, 0, 2, 1][..], "64500 192.0.2.1"),
        (4, &[0, 0, 0xFB, 0xF4, 192, 0, 2, 1], "64500 192.0.2.1"),
        (1, &[0xFF; 6], "65535 255.255.255.255"),
        (4, &[0xFF; 8], "4294967295 255.255.255.255"),
    ] {
        let attributes = [attribute(AGGREGATOR, body), attribute(COMMUNITY, &TWO)].concat();
        let wanted = line(subtype, printed, "64500:1 NO_EXPORT");
        assert_eq!(judged(KEEP_ALL, &update(subtype, &attributes)), (1, wanted));
    }
}

#[test]
fn readme_shows_a_line_with_both() {
    let attributes = [
        &bytes(R)[55..79],
        &[0x40, 6, 0],
        &attribute(AGGREGATOR, &[0, 0, 0xFB, 0xF4, 192, 0, 2, 1]),
        &attribute(COMMUNITY, &TWO),
    ]
    .concat();
    let wanted = "+|10.1.2.0/24|199036 3333|192.0.2.1|i|AT|64500 192.0.2.1|64500:1 NO_EXPORT|192.0.2.1 199036|1622725323|1\n";
    assert_eq!(
        judged(KEEP_ALL, &update(4, &attributes)),
        (1, wanted.to_owned())
    );
    let readme = String::from_utf8(stored("README.md")).unwrap();
    assert!(readme.contains(&format!("\n    {wanted}")));
}

#[test]
fn other_sizes_are_17() {
    for subtype in [1, 4] {
        for size in 0..20 {
            for (code, readable) in [
                (AGGREGATOR, size == if subtype == 4 { 8 } else { 6 }),
                (COMMUNITY, size % 4 == 0),
                // AS4_AGGREGATOR and LARGE_COMMUNITY are free
                (18, true),
                (32, true),
            ] {
                let record = update(subtype, &attribute(code, &vec![1; size]));
                let (number, _) = judged(KEEP_ALL, &record);
                let wanted = if readable { 1 } else { 17 };
                assert_eq!(
                    number, wanted,
                    "{size} bytes of {code} in subtype {subtype}"
                );
            }
        }
    }
}
