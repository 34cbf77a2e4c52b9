//! A program in words, a row a record, so that a person sees what a filter was taken for.

use grainlantern::{Community, Item, Peer, Program, ProgramRecord, Relation, Side, Sign};

/// The names of message types.
const TYPES: [(u8, &str); 5] = [
    (1, "OPEN"),
    (2, "UPDATE"),
    (3, "NOTIFICATION"),
    (4, "KEEPALIVE"),
    (5, "ROUTE_REFRESH"),
];

/// The names of attributes.
const ATTRIBUTES: [(u8, &str); 13] = [
    (1, "ORIGIN"),
    (2, "AS_PATH"),
    (3, "NEXT_HOP"),
    (4, "MULTI_EXIT_DISC"),
    (5, "LOCAL_PREF"),
    (6, "ATOMIC_AGGREGATE"),
    (7, "AGGREGATOR"),
    (8, "COMMUNITY"),
    (14, "MP_REACH_NLRI"),
    (15, "MP_UNREACH_NLRI"),
    (17, "AS4_PATH"),
    (18, "AS4_AGGREGATOR"),
    (32, "LARGE_COMMUNITY"),
];

/// The kind of a record that has no word here yet.
const NO_WORD: &str = "?";

/// The columns of the longest kind.
const KIND: usize = "-communities".len();

/// The rows of a program, numbered from 1.
pub fn rows(program: &Program) -> String {
    let weight = program.records().len();
    let width = weight.to_string().len();
    let mut rows = String::new();
    for (record, number) in program.records().zip(1..) {
        let kind = kind(record);
        let words = words(record, number, weight);
        rows += &format!("{number:width$}  {kind:KIND$}  {words}\n");
    }
    rows
}

/// A record's kind, by its word in the language.
fn kind(record: ProgramRecord) -> &'static str {
    match record {
        ProgramRecord::Type { .. } => "-type",
        ProgramRecord::Attribute { .. } => "-attr",
        ProgramRecord::Path { .. } => "-aspath",
        ProgramRecord::Item(_) => "item",
        ProgramRecord::Peer(_) => "-peer",
        ProgramRecord::Loops => "-loops",
        ProgramRecord::Bogon => "-bogon-asn",
        ProgramRecord::Network { relation, .. } => network_kind(relation),
        ProgramRecord::Time { .. } => "-timestamp",
        ProgramRecord::Flip => "!",
        ProgramRecord::PassIfFalse { .. } => "-and",
        ProgramRecord::PassIfTrue { .. } => "-or",
        ProgramRecord::Communities { .. } => "-communities",
        ProgramRecord::Community(_) => "community",
        _ => NO_WORD,
    }
}

fn network_kind(relation: Relation) -> &'static str {
    match relation {
        Relation::Exact => "-exact",
        Relation::Supernet => "-supernet",
        Relation::Subnet => "-subnet",
        Relation::Related => "-related",
    }
}

/// What a record says.
fn words(record: ProgramRecord, number: usize, weight: usize) -> String {
    match record {
        ProgramRecord::Type { code } => format!("the message is of type {}", named(code, &TYPES)),
        ProgramRecord::Attribute { code } => {
            format!("the update has attribute {}", named(code, &ATTRIBUTES))
        }
        ProgramRecord::Path {
            from_start,
            to_end,
            items,
        } => path(from_start, to_end, items),
        ProgramRecord::Item(item) => self::item(item),
        ProgramRecord::Peer(peer) => format!("the record comes from {}", self::peer(peer)),
        ProgramRecord::Loops => "an AS number of the path comes back after another one".to_owned(),
        ProgramRecord::Bogon => "an AS number of the path is reserved or private".to_owned(),
        ProgramRecord::Network {
            relation,
            side,
            address,
            length,
        } => format!("{} {} {address}/{length}", prefix(side), stands(relation)),
        ProgramRecord::Time {
            sign,
            seconds,
            microseconds,
        } => {
            let order = order(sign);
            format!("the record's time is {order} {seconds}.{microseconds:06} seconds")
        }
        ProgramRecord::Flip => "true becomes false, false becomes true".to_owned(),
        ProgramRecord::PassIfFalse { over } => {
            format!(
                "if false, go to {}",
                landing(number, over, weight, "dropped")
            )
        }
        ProgramRecord::PassIfTrue { over } => {
            format!("if true, go to {}", landing(number, over, weight, "kept"))
        }
        ProgramRecord::Communities { communities } => {
            format!("the update carries {}", self::communities(communities))
        }
        ProgramRecord::Community(community) => self::community(community),
        other => format!("{other:?}"),
    }
}

fn named(code: u8, names: &[(u8, &str)]) -> String {
    match names.iter().find(|(known, _)| *known == code) {
        Some((_, name)) => format!("{name} ({code})"),
        None => code.to_string(),
    }
}

fn path(from_start: bool, to_end: bool, items: u16) -> String {
    let items = match items {
        0 => return no_items(from_start && to_end).to_owned(),
        1 => "the item below".to_owned(),
        _ => format!("the {items} items below"),
    };
    match (from_start, to_end) {
        (false, false) => format!("the path has {items}, side by side"),
        (true, false) => format!("the path begins with {items}"),
        (false, true) => format!("the path ends with {items}"),
        (true, true) => format!("the path is {items}, and no more"),
    }
}

fn no_items(is_whole: bool) -> &'static str {
    if is_whole {
        "the path is there, and empty"
    } else {
        "the path is there"
    }
}

fn item(item: Item) -> String {
    match item {
        Item::Number(number) => format!("AS {number}"),
        Item::Not(number) => format!("any AS but {number}"),
        Item::Any => "any AS".to_owned(),
        other => format!("{other:?}"),
    }
}

fn communities(count: u16) -> String {
    match count {
        1 => "the community below".to_owned(),
        _ => format!("each of the {count} communities below"),
    }
}

fn community(community: Community) -> String {
    match community.name() {
        Some(name) => format!("{name} ({}:{})", community.high, community.low),
        None => community.to_string(),
    }
}

fn peer(peer: Peer) -> String {
    match peer {
        Peer::As(number) => format!("AS {number}"),
        Peer::Address(address) => format!("{address}"),
        Peer::Both(address, number) => format!("{address} in AS {number}"),
    }
}

/// How a prefix stands to the network.
fn stands(relation: Relation) -> &'static str {
    match relation {
        Relation::Exact => "is",
        Relation::Supernet => "is or covers",
        Relation::Subnet => "is or lies in",
        Relation::Related => "is, covers or lies in",
    }
}

fn prefix(side: Side) -> &'static str {
    match side {
        Side::Either => "a prefix",
        Side::Announced => "an announced prefix",
        Side::Withdrawn => "a withdrawn prefix",
    }
}

fn order(sign: Sign) -> &'static str {
    match sign {
        Sign::Equal => "exactly",
        Sign::Before => "before",
        Sign::NotAfter => "at or before",
        Sign::After => "after",
        Sign::NotBefore => "at or after",
    }
}

/// Where a pass lands: a row, or the end with its verdict.
fn landing(number: usize, over: u16, weight: usize, verdict: &str) -> String {
    let next = number + 1 + usize::from(over);
    if next > weight {
        return format!("the end: {verdict}");
    }
    next.to_string()
}

#[cfg(test)]
mod tests {
    use std::fs;

    use super::*;

    fn explained(text: &str) -> String {
        rows(&Program::compile(text).unwrap())
    }

    #[test]
    fn names_are_those_of_the_language() {
        for (test, names) in [("-type", &TYPES[..]), ("-attr", &ATTRIBUTES[..])] {
            for (code, name) in names {
                let by_name = explained(&format!("{test} {name}"));
                assert_eq!(by_name, explained(&format!("{test} {code}")));
                assert!(
                    by_name.ends_with(&format!(" {name} ({code})\n")),
                    "{by_name}"
                );
            }
        }
        assert!(explained("-type 6").ends_with(" type 6\n"));
        // RFC 1997
        for (name, community) in [
            ("NO_EXPORT", "65535:65281"),
            ("NO_ADVERTISE", "65535:65282"),
            ("NO_EXPORT_SUBCONFED", "65535:65283"),
        ] {
            let by_name = explained(&format!("-communities {name}"));
            assert_eq!(by_name, explained(&format!("-communities {community}")));
            assert!(
                by_name.ends_with(&format!(" {name} ({community})\n")),
                "{by_name}"
            );
        }
        assert!(explained("-communities 65535:666").ends_with(" 65535:666\n"));
    }

    /// The compiler doesn't name a kind that is missing here, so the stored texts do.
    #[test]
    fn every_kind_of_record_has_its_word() {
        let stored = fs::read_to_string("../../tests/cases/texts.tsv").unwrap();
        let programs = stored.lines().skip(1).filter_map(|row| {
            let (hex, _) = row.split_once('\t').unwrap();
            let digits = hex
                .as_bytes()
                .chunks(2)
                .map(|two| str::from_utf8(two).unwrap());
            let text: Vec<u8> = digits
                .map(|two| u8::from_str_radix(two, 16).unwrap())
                .collect();
            Program::compile(text).ok()
        });
        for record in programs.flat_map(|program| program.records().collect::<Vec<_>>()) {
            assert_ne!(kind(record), NO_WORD, "{record:?}");
            assert_ne!(words(record, 1, 1), format!("{record:?}"));
        }
    }

    #[test]
    fn passes_land_on_a_row_or_at_the_end() {
        let wanted = "\
1  -loops        an AS number of the path comes back after another one
2  -or           if true, go to 7
3  -aspath       the path begins with the 2 items below
4  item          AS 5
5  item          any AS but 6
6  !             true becomes false, false becomes true
7  -or           if true, go to the end: kept
8  -bogon-asn    an AS number of the path is reserved or private
";
        assert_eq!(
            explained("-loops -or ! -aspath '^5 !6' -or -bogon-asn"),
            wanted
        );
        let wanted = "\
1  -subnet       a withdrawn prefix is or lies in 10.0.0.0/8
2  -and          if false, go to the end: dropped
3  -timestamp    the record's time is at or after 7.500000 seconds
";
        assert_eq!(
            explained("-subnet -10.1.2.3/8 -and -timestamp >=7.5"),
            wanted
        );
    }

    #[test]
    fn communities_are_told_from_items() {
        let wanted = "\
1  -communities  the update carries each of the 2 communities below
2  community     64500:1
3  community     NO_EXPORT (65535:65281)
4  -or           if true, go to 7
5  -aspath       the path has the item below, side by side
6  item          AS 4294967041
7  -or           if true, go to the end: kept
8  -communities  the update carries the community below
9  community     0:5
";
        // the number is that of NO_EXPORT, 65535 x 65536 + 65281
        assert_eq!(
            explained(
                "-communities '64500:1 NO_EXPORT' -or -aspath 4294967041 -or -communities 0:5"
            ),
            wanted
        );
    }
}
