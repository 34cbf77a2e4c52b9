//! What is said of a filter that isn't compiled: the place, what is wrong there, the line and a caret under the place.

use grainlantern::{Program, Reason, Refusal};

use crate::expression::{is_blank, is_mark};
use crate::filter::FilterText;

/// The columns in which a line of the text is shown.
const WIDTH: usize = 80;

/// The columns before the caret where the line is cut on both sides.
const BEFORE: usize = 40;

/// The columns from one tab stop to the next.
const TAB: usize = 8;

/// What the operand of each test looks like, with an example.
const OPERANDS: [(&str, &str, &str); 10] = [
    (
        "-type",
        "OPEN, UPDATE, NOTIFICATION, KEEPALIVE, ROUTE_REFRESH or a code 0 to 255",
        "-type UPDATE",
    ),
    (
        "-attr",
        "an attribute's name, as COMMUNITY or AS_PATH, or a code 0 to 255",
        "-attr COMMUNITY",
    ),
    (
        "-aspath",
        "AS numbers, . (any) and !N (any but N) with blanks between, ^ before and $ behind them pin the path's ends",
        "-aspath '^199036 . !3333$'",
    ),
    (
        "-peer",
        "an AS number, an address, or both in quotes",
        "-peer '192.0.2.1 199036'",
    ),
    ("-exact", NETWORK, "-exact 10.1.0.0/16"),
    ("-supernet", NETWORK, "-supernet 10.1.2.0/24"),
    ("-subnet", NETWORK, "-subnet +10.0.0.0/8"),
    ("-related", NETWORK, "-related -10.1.0.0/16"),
    (
        "-timestamp",
        "seconds since 1970, with at most 6 digits behind a dot; <, <=, >, >= or = may stand before them",
        "-timestamp '>=1622725323.5'",
    ),
    (
        "-communities",
        "N:M (each 0 to 65535), NO_EXPORT, NO_ADVERTISE or NO_EXPORT_SUBCONFED, several with blanks between, and asks for all of them",
        "-communities '64500:1 NO_EXPORT'",
    ),
];

const NETWORK: &str =
    "an IPv4 network a.b.c.d/len; + (announced only) or - (withdrawn only) may stand before it";

/// What has to follow a text for it to be one of the language.
#[derive(Clone, Copy, Debug, PartialEq, Eq)]
enum Due {
    Operand,
    Test,
    Closing,
    /// The text is whole.
    Nothing,
}

/// What may be due, and a token that stands for it. A quoted token is only ever an operand, while a word may be one too,
/// so the operand is asked for first.
const CANDIDATES: [(Due, &str); 3] = [
    (Due::Operand, "''"),
    (Due::Test, "-loops"),
    (Due::Closing, ")"),
];

/// The whole message.
pub fn message(text: &FilterText, refusal: Refusal) -> String {
    let number = refusal.number();
    let place = refusal.place();
    let mut words = reason(&text.bytes, refusal);
    if let Some(advice) = text.advice {
        words = format!("{words}; {advice}");
    }
    let name = &text.name;
    if matches!(refusal.reason(), Reason::LongText | Reason::HeavyText) {
        return format!("{name}: {words} (refused {number} at {place})");
    }
    let position = Position::of(&text.bytes, place);
    let Position { line, column, .. } = position;
    let shown = position.shown();
    format!("{name}:{line}:{column}: {words} (refused {number} at {place})\n{shown}")
}

/// What is wrong.
fn reason(text: &[u8], refusal: Refusal) -> String {
    let place = refusal.place();
    match refusal.reason() {
        Reason::WrongOperand => wrong_operand(text, place),
        Reason::WrongToken if place == text.len() => early_end(text).to_owned(),
        Reason::WrongToken => wrong_token(&text[..place]).to_owned(),
        reason => reason.to_string(),
    }
}

/// What the operand at a place should look like, known by the word before it.
fn wrong_operand(text: &[u8], place: usize) -> String {
    let test = word_before(text, place);
    let known = OPERANDS.iter().find(|(name, _, _)| name.as_bytes() == test);
    let Some((name, operand, example)) = known else {
        return Reason::WrongOperand.to_string();
    };
    format!("{name} takes {operand}, as in {example}")
}

/// The word that ends before a place, with blanks between.
fn word_before(text: &[u8], place: usize) -> &[u8] {
    let before = text[..place].trim_ascii_end();
    let ends_word = |byte: &u8| is_blank(byte) || is_mark(byte) || *byte == b'\'';
    let start = before.iter().rposition(ends_word).map_or(0, |at| at + 1);
    &before[start..]
}

/// What is missing where a text ends.
fn early_end(text: &[u8]) -> &'static str {
    match due(text) {
        Some(Due::Operand) => "the text ends, and an operand is missing",
        Some(Due::Test) => "the text ends, and a test is missing",
        Some(Due::Closing) => "the text ends, and a ) is missing",
        _ => "the text ends too early",
    }
}

/// What should stand where a token stands that can't, told by the text before it.
fn wrong_token(before: &[u8]) -> &'static str {
    match due(before) {
        Some(Due::Operand) => {
            "an operand has to stand here, in quotes if it holds a blank, (, ) or !"
        }
        Some(Due::Test) => "a test has to stand here",
        Some(Due::Closing) => "), -and or -or has to stand here",
        Some(Due::Nothing) => "-and, -or or the end has to stand here",
        None => "something else has to stand here",
    }
}

/// What is due behind a text: the archive is asked about the text with each candidate behind it. None where it can't be
/// asked, since the text would be too long.
fn due(text: &[u8]) -> Option<Due> {
    for (due, token) in CANDIDATES {
        let longer = [text, b" ", token.as_bytes()].concat();
        let Err(refusal) = Program::compile(longer) else {
            return Some(due);
        };
        match refusal.reason() {
            Reason::LongText => return None,
            Reason::WrongToken if refusal.place() == text.len() + 1 => {}
            _ => return Some(due),
        }
    }
    Some(Due::Nothing)
}

/// A place in a text.
struct Position<'a> {
    /// The line's number, from 1.
    line: usize,
    /// The byte's number in the line, from 1.
    column: usize,
    /// The line's bytes.
    bytes: &'a [u8],
}

impl Position<'_> {
    fn of(text: &[u8], place: usize) -> Position<'_> {
        let before = &text[..place];
        let start = before
            .iter()
            .rposition(|byte| *byte == b'\n')
            .map_or(0, |at| at + 1);
        let rest = &text[start..];
        let end = rest
            .iter()
            .position(|byte| *byte == b'\n')
            .unwrap_or(rest.len());
        Position {
            line: 1 + before.iter().filter(|byte| **byte == b'\n').count(),
            column: 1 + place - start,
            bytes: &rest[..end],
        }
    }

    /// The line, as much of it as fits around the place, and a caret below.
    fn shown(&self) -> String {
        let at = self.column - 1;
        // behind the line's end the caret takes a column of its own
        let caret = usize::from(at == self.bytes.len());
        let mut start = at;
        while start > 0 && columns(&self.bytes[start - 1..at]) <= BEFORE {
            start -= 1;
        }
        while start > 0 && columns(&self.bytes[start - 1..]) + caret <= WIDTH {
            start -= 1;
        }
        let mut end = at;
        while end < self.bytes.len() && columns(&self.bytes[start..=end]) <= WIDTH {
            end += 1;
        }
        let line: String = self.bytes[start..end].iter().map(printed).collect();
        let below: String = self.bytes[start..at].iter().map(blank).collect();
        format!("{line}\n{below}^")
    }
}

/// A byte as it is shown.
fn printed(byte: &u8) -> String {
    match byte {
        b'\t' | b' '..=b'~' => char::from(*byte).to_string(),
        _ => format!("\\x{byte:02X}"),
    }
}

/// What stands below a byte before the caret, as wide as the byte is.
fn blank(byte: &u8) -> String {
    match byte {
        b'\t' => "\t".to_owned(),
        _ => " ".repeat(printed(byte).len()),
    }
}

/// The columns that bytes take from the left edge on.
fn columns(bytes: &[u8]) -> usize {
    bytes.iter().fold(0, |column, byte| match byte {
        b'\t' => (column / TAB + 1) * TAB,
        _ => column + printed(byte).len(),
    })
}

#[cfg(test)]
mod tests {
    use super::*;

    fn refusal(text: &str) -> Refusal {
        Program::compile(text).unwrap_err()
    }

    fn words(text: &str) -> String {
        reason(text.as_bytes(), refusal(text))
    }

    fn shown(text: &[u8], place: usize) -> String {
        Position::of(text, place).shown()
    }

    #[test]
    fn every_operand_has_an_example_that_compiles() {
        for (test, operand, example) in OPERANDS {
            assert!(example.starts_with(test), "{example}");
            assert!(Program::compile(example).is_ok(), "{example}");
            for wrong in ["x/y", "'x/y'", "\t\n 'x/y'"] {
                let said = words(&format!("-loops -and(! {test} {wrong}"));
                assert_eq!(said, format!("{test} takes {operand}, as in {example}"));
            }
        }
    }

    #[test]
    fn what_is_missing_is_said() {
        for (text, missing) in [
            ("", "a test"),
            ("-loops -or", "a test"),
            ("!", "a test"),
            ("( \n", "a test"),
            ("-type ", "an operand"),
            ("( -loops -and -aspath", "an operand"),
            ("(-loops", "a )"),
            ("((-loops)", "a )"),
        ] {
            assert_eq!(
                words(text),
                format!("the text ends, and {missing} is missing")
            );
        }
        let long = format!("(-loops{}", " ".repeat(4089));
        assert_eq!(words(&long), "the text ends too early");
    }

    #[test]
    fn what_should_stand_there_is_said() {
        for (text, due) in [
            ("-loops -loops", "-and, -or or the end"),
            ("(-loops '5'", "), -and or -or"),
            ("-and", "a test"),
        ] {
            assert_eq!(words(text), format!("{due} has to stand here"));
        }
        assert!(words("-aspath !432").starts_with("an operand has to stand here, in quotes "));
    }

    #[test]
    fn lines_and_columns_count_from_1() {
        let text = b"one\ntwo\n\nthree";
        for (place, line, column) in [(0, 1, 1), (3, 1, 4), (4, 2, 1), (8, 3, 1), (14, 4, 6)] {
            let position = Position::of(text, place);
            assert_eq!((position.line, position.column), (line, column), "{place}");
        }
        assert_eq!(shown(text, 5), "two\n ^");
        assert_eq!(shown(text, 14), "three\n     ^");
        assert_eq!(shown(b"one\n", 4), "\n^");
    }

    #[test]
    fn the_caret_stands_right_below_tabs_and_unprintable_bytes() {
        assert_eq!(shown(b"\t-type\tX", 7), "\t-type\tX\n\t     \t^");
        assert_eq!(shown(b"a\r\xFFb", 3), "a\\x0D\\xFFb\n         ^");
    }

    #[test]
    fn a_line_is_cut_to_its_columns() {
        let digits: Vec<u8> = (b'0'..=b'9').cycle().take(300).collect();
        for (size, place, from, to) in [
            (80, 0, 0, 80),
            (80, 79, 0, 80),
            (80, 80, 1, 80),
            (300, 0, 0, 80),
            (300, 10, 0, 80),
            (300, 150, 110, 190),
            (300, 295, 220, 300),
            (300, 300, 221, 300),
        ] {
            let text = &digits[..size];
            let line = String::from_utf8_lossy(&text[from..to]).into_owned();
            let caret = " ".repeat(place - from) + "^";
            assert_eq!(
                shown(text, place),
                format!("{line}\n{caret}"),
                "{size} {place}"
            );
        }
        // a tab goes on to the next stop, so ten of them fill the columns
        let tabs = [b'\t'; 30];
        assert_eq!(
            shown(&tabs, 15),
            format!("{}\n{}^", "\t".repeat(10), "\t".repeat(5))
        );
    }
}
