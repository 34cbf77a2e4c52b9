//! A refused filter: its number and place as document 01 has them, the line of the text, and a caret under the place.

mod common;

use std::ffi::OsString;
use std::os::unix::ffi::OsStringExt;
use std::process::Stdio;

use common::*;

/// The message of a refused text: the words of its first line, and the lines below.
#[track_caller]
fn message(text: &[u8], place: Option<(usize, usize)>, refusal: &str) -> (String, Vec<String>) {
    // through a file, which takes any bytes
    let folder = Folder::new("text").with("bad.filter", text);
    let ran = folder.run(["-f", "bad.filter", "no-such.mrt"]).gave(2, "");
    let place = place.map_or(String::new(), |(line, column)| format!("{line}:{column}: "));
    let place = if place.is_empty() {
        " ".to_owned()
    } else {
        place
    };
    let mut lines = ran.said.lines().map(str::to_owned);
    let first = lines.next().expect("a message");
    let words = first
        .strip_prefix(&format!("mrtgrep: bad.filter:{place}"))
        .unwrap_or_else(|| panic!("{place:?} isn't the place of {first}"));
    let words = words
        .strip_suffix(&format!(" (refused {refusal})"))
        .unwrap_or_else(|| panic!("{refusal} isn't the refusal of {first}"));
    assert!(!words.is_empty(), "{first}");
    (words.to_owned(), lines.collect())
}

/// Holds a text to its place, its refusal and the two lines below the message.
#[track_caller]
fn points(text: &[u8], place: (usize, usize), refusal: &str, shown: &str, caret: &str) -> String {
    let (words, below) = message(text, Some(place), refusal);
    assert_eq!(below, [shown, caret], "below: {words}");
    words
}

#[test]
fn long_and_heavy_texts_have_no_place() {
    let (_, below) = message(&b" ".repeat(4097), None, "1 at 0");
    assert_eq!(below, [""; 0]);
    let items = vec!["."; 512].join(" ");
    let heavy = format!("-aspath '{items}'");
    let (_, below) = message(heavy.as_bytes(), None, "7 at 0");
    assert_eq!(below, [""; 0]);
}

#[test]
fn a_forbidden_byte_is_shown_by_its_number() {
    points(b"-loops\x7f", (1, 7), "2 at 6", "-loops\\x7F", "      ^");
    points(
        b"-loops \x00-and",
        (1, 8),
        "2 at 7",
        "-loops \\x00-and",
        "       ^",
    );
    // a file that ends its lines by CR and LF
    points(
        b"-loops\r\n-and\r\n",
        (1, 7),
        "2 at 6",
        "-loops\\x0D",
        "      ^",
    );
    // the first of those of a letter, in bytes; others before the place are shown so too
    points(
        "-peer 5\n-or -attr \u{e9}".as_bytes(),
        (2, 11),
        "2 at 18",
        "-or -attr \\xC3\\xA9",
        "          ^",
    );
}

#[test]
fn a_quote_that_is_not_closed_is_pointed_at() {
    points(b"-aspath '5", (1, 9), "3 at 8", "-aspath '5", "        ^");
    points(
        b"-loops -and\n-aspath '5\n6",
        (2, 9),
        "3 at 20",
        "-aspath '5",
        "        ^",
    );
}

#[test]
fn a_wrong_token_is_pointed_at() {
    points(b"-loops )", (1, 8), "4 at 7", "-loops )", "       ^");
    points(
        b"-aspath !432",
        (1, 9),
        "4 at 8",
        "-aspath !432",
        "        ^",
    );
    points(
        b"-loops -loops",
        (1, 8),
        "4 at 7",
        "-loops -loops",
        "       ^",
    );
    points(b"loops", (1, 1), "4 at 0", "loops", "^");
    points(b"-and", (1, 1), "4 at 0", "-and", "^");
    points(b"( )", (1, 3), "4 at 2", "( )", "  ^");
}

#[test]
fn tabs_are_kept_so_that_the_caret_stands_right() {
    points(
        b"\t-loops\t)",
        (1, 9),
        "4 at 8",
        "\t-loops\t)",
        "\t      \t^",
    );
    points(b"-loops\n\t\t)", (2, 3), "4 at 9", "\t\t)", "\t\t^");
}

#[test]
fn lines_count_from_one() {
    points(
        b"\n\n-loops )\n-and",
        (3, 8),
        "4 at 9",
        "-loops )",
        "       ^",
    );
}

#[test]
fn an_end_says_what_is_missing() {
    for (text, shown, caret, missing) in [
        ("", "", "^", "test"),
        ("-loops -and", "-loops -and", "           ^", "test"),
        ("-loops -or", "-loops -or", "          ^", "test"),
        ("!", "!", " ^", "test"),
        ("(", "(", " ^", "test"),
        ("-peer", "-peer", "     ^", "operand"),
        (
            "-loops -or -aspath",
            "-loops -or -aspath",
            "                  ^",
            "operand",
        ),
        ("( -type", "( -type", "       ^", "operand"),
        ("( -loops", "( -loops", "        ^", ")"),
        ("! ( ( -loops )", "! ( ( -loops )", "              ^", ")"),
    ] {
        let end = text.len();
        let words = points(
            text.as_bytes(),
            (1, end + 1),
            &format!("4 at {end}"),
            shown,
            caret,
        );
        for other in ["test", "operand", ")"] {
            assert_eq!(words.contains(other), other == missing, "{text}: {words}");
        }
    }
}

#[test]
fn an_end_behind_a_line_feed_has_its_own_line() {
    points(b"-loops -and\n", (2, 1), "4 at 12", "", "^");
    points(b" \n", (2, 1), "4 at 2", "", "^");
}

#[test]
fn a_wrong_operand_names_its_test_and_shows_one() {
    // each test, and what its operand looks like by document 01
    for (test, looks) in [
        ("-type", "UPDATE"),
        ("-attr", "COMMUNITY"),
        ("-aspath", "^"),
        ("-peer", "."),
        ("-exact", "/"),
        ("-supernet", "/"),
        ("-subnet", "/"),
        ("-related", "/"),
        ("-timestamp", ">="),
        ("-communities", ":"),
    ] {
        let text = format!("-loops -and {test} x");
        let place = text.len() - 1;
        let caret = format!("{:place$}^", "");
        let words = points(
            text.as_bytes(),
            (1, place + 1),
            &format!("5 at {place}"),
            &text,
            &caret,
        );
        assert!(words.contains(test), "{test}: {words}");
        assert!(words.contains(looks), "{test}: {words}");
    }
}

#[test]
fn the_test_of_a_wrong_operand_is_found_behind_anything() {
    for (text, place, test) in [
        ("-attr ORIGIN -and -type 256", 24, "-type"),
        ("(-attr'ORIGIN')-and(-type'256')", 25, "-type"),
        ("-peer '-type'", 6, "-peer"),
        ("!-aspath\n'5 6 x'", 9, "-aspath"),
        ("-type 2 -or -exact   \t  10.0.0.0", 24, "-exact"),
    ] {
        let line = text[..place].matches('\n').count() + 1;
        let column = place - text[..place].rfind('\n').map_or(0, |at| at + 1) + 1;
        let (words, _) = message(
            text.as_bytes(),
            Some((line, column)),
            &format!("5 at {place}"),
        );
        assert!(words.contains(test), "{text}: {words}");
    }
}

#[test]
fn the_example_of_a_wrong_operand_is_a_right_one() {
    let folder = Folder::new("right-one");
    for test in [
        "-type",
        "-attr",
        "-aspath",
        "-peer",
        "-exact",
        "-supernet",
        "-subnet",
        "-related",
        "-timestamp",
        "-communities",
    ] {
        let text = format!("{test} x");
        let place = test.len() + 1;
        let (words, _) = message(
            text.as_bytes(),
            Some((1, place + 1)),
            &format!("5 at {place}"),
        );
        let (_, example) = words.rsplit_once(" as in ").expect(&words);
        assert!(example.starts_with(&format!("{test} ")), "{words}");
        let ran = folder.run(["--check", "-e", example]);
        assert_eq!(ran.code, Some(0), "{example}: {}", ran.said);
    }
}

#[test]
fn a_deep_level_is_pointed_at() {
    let text = "!".repeat(33) + "-loops";
    let caret = " ".repeat(32) + "^";
    points(text.as_bytes(), (1, 33), "6 at 32", &text, &caret);
    let text = "(".repeat(32) + "\n(-loops";
    points(text.as_bytes(), (2, 1), "6 at 33", "(-loops", "^");
}

#[test]
fn a_long_line_is_cut_to_80_columns_around_the_place() {
    for tests in [1, 3, 5, 6, 7, 20, 100, 300] {
        for behind in ["", " -or -loops", &" -or -loops".repeat(40)] {
            let before = "-bogon-asn -or ".repeat(tests.min(200));
            let text = format!("{before}-typo{behind}");
            if text.len() > 4096 {
                continue;
            }
            let place = before.len();
            let (_, below) = message(
                text.as_bytes(),
                Some((1, place + 1)),
                &format!("4 at {place}"),
            );
            let [shown, caret] = &below[..] else {
                panic!("{below:?}");
            };
            assert!(shown.len() <= 80 && caret.len() <= 80, "{below:?}");
            let column = caret.len() - 1;
            assert_eq!(caret.trim_start(), "^");
            assert!(shown[column..].starts_with("-typo"), "{below:?}");
            // as much of it as there is room for
            assert!(shown.len() >= text.len().min(70), "{below:?}");
        }
    }
}

/// The column behind a text, from 0, with a tab stop at each eighth.
fn column(text: &str) -> usize {
    text.chars().fold(0, |column, c| match c {
        '\t' => (column / 8 + 1) * 8,
        _ => column + 1,
    })
}

#[test]
fn tabs_and_shown_bytes_count_their_columns() {
    let of_bytes = [b"-loops ".to_vec(), vec![0x80; 100]].concat();
    let of_tabs = ["-loops", &"\t".repeat(30), ")", &"\t".repeat(30), ")"].concat();
    for (text, place, refusal, token) in [
        (of_bytes, 7, "2 at 7", "\\x80"),
        (of_tabs.into_bytes(), 36, "4 at 36", ")"),
    ] {
        let (_, below) = message(&text, Some((1, place + 1)), refusal);
        let [shown, caret] = &below[..] else {
            panic!("{below:?}");
        };
        assert!(column(shown) <= 80 && column(caret) <= 80, "{below:?}");
        // both lines have the same up to the place, but for the caret's blanks
        let before = caret.strip_suffix('^').unwrap();
        assert!(before.chars().all(|c| c == ' ' || c == '\t'), "{below:?}");
        let at = shown.find(token).unwrap();
        assert_eq!(column(&shown[..at]), column(before), "{below:?}");
        assert!(shown.len() > token.len(), "{below:?}");
    }
}

#[test]
fn a_refused_filter_reads_and_writes_nothing() {
    let folder = Folder::new("nothing")
        .with("r.mrt", bytes(R))
        .with("out", "kept");
    folder
        .run(["-e", "-loops )", "-o", "out", "no-such.mrt"])
        .gave(2, "")
        .telling(&["mrtgrep: filter:1:8: "]);
    assert_eq!(folder.read("out"), b"kept");
}

/// A text as it is stored: `\n`, `\t`, `\xNN` and `{COUNT*TEXT}` stand for what they name.
fn unfolded(stored: &str) -> Vec<u8> {
    let Some((first, rest)) = stored.split_once(['\\', '{']) else {
        return stored.as_bytes().to_vec();
    };
    let (bytes, rest) = if stored[first.len()..].starts_with('{') {
        let (inner, rest) = rest.split_once('}').unwrap();
        let (count, text) = inner.split_once('*').unwrap();
        (text.repeat(count.parse().unwrap()).into_bytes(), rest)
    } else {
        match rest.split_at(1) {
            ("n", rest) => (b"\n".to_vec(), rest),
            ("t", rest) => (b"\t".to_vec(), rest),
            ("x", rest) => (common::bytes(&rest[..2]), &rest[2..]),
            (other, _) => panic!("\\{other}"),
        }
    };
    [first.as_bytes(), &bytes, &unfolded(rest)].concat()
}

#[test]
fn the_stored_messages_are_said() {
    let stored = stored_text("tests/mrtgrep/refused.txt");
    let mut numbers = std::collections::BTreeSet::new();
    for entry in stored.split("\n> ").skip(1) {
        let (text, message) = entry.split_once('\n').unwrap();
        let message = message.trim_end().to_owned() + "\n";
        let text = OsString::from_vec(unfolded(text));
        let ran = run(mrtgrep().arg("-e").arg(&text).stdin(Stdio::null())).gave(2, "");
        assert_eq!(ran.said, message, "{text:?}");
        let (_, number) = message.split_once("(refused ").unwrap();
        numbers.insert(number[..1].to_owned());
    }
    // each of them, 1 to 7
    assert_eq!(Vec::from_iter(numbers).concat(), "1234567");
}
