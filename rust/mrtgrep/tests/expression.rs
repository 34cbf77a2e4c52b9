//! The first form: files up to the first argument of a filter, and from there on each argument one token of it.

mod common;

use common::*;

fn folder(name: &str) -> Folder {
    Folder::new(name)
        .with("r.mrt", bytes(R))
        .with("other.mrt", other_peer())
}

/// R alone is kept of the two files.
#[track_caller]
fn keeps_r(folder: &Folder, filter: &[&str]) {
    let files = ["other.mrt", "r.mrt"];
    let arguments = files.iter().chain(filter).copied();
    folder.run(arguments).gave(0, R_LINE).silently();
}

#[test]
fn a_filter_begins_at_a_dash_a_parenthesis_or_an_exclamation_mark() {
    let folder = folder("begins");
    keeps_r(&folder, &["-peer", "199036"]);
    keeps_r(&folder, &["(", "-peer", "199036", ")"]);
    keeps_r(&folder, &["!", "-peer", "199037"]);
    keeps_r(&folder, &["!", "(", "!", "-peer", "199036", ")"]);
    keeps_r(
        &folder,
        &[
            "-peer", "199036", "-and", "(", "-loops", "-or", "!", "-loops", ")",
        ],
    );
}

#[test]
fn a_dash_alone_is_standard_input() {
    let folder = folder("dash");
    folder
        .fed(["other.mrt", "-", "-peer", "199036"], &bytes(R))
        .gave(0, R_LINE)
        .silently();
    folder
        .fed(["-", "-peer", "199036"], &bytes(R))
        .gave(0, R_LINE)
        .silently();
    // within a filter it is a word like others
    folder
        .fed(["r.mrt", "-peer", "-"], &bytes(R))
        .gave(2, "")
        .telling(&["mrtgrep: filter:1:7: ", "(refused 5 at 6)"]);
}

#[test]
fn standard_input_is_read_where_no_file_is_named() {
    let folder = folder("no-file");
    folder
        .fed(["-peer", "199036"], &bytes(R))
        .gave(0, R_LINE)
        .silently();
    folder
        .fed(["!", "-loops"], &bytes(R))
        .gave(0, R_LINE)
        .silently();
    folder.fed([], &bytes(R)).gave(0, R_LINE).silently();
    // and not where one is
    folder
        .fed(["other.mrt", "-peer", "199036"], &bytes(R))
        .gave(1, "")
        .silently();
}

#[test]
fn an_argument_with_blanks_is_one_operand() {
    let folder = folder("blanks");
    keeps_r(
        &folder,
        &[
            "-aspath",
            "^199036 3333$",
            "-and",
            "-peer",
            "192.0.2.1 199036",
        ],
    );
    keeps_r(
        &folder,
        &["-aspath", " 199036\t3333\n", "-and", "-peer", "199036"],
    );
    keeps_r(&folder, &["-peer", "192.0.2.1\t199036"]);
    // R has no communities
    keeps_r(
        &folder,
        &[
            "-peer",
            "199036",
            "-and",
            "!",
            "-communities",
            "64500:1 NO_EXPORT",
        ],
    );
}

#[test]
fn an_argument_with_marks_among_other_bytes_is_one_operand() {
    let folder = folder("marks");
    // of document 01: bare it is a token that can't stand there
    folder
        .run(["-e", "-aspath !432", "r.mrt"])
        .gave(2, "")
        .telling(&["mrtgrep: filter:1:9: ", "(refused 4 at 8)"]);
    keeps_r(&folder, &["-aspath", "!432", "-and", "-peer", "199036"]);
    keeps_r(&folder, &["-aspath", "^!1 !2$", "-and", "-peer", "199036"]);
    // operands that no test takes, at the place of their quotes
    for operand in ["(5", "5)", "()", "!!", "( )", "!"] {
        let ran = folder.run(["r.mrt", "-peer", operand]).gave(2, "");
        let number = if operand == "!" { 4 } else { 5 };
        ran.telling(&["mrtgrep: filter:1:7: ", &format!("(refused {number} at 6)")]);
    }
}

#[test]
fn an_empty_argument_is_an_empty_operand() {
    let folder = folder("no-bytes");
    for test in ["-aspath", "-peer", "-communities"] {
        let place = test.len() + 1;
        folder.run(["r.mrt", test, ""]).gave(2, "").telling(&[
            &format!("mrtgrep: filter:1:{}: ", place + 1),
            &format!("(refused 5 at {place})"),
        ]);
    }
}

#[test]
fn an_argument_with_a_quote_asks_for_another_form() {
    let folder = folder("quote");
    for argument in ["'5'", "it's", "'"] {
        folder
            .run(["r.mrt", "-peer", argument])
            .gave(2, "")
            .telling(&["-e", "-f"]);
    }
    folder
        .run(["r.mrt", "-'loops"])
        .gave(2, "")
        .telling(&["-e", "-f"]);
}

#[test]
fn a_filter_in_one_argument_asks_for_minus_e() {
    let folder = folder("one-argument");
    for filter in [
        "-loops -and -loops",
        "-peer 199036",
        "-peer\t199036",
        "-peer\n199036",
    ] {
        let ran = folder
            .run(["r.mrt", filter])
            .gave(2, "")
            .telling(&["(refused 4 at 0)"]);
        assert!(ran.said.contains("-e"), "{}", ran.said);
        folder
            .run([filter])
            .gave(2, "")
            .telling(&["(refused 4 at 0)"]);
        folder
            .run(["-e", filter, "other.mrt"])
            .gave(1, "")
            .silently();
    }
}

#[test]
fn tokens_are_parted_and_places_count_them() {
    let folder = folder("places");
    // of document 01: `-loops )` is 4 at 7
    folder
        .run(["r.mrt", "-loops", ")"])
        .gave(2, "")
        .telling(&["mrtgrep: filter:1:8: ", "(refused 4 at 7)"]);
    folder
        .run(["r.mrt", "(", "-peer", "5 6 7", ")"])
        .gave(2, "")
        .telling(&["mrtgrep: filter:1:9: ", "(refused 5 at 8)"]);
}

#[test]
fn names_that_begin_with_other_bytes_are_files() {
    let folder = folder("names")
        .with(")", bytes(R))
        .with("(x", bytes(R))
        .with("!x", bytes(R))
        .with("+", bytes(R));
    folder
        .run([")", "(x", "!x", "+", "-peer", "199036"])
        .gave(0, R_LINE.repeat(4))
        .silently();
}
