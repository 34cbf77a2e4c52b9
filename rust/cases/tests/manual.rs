//! The manual pages: they render without warnings, and name what there is: every test, name and refusal of the sources, every option of mrtgrep, and
//! files that exist.

use std::collections::BTreeSet;
use std::fs;
use std::process::Command;

use cases::{examples, path, stored};

const GRAINLANTERN: &str = "man/grainlantern.1";
const MRTGREP: &str = "man/mrtgrep.1";

fn source(name: &str) -> String {
    String::from_utf8(stored(name)).expect(name)
}

/// A page with its escapes replaced by what they print.
fn page(name: &str) -> String {
    let mut text = source(name);
    for (escape, printed) in [
        ("\\\"", ""),
        ("\\-", "-"),
        ("\\&", ""),
        ("\\(aq", "'"),
        ("\\(oq", "'"),
        ("\\(cq", "'"),
        ("\\(ha", "^"),
        ("\\(bu", "*"),
        ("\\fB", ""),
        ("\\fI", ""),
        ("\\fP", ""),
        ("\\fR", ""),
    ] {
        text = text.replace(escape, printed);
    }
    assert!(
        !text.contains('\\'),
        "an escape that this test doesn't know"
    );
    text
}

/// What stands under a heading, up to the next heading of its kind.
fn under<'a>(page: &'a str, heading: &str) -> &'a str {
    let (macro_name, _) = heading.split_once(' ').unwrap();
    let from = page
        .find(&format!("\n{heading}\n"))
        .unwrap_or_else(|| panic!("no {heading}"));
    let text = &page[from + 1 + heading.len()..];
    let ends = [".SH ", ".SS "].map(|next| text.find(&format!("\n{next}")));
    let end = match macro_name {
        ".SH" => ends[0],
        _ => ends.into_iter().flatten().min(),
    };
    &text[..end.unwrap_or(text.len())]
}

/// The first words of the entries, as in `.B -loops` and `.BI -type " type"` below `.TP`.
fn entries(text: &str) -> BTreeSet<&str> {
    let lines: Vec<&str> = text.lines().collect();
    lines
        .windows(2)
        .filter(|pair| pair[0].starts_with(".TP") || pair[0].starts_with(".TQ"))
        .filter_map(|pair| pair[1].split(' ').nth(1))
        .collect()
}

/// The byte strings of a source that begin with what is given.
fn byte_strings(source: &str, beginning: fn(char) -> bool) -> BTreeSet<&str> {
    source
        .split("b\"")
        .skip(1)
        .filter_map(|rest| rest.split('"').next())
        .filter(|text| text.starts_with(beginning))
        .collect()
}

/// The numbers of a crate's refusals, as in `Peer = 13,` beside a variant or in `Refusal::Token => 4,`.
fn refusals(name: &str) -> Vec<u32> {
    let source = source(name);
    let (_, behind) = source.split_once("pub enum Refusal {").unwrap();
    let (variants, _) = behind.split_once('}').unwrap();
    let beside = variants.lines().filter_map(|line| line.split_once(" = "));
    let arms = source
        .lines()
        .filter(|line| line.trim().starts_with("Refusal::"))
        .filter_map(|line| line.split_once("=> "));
    beside
        .chain(arms)
        .filter_map(|(_, number)| number.strip_suffix(',')?.parse().ok())
        .collect()
}

#[test]
fn they_render_without_warnings() {
    for name in [GRAINLANTERN, MRTGREP] {
        renders_without_warnings(name);
    }
}

fn renders_without_warnings(name: &str) {
    let file = path(name);
    let mut renderers = 0;
    for words in [
        &["mandoc", "-Tlint", "-Wwarning"][..],
        &["groff", "-man", "-ww", "-z", "-Tutf8"],
        &["man", "--warnings", "-Tutf8", "-l"],
    ] {
        let mut command = Command::new(words[0]);
        command
            .args(&words[1..])
            .arg(&file)
            .env("LC_ALL", "C.UTF-8")
            .env("MANWIDTH", "80");
        let Ok(output) = command.output() else {
            continue;
        };
        let lint = words[0] == "mandoc";
        let said = if lint { &output.stdout } else { &output.stderr };
        assert!(
            output.status.success() && output.stderr.is_empty(),
            "{words:?}: {}",
            String::from_utf8_lossy(said)
        );
        renderers += 1;
    }
    assert!(renderers > 0, "none of mandoc, groff and man is on PATH");
}

#[test]
fn it_has_every_test_and_no_other() {
    let page = page(GRAINLANTERN);
    let filter = source("crates/filter/src/lib.rt");
    let mut words = byte_strings(&filter, |c| c == '-');
    assert!(words.len() >= 14, "{words:?}");
    let language = under(&page, ".SH FILTER LANGUAGE");
    for operator in ["-and", "-or"] {
        assert!(words.remove(operator), "{operator}");
        assert!(language.contains(&format!(" {operator} ")), "{operator}");
    }
    let named: BTreeSet<&str> = entries(under(&page, ".SS Tests"))
        .into_iter()
        .filter(|word| word.starts_with('-'))
        .collect();
    assert_eq!(named, words);
}

#[test]
fn it_has_every_name_of_a_type_an_attribute_and_a_community() {
    let page = page(GRAINLANTERN);
    let tests = under(&page, ".SS Tests");
    let words: BTreeSet<&str> = tests.split([' ', '\n', ',', ':']).collect();
    for (crate_name, least) in [("names", 18), ("communities", 3)] {
        let source = source(&format!("crates/{crate_name}/src/lib.rt"));
        let names = byte_strings(&source, |c| c.is_ascii_uppercase());
        assert!(names.len() >= least, "{names:?}");
        for name in names {
            assert!(words.contains(name), "{name}");
        }
    }
}

#[test]
fn it_has_every_refusal_and_no_other() {
    let page = page(GRAINLANTERN);
    let wanted: BTreeSet<u32> = ["filter", "message", "judge"]
        .into_iter()
        .flat_map(|name| refusals(&format!("crates/{name}/src/lib.rt")))
        .collect();
    assert!(wanted.len() >= 19, "{wanted:?}");
    let named: BTreeSet<u32> = entries(under(&page, ".SH REFUSALS"))
        .into_iter()
        .filter_map(|word| word.parse().ok())
        .collect();
    assert_eq!(named, wanted);
}

#[test]
fn the_files_that_they_name_exist() {
    for name in [GRAINLANTERN, MRTGREP] {
        named_files_exist(&page(name));
    }
}

fn named_files_exist(page: &str) {
    let part_of_name = |c: char| c.is_ascii_alphanumeric() || "_./-".contains(c);
    let mut files = 0;
    for word in page.split(|c| !part_of_name(c)) {
        let name = word.trim_end_matches('.');
        let folder = name.split_once('/').map_or("", |(folder, _)| folder);
        let within = !folder.is_empty() && path(folder).is_dir();
        if within || name.ends_with(".md") {
            assert!(path(name).exists(), "{name}");
            files += 1;
        }
    }
    assert!(files > 0);
}

#[test]
fn it_shows_every_example_as_it_is() {
    let page = page(GRAINLANTERN);
    let shown = under(&page, ".SH EXAMPLES");
    let examples = examples();
    for (file, dump) in &examples {
        for file in [file, dump] {
            let name = file.file_name().unwrap().to_str().unwrap();
            assert!(shown.contains(&format!("examples/{name}")), "{name}");
        }
        let text = fs::read_to_string(file).unwrap();
        assert!(
            shown.contains(&format!("\n{text}.fi\n")),
            "{}",
            file.display()
        );
    }
    assert!(!examples.is_empty());
}

/// The options of mrtgrep, as its table of names spells them.
fn options() -> BTreeSet<String> {
    let source = source("rust/mrtgrep/src/arguments.rs");
    let (_, table) = source.split_once("const NAMES").unwrap();
    let (table, _) = table.split_once("];").unwrap();
    let spelled = table.split('"').skip(1).step_by(2);
    spelled.map(str::to_owned).collect()
}

#[test]
fn the_page_of_mrtgrep_has_every_option_and_no_other() {
    let wanted = options();
    assert!(wanted.len() >= 20, "{wanted:?}");
    let page = page(MRTGREP);
    let lines: Vec<&str> = under(&page, ".SH OPTIONS").lines().collect();
    let named: BTreeSet<String> = lines
        .windows(2)
        .filter(|pair| pair[0] == ".TP")
        .flat_map(|pair| pair[1].split([' ', ',', '"']))
        .filter(|word| word.starts_with('-'))
        .map(str::to_owned)
        .collect();
    assert_eq!(named, wanted);
}

#[test]
fn the_help_of_mrtgrep_has_every_option_too() {
    let source = source("rust/mrtgrep/src/usage.rs");
    let help: BTreeSet<&str> = source.split([' ', ',', '\n', '[', ']']).collect();
    for option in options() {
        assert!(help.contains(&*option), "{option}");
    }
}

#[test]
fn the_pages_name_each_other() {
    let page_of_mrtgrep = page(MRTGREP);
    for heading in [".SH DESCRIPTION", ".SH SEE ALSO"] {
        assert!(
            under(&page_of_mrtgrep, heading).contains("\n.BR grainlantern (1)"),
            "{heading}"
        );
    }
    assert!(under(&page(GRAINLANTERN), ".SH SEE ALSO").contains("\n.BR mrtgrep (1)"));
}
