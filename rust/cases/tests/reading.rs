//! docs/READING.md: it names every file of definitions once, and the lines that it counts are those of the words.

use cases::{path, stored};
use std::collections::BTreeSet;
use std::fs;

/// What stands above one of these is words.
const ENDS: [&str; 3] = [
    "-- ---- what the code computes",
    "-- ---- ours",
    "-- ---- decoding",
];

fn text(path: &str) -> String {
    String::from_utf8(stored(path)).unwrap()
}

/// The lines of a file's words without imports and blank lines, and whether something else follows them.
fn words(file: &str) -> (usize, bool) {
    let (name, part) = file.split_once('/').unwrap();
    let source = text(&format!("crates/{name}/specs/{part}.antt"));
    let ends = |line: &&str| ENDS.iter().any(|end| line.starts_with(end));
    let counted = source
        .lines()
        .take_while(|line| !ends(line))
        .filter(|line| !line.trim().is_empty() && !line.starts_with("use "))
        .count();
    (counted, source.lines().any(|line| ends(&line)))
}

/// Every file of definitions, as CRATE/FILE.
fn definitions() -> Vec<String> {
    let mut found = Vec::new();
    for each in fs::read_dir(path("crates")).unwrap() {
        let folder = each.unwrap().path();
        let Ok(files) = fs::read_dir(folder.join("specs")) else {
            continue;
        };
        for file in files {
            let file = file.unwrap().path();
            let part = file.file_stem().unwrap().to_str().unwrap();
            let name = folder.file_name().unwrap().to_str().unwrap();
            if part != "Lib" {
                found.push(format!("{name}/{part}"));
            }
        }
    }
    found.sort();
    found
}

#[test]
fn the_page_names_each_file_and_counts_its_words() {
    let page = text("docs/READING.md");
    let mut named = BTreeSet::new();
    let (mut lines, mut files) = (0, 0);
    for row in page.lines().filter(|line| line.starts_with("| ")) {
        let cells: Vec<&str> = row.split('|').map(str::trim).collect();
        let file = cells[1].trim_end_matches('*');
        if !file.contains('/') {
            continue;
        }
        assert!(named.insert(file.to_string()), "{file} stands twice");
        if let Ok(told) = cells[2].parse::<usize>() {
            assert_eq!((told, cells[1].ends_with('*')), words(file), "{file}");
            lines += told;
            files += 1;
        }
    }
    assert_eq!(named.into_iter().collect::<Vec<_>>(), definitions());
    let total = format!(
        "{},{:03} lines in {files} files",
        lines / 1000,
        lines % 1000
    );
    assert!(page.contains(&total), "the page doesn't say {total}");
}
