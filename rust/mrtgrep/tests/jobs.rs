//! -j: the same bytes, in the same order, on any number of threads.

mod common;

use common::*;

/// What was said, without the seconds, which differ from run to run.
fn without_seconds(said: &str) -> Vec<&str> {
    said.lines()
        .map(|line| {
            line.rsplit_once(" bytes, ")
                .map_or(line, |(counts, _)| counts)
        })
        .collect()
}

#[test]
fn mixed_records_give_equal_bytes() {
    let mixed = mixed();
    let folder = Folder::new("mixed").with("mixed.mrt", &mixed.run);
    let of_updates = |(name, _): &(&str, usize)| dump(name) == "examples/updates.mrt";
    for (name, kept) in EXAMPLES.into_iter().filter(of_updates) {
        let (filter, lines) = example(name);
        for jobs in ["1", "2", "4"] {
            folder
                .run(["-j", jobs, "-f", &filter, "mixed.mrt"])
                .gave(0, lines.repeat(ROUNDS))
                .silently();
            folder
                .run(["-j", jobs, "-c", "-f", &filter, "mixed.mrt"])
                .gave(0, format!("{}\n", kept * ROUNDS))
                .silently();
        }
    }
    // all that is readable: the lines of the dump that the updates were taken from, in their seconds
    let all: String = stored_text("tests/real/gobgp.lines")
        .lines()
        .filter(|line| {
            let seconds: u64 = line.split('|').nth(9).unwrap().parse().unwrap();
            (1794762089..=1794762093).contains(&seconds)
        })
        .map(|line| format!("{line}\n"))
        .collect();
    for jobs in ["1", "2", "3", "4", "9"] {
        folder
            .run(["-j", jobs, "mixed.mrt"])
            .gave(0, all.repeat(ROUNDS))
            .silently();
        folder
            .fed(["-j", jobs], &mixed.run)
            .gave(0, all.repeat(ROUNDS))
            .silently();
    }
}

#[test]
fn the_default_gives_them_too() {
    let mixed = mixed();
    let (filter, lines) = example("loops");
    fed(mrtgrep().args(["-f", &filter]), &mixed.run)
        .gave(0, lines.repeat(ROUNDS))
        .silently();
}

#[test]
fn reports_and_statistics_are_those_of_one_thread() {
    let mixed = mixed();
    let (filter, lines) = example("window");
    let folder = Folder::new("mixed-report").with("mixed.mrt", &mixed.run);
    let ran = |jobs: &str| {
        folder
            .run([
                "-j",
                jobs,
                "-r",
                "-s",
                "-f",
                &filter,
                "mixed.mrt",
                "mixed.mrt",
            ])
            .gave(0, lines.repeat(2 * ROUNDS))
            .said
    };
    let one = ran("1");
    // a line for each refused record, one for each file and one for all
    assert_eq!(one.lines().count(), 2 * mixed.refused.len() + 3);
    for jobs in ["2", "4"] {
        assert!(
            without_seconds(&ran(jobs)) == without_seconds(&one),
            "-j {jobs}"
        );
    }
}

#[test]
fn what_lies_behind_the_last_one_wanted_is_not_seen() {
    let mixed = mixed();
    let (filter, lines) = example("loops");
    let lines = String::from_utf8(lines.repeat(ROUNDS)).unwrap();
    let folder = Folder::new("mixed-max").with("mixed.mrt", &mixed.run);
    // the updates that loops.filter keeps, by tests/independent.py
    const KEPT: [usize; 9] = [46, 47, 55, 59, 66, 91, 145, 202, 204];
    for max in [1, 2, 9, 10, 100, 215] {
        let last = KEPT[(max - 1) % 9] + UPDATES * ((max - 1) / 9);
        // each update stands before a refused record
        let (seen, refused) = (2 * last + 1, last);
        let (end, _) = mixed.refused[last];
        let begins = format!(
            "mrtgrep: mixed.mrt: seen {seen}, kept {max}, dropped {}, refused {refused} ",
            last + 1 - max
        );
        let wanted = max.to_string();
        let mut one = None;
        for jobs in ["1", "2", "4"] {
            let ran = folder.run([
                "-j",
                jobs,
                "-m",
                &wanted,
                "-r",
                "-s",
                "-f",
                &filter,
                "mixed.mrt",
            ]);
            assert_eq!(ran.code, Some(0), "{}", ran.said);
            let out = String::from_utf8(ran.out).unwrap();
            assert!(lines.starts_with(&out), "-m {max}");
            assert_eq!(&out, one.get_or_insert(out.clone()), "-m {max} -j {jobs}");
            // each record that was refused before it, and no other; then the counts
            let mut said = ran.said.lines();
            for (offset, number) in &mixed.refused[..refused] {
                assert_eq!(said.next(), Some(&*reported("mixed.mrt", *offset, *number)));
            }
            let stats = said.next().unwrap();
            assert!(
                stats.starts_with(&begins),
                "-m {max} -j {jobs}: {begins}: {stats}"
            );
            assert!(
                stats.contains(&format!(", {end} bytes, ")),
                "-m {max} -j {jobs}: {end}: {stats}"
            );
        }
        folder
            .run(["-m", &wanted, "-c", "-f", &filter, "mixed.mrt"])
            .gave(0, format!("{max}\n"))
            .silently();
    }
}
