//! -s: a line for each file and one for all, on standard error, at the end.

mod common;

use common::*;

/// The lines of the statistics.
fn stats(said: &str) -> Vec<&str> {
    said.lines()
        .filter(|line| line.contains(": seen "))
        .collect()
}

/// Holds a line to its name, to its counts, seen, kept, dropped and refused, to each refusal's number with its count, and to its bytes.
#[track_caller]
fn holds(line: &str, name: &str, counts: [usize; 4], refusals: &[(u32, usize)], bytes: usize) {
    let [seen, kept, dropped, refused] = counts;
    let begins =
        format!("mrtgrep: {name}: seen {seen}, kept {kept}, dropped {dropped}, refused {refused}");
    let rest = line
        .strip_prefix(&begins)
        .unwrap_or_else(|| panic!("{begins}: {line}"));
    let (told, seconds) = rest
        .rsplit_once(&format!(", {bytes} bytes, "))
        .unwrap_or_else(|| panic!("{bytes} bytes: {line}"));
    let told: Vec<&str> = match told.strip_prefix(" (") {
        Some(told) => told.strip_suffix(')').unwrap().split("; ").collect(),
        None => Vec::new(),
    };
    assert_eq!(told.len(), refusals.len(), "{line}");
    for (told, (number, count)) in told.iter().zip(refusals) {
        let words = told
            .strip_prefix(&format!("{number}: {count}, "))
            .unwrap_or_else(|| panic!("{number}: {count}: {line}"));
        assert_eq!(words, WORDS[*number as usize - 11]);
    }
    let seconds = seconds
        .strip_suffix(" seconds")
        .unwrap_or_else(|| panic!("{line}"));
    assert!(
        seconds.parse::<f64>().is_ok_and(|seconds| seconds >= 0.0),
        "{line}"
    );
}

#[test]
fn a_dump_has_its_counts() {
    let folder = Folder::new("stats").with("frr.mrt", stored("tests/real/frr.mrt"));
    let ran = folder
        .run(["-s", "frr.mrt"])
        .gave(0, stored("tests/real/frr.lines"));
    let lines = stats(&ran.said);
    assert_eq!(ran.said.lines().count(), 2, "{}", ran.said);
    // the tally is that of examples/c, and the refusals are those of tests/independent.py
    let refusals = [(12, 95), (13, 6)];
    holds(lines[0], "frr.mrt", [414, 313, 0, 101], &refusals, 65524);
    holds(lines[1], "all files", [414, 313, 0, 101], &refusals, 65524);
}

#[test]
fn each_file_and_all_have_a_line() {
    let updates = stored("examples/updates.mrt");
    let folder = Folder::new("stats-files")
        .with("updates.mrt", &updates)
        .with("empty.mrt", "");
    let (filter, lines) = example("loops");
    for jobs in ["1", "4"] {
        let arguments = [
            "-j",
            jobs,
            "-s",
            "-f",
            &filter,
            "updates.mrt",
            "-",
            "no-such.mrt",
            "empty.mrt",
            "updates.mrt",
        ];
        let input = [padding(36), other_peer()].concat();
        let ran = folder
            .fed(arguments, &input)
            .gave(2, lines.repeat(2))
            .telling(&["no-such.mrt: "]);
        let stats = stats(&ran.said);
        assert_eq!(stats.len(), 5, "{}", ran.said);
        holds(stats[0], "updates.mrt", [209, 9, 200, 0], &[], 25163);
        holds(stats[1], "-", [2, 0, 1, 1], &[(12, 1)], 36 + 83);
        holds(stats[2], "empty.mrt", [0, 0, 0, 0], &[], 0);
        holds(stats[3], "updates.mrt", [209, 9, 200, 0], &[], 25163);
        holds(
            stats[4],
            "all files",
            [420, 18, 401, 1],
            &[(12, 1)],
            2 * 25163 + 36 + 83,
        );
        // at the end
        assert!(
            ran.said.ends_with(&format!("{}\n", stats[4])),
            "{}",
            ran.said
        );
    }
}

#[test]
fn each_refusal_is_counted_with_its_words() {
    let mixed = mixed();
    let folder = Folder::new("stats-refusals").with("mixed.mrt", &mixed.run);
    let (filter, lines) = example("loops");
    let mut counts = [0; 8];
    for (_, number) in &mixed.refused {
        counts[*number as usize - 11] += 1;
    }
    assert!(!counts.contains(&0), "{counts:?}");
    let refusals: Vec<(u32, usize)> = (11..).zip(counts).collect();
    let all = ROUNDS * UPDATES;
    for jobs in ["1", "2", "4"] {
        let ran = folder
            .run(["-j", jobs, "-s", "-f", &filter, "mixed.mrt"])
            .gave(0, lines.repeat(ROUNDS));
        let counts = [2 * all, 9 * ROUNDS, 200 * ROUNDS, all];
        holds(
            stats(&ran.said)[0],
            "mixed.mrt",
            counts,
            &refusals,
            mixed.run.len(),
        );
    }
}

#[test]
fn a_cut_end_is_counted_in_bytes_only() {
    let run = [bytes(R), bytes(R)[..40].to_vec()].concat();
    let ran = fed(mrtgrep().arg("-s"), &run).gave(2, R_LINE);
    holds(stats(&ran.said)[0], "-", [1, 1, 0, 0], &[], 123);
}

#[test]
fn it_goes_with_counts_and_quiet() {
    let updates = stored("examples/updates.mrt");
    let folder = Folder::new("stats-quiet").with("updates.mrt", &updates);
    let (filter, _) = example("loops");
    let ran = folder
        .run(["-s", "-c", "-f", &filter, "updates.mrt"])
        .gave(0, "9\n");
    holds(
        stats(&ran.said)[0],
        "updates.mrt",
        [209, 9, 200, 0],
        &[],
        25163,
    );
    // the first one that is kept is the 47th, and those behind it aren't seen
    let first: usize = records(&updates)[..47]
        .iter()
        .map(|record| record.len())
        .sum();
    for jobs in ["1", "2", "4"] {
        let ran = folder
            .run(["-j", jobs, "-s", "-q", "-f", &filter, "updates.mrt"])
            .gave(0, "");
        holds(
            stats(&ran.said)[0],
            "updates.mrt",
            [47, 1, 46, 0],
            &[],
            first,
        );
    }
}
