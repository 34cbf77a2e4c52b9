//! The dumps of real collectors give their lines, and an example's dump is a part of one.

use cases::{judge, program, step, stored, KEEP_ALL, LINE_ROOM};

fn holds(name: &str) {
    let run = stored(&format!("tests/real/{name}.mrt"));
    let keep_all = program(KEEP_ALL);
    let mut buffer = vec![0; LINE_ROOM];
    let mut printed = Vec::new();
    let mut at = 0;
    loop {
        let (answer, value) = step(&run, at);
        if answer != 0 {
            break;
        }
        let end = at + value[0] as usize;
        let (number, value) = judge(&keep_all, &run[at..end], &mut buffer);
        if number == 1 {
            printed.extend_from_slice(&buffer[..value[1] as usize]);
        }
        at = end;
    }
    assert_eq!(at, run.len(), "{name} is walked to its end");
    assert_eq!(step(&run, at), (1, [0; 4]), "{name} closes with done");
    assert!(
        printed == stored(&format!("tests/real/{name}.lines")),
        "{name}: the lines differ"
    );
}

#[test]
fn frr_gives_its_lines() {
    holds("frr");
}

#[test]
fn gobgp_gives_its_lines() {
    holds("gobgp");
}

#[test]
fn the_dump_with_tags_is_cut_from_frr() {
    let frr = stored("tests/real/frr.mrt");
    assert!(stored("examples/tags.mrt") == frr[32_500..35_182]);
}
