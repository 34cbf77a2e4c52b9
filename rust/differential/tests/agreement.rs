//! The archive and the reference agree on every case of a fixed tour, and the tour comes by everything.

/// A tour for each of two processors.
const SEEDS: [u64; 2] = [1, 2];
const CASES_EACH: u64 = 500_000;

/// How often each answer, and each truth of each test, must come up at least.
const LEAST: u64 = 100;

#[test]
fn archive_and_reference_agree() {
    let counts = differential::run_beside(&SEEDS, |cases| cases < CASES_EACH)
        .unwrap_or_else(|difference| panic!("{difference}"));
    println!("{counts}");
    let rare = counts.rare(LEAST);
    assert!(
        rare.is_empty(),
        "came up fewer than {LEAST} times: {rare:?}"
    );
}
