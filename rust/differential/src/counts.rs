//! What came up, and how often.

use std::collections::BTreeMap;
use std::fmt;

use crate::operand::{WRONG_COMMUNITIES, WRONG_LISTS};
use crate::test::{ENDS, OPERATORS, RELATIONS, SIDES};
use crate::{program, record};

#[derive(Default)]
pub struct Counts {
    pub cases: u64,
    by_label: BTreeMap<String, u64>,
}

impl Counts {
    pub fn add(&mut self, label: String) {
        *self.by_label.entry(label).or_default() += 1;
    }

    pub fn merge(&mut self, other: Counts) {
        self.cases += other.cases;
        for (label, count) in other.by_label {
            *self.by_label.entry(label).or_default() += count;
        }
    }

    /// The labels of which fewer than `least` came up.
    pub fn rare(&self, least: u64) -> Vec<String> {
        let count = |label: &String| self.by_label.get(label).copied().unwrap_or(0);
        wanted()
            .into_iter()
            .filter(|label| count(label) < least)
            .collect()
    }
}

impl fmt::Display for Counts {
    fn fmt(&self, out: &mut fmt::Formatter) -> fmt::Result {
        writeln!(out, "{} cases", self.cases)?;
        for (label, count) in &self.by_label {
            writeln!(out, "{count:>9}  {label}")?;
        }
        Ok(())
    }
}

/// Every answer, some of them with each cause, and every test with each truth that it can have.
fn wanted() -> Vec<String> {
    let mut wanted: Vec<String> = (0..=8).map(|number| format!("compile {number}")).collect();
    for number in [0, 1].into_iter().chain(11..=20) {
        wanted.push(format!("judge {number}"));
        wanted.push(format!("judge {number}, counted"));
    }
    wanted.push("judge 21, counted".to_owned());
    wanted.extend(["record", "done", "cut"].map(|answer| format!("step {answer}")));
    wanted.extend(causes());

    let anywhere = ["-type", "-peer AS", "-peer address", "-peer both"].map(str::to_owned);
    let times = OPERATORS.map(|operator| format!("-timestamp {operator}"));
    for test in anywhere.iter().chain(&times) {
        wanted.extend([format!("{test}: true"), format!("{test}: false")]);
    }
    // With a fraction no record's time is equal.
    wanted.push("-timestamp = fraction: false".to_owned());
    for operator in &OPERATORS[1..] {
        for truth in ["true", "false"] {
            wanted.push(format!("-timestamp {operator} fraction: {truth}"));
        }
    }
    let networks = RELATIONS
        .iter()
        .flat_map(|relation| SIDES.map(|side| format!("{relation} {side}")));
    for test in networks.chain(["-attr".to_owned()]) {
        wanted.extend(["true", "false", "no UPDATE"].map(|truth| format!("{test}: {truth}")));
    }
    let items = ["number", "not", "any"].map(|item| format!("-aspath item {item}"));
    let paths = ["-loops", "-bogon-asn", "-aspath ^$ alone"].map(str::to_owned);
    let patterns = ENDS.map(|ends| format!("-aspath {ends}"));
    for test in items.iter().chain(&paths).chain(&patterns) {
        let truths = ["true", "false", "no UPDATE", "no AS_PATH"];
        wanted.extend(truths.map(|truth| format!("{test}: {truth}")));
    }
    // One end alone is at hand in every path.
    for test in ["-aspath ^ alone", "-aspath $ alone"] {
        wanted.extend(["true", "no AS_PATH"].map(|truth| format!("{test}: {truth}")));
    }
    let lists = [
        "-communities",
        "-communities well-known",
        "-communities repeated",
    ];
    for test in lists {
        let reasons = [
            "some missing",
            "none held",
            "empty COMMUNITY",
            "no COMMUNITY",
            "no UPDATE",
        ];
        wanted.push(format!("{test}: true"));
        wanted.extend(reasons.map(|reason| format!("{test}: {reason}")));
    }
    wanted
}

/// What can be wrong with a list of communities, in a text and in a program, and with an attribute's body.
fn causes() -> Vec<String> {
    let mut causes = Vec::new();
    for (cause, _) in WRONG_LISTS.iter().chain(&WRONG_COMMUNITIES) {
        causes.push(format!("compile 5, communities: {cause}"));
    }
    for (cause, _) in program::LIST_DAMAGES {
        causes.push(format!("judge 20, communities: {cause}"));
    }
    for (cause, ..) in record::WRONG_BODIES {
        causes.extend(record::SUBTYPES.map(|subtype| format!("judge 17, {cause}, {subtype}")));
    }
    causes
}
