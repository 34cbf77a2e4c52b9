//! Operands at the borders of the rules, which the tests' own operands rarely touch.

use crate::random::Random;

/// The tests of an operand rule, and operands that break it, or just don't.
pub const OPERANDS: [(&str, &str); 6] = [
    (
        "-type|-attr",
        "|5 | 5|00|01|0|255|256|257|-1|+1|1.0|4294967297|18446744073709551617|update|UPDATES|UPDAT|AS-PATH|ORIGIN |OPEN|ORIGIN",
    ),
    (
        "-aspath",
        "| |^|$|^$|^ $| ^\t$\n|^^|$$|$^|$ 5|5 ^|! 5|!.|!!5|!|.5|5.|. .|..|^5 . !6$|5,6|5!6|05|!05|00|5 $ |^ 5|^!5$|-5|x\
         |4294967295|4294967296|!4294967296|99999999999999999999|18446744073709551617",
    ),
    (
        "-peer",
        "| |5 | 5|05|4294967295|4294967296|10.0.0.0|10.0.0.0 | 10.0.0.0|10.0.0.0 5|10.0.0.0 \t\n5|5 10.0.0.0|10.0.0.0 5 |10.0.0.0 5 6\
         |10.0.0.0 4294967296|10.0.0.0 05|10.0.0.0 x|10.0.0|10.0.0.0.0|10.0.0.256|10.00.0.0|10..0.0|10.0.0.|.10.0.0|1.2.3.4/32|256.0.0.1",
    ),
    (
        "-exact|-supernet|-subnet|-related",
        "|+|-|/8|10.0.0.0|10.0.0.0/|10.0.0.0/33|10.0.0.0/032|10.0.0.0/00|10.0.0.0/0|10.0.0.1/32|10.0.0.0/8 | 10.0.0.0/8|10.0.0/8\
         |10.0.0.0.0/8|10.0.0.256/8|10.00.0.0/8|10..0.0/8|10.0.0.0//8|10.0.0.0/8/8|+10.0.0.0/8|--10.0.0.0/8|++10.0.0.0/8|+-10.0.0.0/8\
         |+ 10.0.0.0/8|-10.0.0.0/0|10.0.0.0/4294967304|10.0.0.0/256|255.255.255.255/31",
    ),
    (
        "-timestamp",
        "|.5|5.|05|0|00.5|1.0000001|1.0000000|1.000000|1.1234567|1.123456|1.5.5|1. 5|>|>=|>5|>=5|=>5|==5|=<5|<>5|< 5| 5|5 |<=5.5|+5|-5|1.-5\
         |1.+5|5.x|4294967295.999999|4294967296|4294967296.5|18446744073709551617",
    ),
    (
        "-communities",
        "| |0:0|65535:65535|65536:0|0:65536|65535:65281|65535:666|NO_EXPORT|NO_ADVERTISE|NO_EXPORT_SUBCONFED|NO_EXPORT NO_EXPORT|1:2\t\n 3:4\
         | 1:2|1:2 |01:2|1:02|1:|:2|1|1:2:3|1.2|1:2,3:4|+1:2|1:-2|no_export|NO_EXPOR|NO_EXPORT_SUB|NO_EXPORTS|NO_EXPORT:1",
    ),
];

/// Operands that `-communities` doesn't take, by what is wrong with the list.
pub const WRONG_LISTS: [(&str, &str); 2] = [
    ("empty", ""),
    (
        "blank at an end",
        " | 1:2|1:2 |\tNO_EXPORT|NO_EXPORT\n|1:2 3:4 ",
    ),
];

/// What can't stand in such a list, by what is wrong with it.
pub const WRONG_COMMUNITIES: [(&str, &str); 7] = [
    (
        "half over 65535",
        "65536:1|1:65536|0:99999|4294967297:1|1:18446744073709551617",
    ),
    ("leading zero", "01:2|1:02|00:0|0:00|065535:1"),
    ("half missing", ":|1:|:2|1 :2|1: 2"),
    ("no colon", "1|65535|4294967041|1.2|1/2"),
    ("third half", "1:2:3|1::2|1:2:|:1:2"),
    (
        "no name",
        "no_export|No_Export|NO_EXPOR|NO_EXPORTS|NO_EXPORT_SUB|NO-EXPORT|NO_PEER|NO_EXPORT:1|65535:NO_EXPORT",
    ),
    ("other byte", "1:2.0|1:2,3:4|+1:2|1:-2|1:x|0x1:2|1:2!|!1:2|(1:2)"),
];

/// An operand that `-communities` doesn't take, and what is wrong with it.
pub fn wrong_communities(random: &mut Random) -> (&'static str, String) {
    if random.one_in(4) {
        let (cause, lists) = random.pick(&WRONG_LISTS);
        return (cause, one_of(lists, random).to_owned());
    }
    let (cause, wrong) = random.pick(&WRONG_COMMUNITIES);
    let front = random.pick(&["", "", "1:2 ", "NO_EXPORT\t3:4\n"]);
    let back = random.pick(&["", "", " 5:6", "  0:0 NO_ADVERTISE"]);
    (cause, format!("{front}{}{back}", one_of(wrong, random)))
}

/// One of those in a list that has `|` between them.
pub fn one_of(list: &'static str, random: &mut Random) -> &'static str {
    let all: Vec<&str> = list.split('|').collect();
    random.pick(&all)
}

pub fn any_operand(random: &mut Random) -> Vec<u8> {
    let (_, operands) = random.pick(&OPERANDS);
    one_of(operands, random).as_bytes().to_vec()
}

/// Operands near the rule of a test, if a word is one that has a rule.
pub fn near_operands(word: &[u8]) -> Option<&'static str> {
    let names = |tests: &str| tests.split('|').any(|test| test.as_bytes() == word);
    let rule = OPERANDS.iter().find(|(tests, _)| names(tests))?;
    Some(rule.1)
}
