//! The forms that document 01 names for seven places of the code ('Where each language form belongs'). No proof needs them, so the sources are read.

use cases::stored;

/// A place, what the paper asks for there, whether a crate's source has it, and changes that take it away.
struct Form {
    name: &'static str,
    asks: &'static str,
    stands: fn(&str) -> Option<bool>,
    spoilt: &'static [(&'static str, &'static str)],
}

const FORMS: [Form; 7] = [
    Form {
        name: "judge",
        asks: "let .. else on the decoder's answer, and the refusal returned in the else",
        stands: refusal_in_else,
        spoilt: &[
            ("let Ok(parts)", "match Ok(parts)"),
            ("message::decode(", "message::frame("),
            ("return", ""),
            ("decoded.unwrap_err()", "Refusal::Lines"),
        ],
    },
    Form {
        name: "filter",
        asks: "three grammar functions in a cycle",
        stands: grammar_in_a_cycle,
        spoilt: &[
            ("= expression(", "= test("),
            ("= conjunction(", "= factor("),
            ("= factor(", "= test("),
        ],
    },
    Form {
        name: "aspath",
        asks: "nested loops over path positions, left by a label at the first loop in the path and nowhere else",
        stands: left_by_a_label,
        spoilt: &[
            ("break 'search", "return true"),
            ("return false", "break 'search"),
            ("for m in path", "'inner: for m in path"),
        ],
    },
    Form {
        name: "network",
        asks: "leading zeros of the exclusive-or of two addresses, compared with the prefix length",
        stands: leading_zeros,
        spoilt: &[("leading_zeros", "trailing_zeros"), ("^", "&")],
    },
    Form {
        name: "aspath",
        asks: "a const table of nine low and high bounds, searched by the bogon test",
        stands: bogon_table,
        spoilt: &[
            ("const BOGONS", "fn bogons"),
            ("Range { low: 0, high: 0 },", ""),
            ("BOGONS.iter()", "ranges().iter()"),
        ],
    },
    Form {
        name: "walk",
        asks: "a struct with a slice reference and an offset, a thin step function above a covered one on slice and number",
        stands: thin_reader,
        spoilt: &[
            ("&'a [u8], pub at", "[u8; 4096], pub at"),
            ("= step_at(", "= header_at("),
            ("reader: &mut Reader", "reader: Reader"),
        ],
    },
    Form {
        name: "judge",
        asks: "four counters lent by &mut, and one thin function that adds a judged record",
        stands: lent_tally,
        spoilt: &[
            ("&mut Tally", "Tally"),
            ("pub refused: u32", "pub refused: u64"),
            ("= judge_with(", "= judge("),
            ("tally: Tally", "tally: &mut Tally"),
        ],
    },
];

/// A text's words and signs with a blank between, a label as one word, no comments.
fn normal(text: &str) -> String {
    let mut normal = String::from(" ");
    for line in text.lines() {
        let mut chars = line.split("//").next().unwrap().chars().peekable();
        while let Some(c) = chars.next() {
            normal.push(c);
            let joined = chars
                .peek()
                .is_some_and(|&d| in_word(d) && (in_word(c) || c == '\''));
            if !joined {
                normal.push(' ');
            }
        }
        normal.push(' ');
    }
    let words: Vec<&str> = normal.split_whitespace().collect();
    format!(" {} ", words.join(" "))
}

fn in_word(c: char) -> bool {
    c.is_ascii_alphanumeric() || c == '_'
}

fn has(text: &str, part: &str) -> bool {
    text.contains(&normal(part))
}

fn count(text: &str, part: &str) -> usize {
    text.matches(normal(part).trim_start()).count()
}

/// What stands behind a part of a text.
fn behind<'a>(text: &'a str, part: &str) -> Option<&'a str> {
    let part = normal(part);
    text.find(&part).map(|at| &text[at + part.len() - 1..])
}

/// What stands before the first brace, up to the one that closes it, and behind that.
fn braced(text: &str) -> Option<(&str, &str, &str)> {
    let open = text.find('{')?;
    let mut depth = 0;
    for (at, c) in text[open..].char_indices() {
        depth += i32::from(c == '{') - i32::from(c == '}');
        if depth == 0 {
            let close = open + at;
            return Some((&text[..open], &text[open + 1..close], &text[close + 1..]));
        }
    }
    None
}

/// A function's parameters and its body; each clause of its promise has braces too, and may have a name.
fn function<'a>(source: &'a str, name: &str) -> Option<(&'a str, &'a str)> {
    let mut rest = behind(source, &format!("fn {name}"))?;
    let head = rest;
    loop {
        let (before, inside, after) = braced(rest)?;
        let mut last = before.split_whitespace().rev().take(2);
        if !last.any(|word| word == "requires" || word == "ensures") {
            return Some((&head[..head.find(')')?], inside));
        }
        rest = after;
    }
}

fn calls(source: &str, from: &str, to: &str) -> Option<bool> {
    let (_, body) = function(source, from)?;
    Some(has(body, &format!("{to}(")))
}

fn branches(body: &str) -> bool {
    ["if", "match", "loop", "while", "for", "else"]
        .iter()
        .any(|word| has(body, word))
}

fn refusal_in_else(judge: &str) -> Option<bool> {
    let (_, body) = function(judge, "judge_valid")?;
    let (answer, rest) = behind(body, "let Ok(parts) = ")?.split_once(" else ")?;
    let answer = answer.trim();
    let (_, refusal, _) = braced(rest)?;
    Some(
        has(body, &format!("let {answer} = message::decode("))
            && has(refusal, &format!("return Err({answer}.unwrap_err()")),
    )
}

fn grammar_in_a_cycle(filter: &str) -> Option<bool> {
    Some(
        calls(filter, "expression", "conjunction")?
            && calls(filter, "conjunction", "factor")?
            && calls(filter, "factor", "expression")?,
    )
}

fn left_by_a_label(aspath: &str) -> Option<bool> {
    let (_, body) = function(aspath, "loops")?;
    let label = body.split(' ').find(|word| word.starts_with('\''))?;
    let (_, outer, _) = braced(behind(body, &format!("{label}: loop"))?)?;
    let (_, inner, _) = braced(behind(outer, "for m in path")?)?;
    let leaves = format!("break {label}");
    let labels = body
        .split(' ')
        .filter(|word| word.starts_with('\''))
        .count();
    Some(has(inner, &leaves) && labels == 2)
}

fn leading_zeros(network: &str) -> Option<bool> {
    let (_, body) = function(network, "covering")?;
    let (compared, rest) = body.split_once(" u32 : : leading_zeros ( ")?;
    let (argument, _) = rest.split_once(')')?;
    Some(compared.ends_with(normal(".len <=").trim_end()) && has(&format!(" {argument}"), "^"))
}

fn bogon_table(aspath: &str) -> Option<bool> {
    let (rows, _) = behind(aspath, "const BOGONS: [Range; BOGON_RANGES] = [")?.split_once(']')?;
    let (_, range, _) = braced(behind(aspath, "struct Range")?)?;
    let (_, test) = function(aspath, "bogon")?;
    Some(
        has(aspath, "const BOGON_RANGES: usize = 9;")
            && count(rows, "Range { low:") == 9
            && count(rows, ", high:") == 9
            && has(range, "low: u32")
            && has(range, "high: u32")
            && has(test, "BOGONS.iter().any("),
    )
}

fn thin_reader(walk: &str) -> Option<bool> {
    let (_, reader, _) = braced(behind(walk, "struct Reader<'a>")?)?;
    let (parameters, next) = function(walk, "next")?;
    let (covered, _) = function(walk, "step_at")?;
    Some(
        count(reader, ":") == 2
            && has(reader, ": &'a [u8]")
            && has(reader, ": usize")
            && has(parameters, "&mut Reader")
            && has(next, "step_at(")
            && !branches(next)
            && has(covered, ": &[u8]")
            && has(covered, ": usize"),
    )
}

fn lent_tally(judge: &str) -> Option<bool> {
    let (_, tally, _) = braced(behind(judge, "struct Tally")?)?;
    let (parameters, body) = function(judge, "judge_counted")?;
    Some(
        count(tally, ": u32") == 4
            && count(tally, ":") == 4
            && count(judge, "&mut Tally") == 1
            && has(parameters, "&mut Tally")
            && has(body, "judge_with(")
            && !branches(body),
    )
}

fn source(form: &Form) -> String {
    let text = stored(&format!("crates/{}/src/lib.rt", form.name));
    normal(&String::from_utf8(text).unwrap())
}

#[test]
fn each_form_that_the_paper_names_stands_in_its_place() {
    for form in &FORMS {
        assert_eq!(
            (form.stands)(&source(form)),
            Some(true),
            "{}: the paper asks for {}",
            form.name,
            form.asks
        );
    }
}

#[test]
fn a_form_that_is_taken_out_is_missed() {
    for form in &FORMS {
        let source = source(form);
        for (old, new) in form.spoilt {
            let spoilt = source.replace(&normal(old), &normal(new));
            assert_ne!(spoilt, source, "{}: no {old}", form.name);
            assert_ne!(
                (form.stands)(&spoilt),
                Some(true),
                "{}: {new} for {old}",
                form.name
            );
        }
    }
}
