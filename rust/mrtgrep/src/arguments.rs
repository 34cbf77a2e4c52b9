//! What the command is asked to do, read from its arguments.

use std::ffi::{OsStr, OsString};
use std::iter::Peekable;
use std::num::NonZeroUsize;
use std::os::unix::ffi::{OsStrExt, OsStringExt};
use std::path::PathBuf;
use std::thread::available_parallelism;

use crate::expression::Expression;
use crate::input::Input;

/// The most threads where no number is asked for.
const DEFAULT_JOBS: usize = 4;

/// The most threads that may be asked for.
const MOST_JOBS: u64 = 256;

/// What stands between options and operands.
const DASHES: &str = "--";

#[derive(Debug, PartialEq, Eq)]
pub enum Asked {
    Help,
    Version,
    Run(Options),
}

#[derive(Debug, Default, PartialEq, Eq)]
pub struct Options {
    pub filter: Filter,
    pub inputs: Vec<Input>,
    pub count: bool,
    pub max_count: Option<u64>,
    pub quiet: bool,
    pub output: Option<PathBuf>,
    pub stats: bool,
    pub report: bool,
    pub strict: bool,
    pub check: bool,
    pub explain: bool,
    pub jobs: Option<usize>,
    pub no_progress: bool,
}

/// Where the filter comes from.
#[derive(Debug, Default, PartialEq, Eq)]
pub enum Filter {
    #[default]
    NotGiven,
    /// `-e`
    Text(Vec<u8>),
    /// `-f`
    File(Input),
    /// The arguments behind the files.
    Expression(Expression),
}

impl Filter {
    /// The file that it is in, if it is in one.
    pub fn file(&self) -> Option<&Input> {
        match self {
            Filter::File(input) => Some(input),
            _ => None,
        }
    }
}

/// An argument that can't stand where it stands, in words.
#[derive(Debug, PartialEq, Eq)]
pub struct Misuse(pub String);

#[derive(Clone, Copy, Debug)]
enum Name {
    Text,
    FilterFile,
    Count,
    MaxCount,
    Quiet,
    Output,
    Stats,
    Report,
    Strict,
    Check,
    Explain,
    Jobs,
    NoProgress,
    Help,
    Version,
}

/// How each option is spelled.
const NAMES: [(&[&str], Name); 15] = [
    (&["-e"], Name::Text),
    (&["-f"], Name::FilterFile),
    (&["-c", "--count"], Name::Count),
    (&["-m", "--max-count"], Name::MaxCount),
    (&["-q", "--quiet"], Name::Quiet),
    (&["-o", "--output"], Name::Output),
    (&["-s", "--stats"], Name::Stats),
    (&["-r", "--report"], Name::Report),
    (&["--strict"], Name::Strict),
    (&["--check"], Name::Check),
    (&["--explain"], Name::Explain),
    (&["-j", "--jobs"], Name::Jobs),
    (&["--no-progress"], Name::NoProgress),
    (&["-h", "--help"], Name::Help),
    (&["-V", "--version"], Name::Version),
];

impl Name {
    fn takes_value(self) -> bool {
        matches!(
            self,
            Name::Text | Name::FilterFile | Name::MaxCount | Name::Output | Name::Jobs
        )
    }
}

impl Options {
    /// The threads that judge.
    pub fn threads(&self) -> usize {
        self.jobs.unwrap_or_else(|| {
            let cores = available_parallelism().map_or(1, NonZeroUsize::get);
            cores.min(DEFAULT_JOBS)
        })
    }

    /// The kept records after which the run stops.
    pub fn wanted(&self) -> u64 {
        let most = self.max_count.unwrap_or(u64::MAX);
        if self.quiet {
            most.min(1)
        } else {
            most
        }
    }

    /// Whether only the filter is asked about.
    pub fn filter_only(&self) -> bool {
        self.check || self.explain
    }

    fn set_filter(&mut self, filter: Filter) -> Result<(), Misuse> {
        if self.filter != Filter::NotGiven {
            return Err(misuse(
                "there is one filter: -e and -f stand once, and not both",
            ));
        }
        self.filter = filter;
        Ok(())
    }

    fn set(&mut self, name: Name) {
        match name {
            Name::Count => self.count = true,
            Name::Quiet => self.quiet = true,
            Name::Stats => self.stats = true,
            Name::Report => self.report = true,
            Name::Strict => self.strict = true,
            Name::Check => self.check = true,
            Name::Explain => self.explain = true,
            Name::NoProgress => self.no_progress = true,
            _ => unreachable!("{name:?} has a value, or ends the reading of arguments"),
        }
    }

    fn set_value(&mut self, name: Name, value: OsString) -> Result<(), Misuse> {
        match name {
            Name::Text => self.set_filter(Filter::Text(value.into_vec()))?,
            Name::FilterFile => self.set_filter(Filter::File(Input::named(value)))?,
            Name::Output => self.output = Some(value.into()),
            Name::MaxCount => self.max_count = Some(number("-m", &value, 0, u64::MAX)?),
            Name::Jobs => self.jobs = Some(number("-j", &value, 1, MOST_JOBS)? as usize),
            _ => unreachable!("{name:?} has no value"),
        }
        Ok(())
    }

    /// The operands: files, and behind them the expression where the filter isn't given by an option.
    fn set_operands(&mut self, mut operands: Vec<OsString>, dashed: bool) -> Result<(), Misuse> {
        if operands.iter().any(|operand| operand == DASHES) {
            return Err(misuse("-- ends the options, and can't stand behind them"));
        }
        if self.filter == Filter::NotGiven {
            let files = operands
                .iter()
                .take_while(|operand| !opens_expression(operand));
            let arguments = operands.split_off(files.count());
            if !arguments.is_empty() {
                self.filter = Filter::Expression(Expression::of(&arguments)?);
            }
        } else if let Some(operand) = operands
            .iter()
            .find(|operand| is_dashed(operand) && !dashed)
        {
            return Err(Misuse(format!(
                "{}: no option stands here, and a file of this name needs -- before it",
                operand.display()
            )));
        }
        self.inputs = operands.into_iter().map(Input::named).collect();
        self.settle_standard_input()
    }

    /// Standard input is read where no file is named, and holds the filter or records.
    fn settle_standard_input(&mut self) -> Result<(), Misuse> {
        let has_filter = self.filter == Filter::File(Input::Standard);
        if has_filter && self.inputs.contains(&Input::Standard) {
            return Err(misuse(
                "standard input has the filter, so - can't be a file of records",
            ));
        }
        if has_filter && self.inputs.is_empty() && !self.filter_only() {
            return Err(misuse(
                "standard input has the filter, so a file of records has to be named",
            ));
        }
        if self.inputs.is_empty() {
            self.inputs.push(Input::Standard);
        }
        Ok(())
    }
}

fn misuse(what: &str) -> Misuse {
    Misuse(what.to_owned())
}

/// Reads the arguments behind the command's name.
pub fn parse(arguments: impl Iterator<Item = OsString>) -> Result<Asked, Misuse> {
    let mut arguments = arguments.peekable();
    let mut options = Options::default();
    while let Some((name, value)) = next_option(&mut arguments)? {
        match (name, value) {
            (Name::Help, _) => return Ok(Asked::Help),
            (Name::Version, _) => return Ok(Asked::Version),
            (_, Some(value)) => options.set_value(name, value)?,
            (_, None) => options.set(name),
        }
    }
    let dashed = arguments.next_if(|argument| argument == DASHES).is_some();
    options.set_operands(arguments.collect(), dashed)?;
    Ok(Asked::Run(options))
}

/// The next option and its value, if one stands next.
fn next_option(
    arguments: &mut Peekable<impl Iterator<Item = OsString>>,
) -> Result<Option<(Name, Option<OsString>)>, Misuse> {
    let Some(argument) = arguments.peek() else {
        return Ok(None);
    };
    let (spelled, value) = split_long(argument);
    let Some(name) = named(spelled) else {
        if is_long(argument) {
            return Err(Misuse(format!(
                "{}: there is no such option",
                spelled.display()
            )));
        }
        return Ok(None);
    };
    let (spelled, value) = (spelled.display().to_string(), value.map(OsStr::to_owned));
    arguments.next();
    if !name.takes_value() {
        return match value {
            Some(_) => Err(Misuse(format!("{spelled} takes no value"))),
            None => Ok(Some((name, None))),
        };
    }
    let value = value.or_else(|| arguments.next());
    let value = value.ok_or_else(|| Misuse(format!("{spelled} needs a value")))?;
    Ok(Some((name, Some(value))))
}

/// The option that is spelled so.
fn named(spelled: &OsStr) -> Option<Name> {
    let is_spelled =
        |(spellings, _): &&(&[&str], Name)| spellings.iter().any(|name| spelled == *name);
    NAMES.iter().find(is_spelled).map(|(_, name)| *name)
}

/// Whether an argument would be an option before the operands.
pub fn is_option(argument: &OsStr) -> bool {
    let (spelled, _) = split_long(argument);
    named(spelled).is_some()
}

/// Whether an argument is spelled as a long option.
fn is_long(argument: &OsStr) -> bool {
    argument != DASHES && argument.as_bytes().starts_with(DASHES.as_bytes())
}

/// A long option's name, and the value behind its `=`.
fn split_long(argument: &OsStr) -> (&OsStr, Option<&OsStr>) {
    let bytes = argument.as_bytes();
    let Some(at) = bytes.iter().position(|byte| *byte == b'=') else {
        return (argument, None);
    };
    if !is_long(argument) {
        return (argument, None);
    }
    (
        OsStr::from_bytes(&bytes[..at]),
        Some(OsStr::from_bytes(&bytes[at + 1..])),
    )
}

/// The number that an option takes.
fn number(option: &str, value: &OsStr, least: u64, most: u64) -> Result<u64, Misuse> {
    let digits = value
        .to_str()
        .filter(|text| text.bytes().all(|byte| byte.is_ascii_digit()));
    let number = digits.and_then(|digits| digits.parse().ok());
    number
        .filter(|number| (least..=most).contains(number))
        .ok_or_else(|| {
            let value = value.display();
            Misuse(format!(
                "{option} takes a number from {least} to {most}, not '{value}'"
            ))
        })
}

/// Whether an operand looks like an option or a test, and isn't the name of standard input.
fn is_dashed(operand: &OsStr) -> bool {
    operand != "-" && operand.as_bytes().starts_with(b"-")
}

/// Whether an operand is the expression's first argument.
fn opens_expression(operand: &OsStr) -> bool {
    is_dashed(operand) || operand == "(" || operand == "!"
}

#[cfg(test)]
mod tests {
    use super::*;

    fn asked(arguments: &str) -> Result<Asked, Misuse> {
        parse(arguments.split_whitespace().map(OsString::from))
    }

    fn options(arguments: &str) -> Options {
        match asked(arguments) {
            Ok(Asked::Run(options)) => options,
            other => panic!("{arguments}: {other:?}"),
        }
    }

    fn file(name: &str) -> Input {
        Input::File(name.into())
    }

    #[test]
    fn options_end_at_the_first_argument_that_is_none() {
        let Options {
            filter,
            inputs,
            count,
            ..
        } = options("-c -loops -c");
        assert!(count);
        assert_eq!(inputs, [Input::Standard]);
        assert!(
            matches!(filter, Filter::Expression(Expression { text, .. }) if text == b"-loops -c")
        );
        assert_eq!(options("-c f -").inputs, [file("f"), Input::Standard]);
        assert_eq!(options("-- f").inputs, [file("f")]);
        assert_eq!(options("-e -loops -- -f").inputs, [file("-f")]);
    }

    #[test]
    fn a_value_is_the_next_argument_or_stands_behind_an_equals_sign() {
        for arguments in [
            "-m 7 -o --",
            "--max-count=7 --output=--",
            "--max-count 7 --output --",
        ] {
            let Options {
                max_count, output, ..
            } = options(arguments);
            assert_eq!(
                (max_count, output),
                (Some(7), Some("--".into())),
                "{arguments}"
            );
        }
        assert_eq!(options("--output=a=b").output, Some("a=b".into()));
        assert_eq!(options("-q -m 7").wanted(), 1);
        assert_eq!(options("-q -m 0").wanted(), 0);
    }

    #[test]
    fn help_and_version_come_before_what_follows() {
        assert_eq!(asked("-c -h --no-such"), Ok(Asked::Help));
        assert_eq!(asked("--version --no-such"), Ok(Asked::Version));
    }

    #[test]
    fn misuse_is_told() {
        for (arguments, what) in [
            ("--no-such", "--no-such: there is no such option"),
            ("--no-such=5", "--no-such: there is no such option"),
            ("--count=5", "--count takes no value"),
            ("-m", "-m needs a value"),
            ("-m -5", "-m takes a number from 0 "),
            ("-m +5", "-m takes a number from 0 "),
            ("-m 18446744073709551616", "-m takes a number from 0 "),
            ("-j 0", "-j takes a number from 1 to 256, not '0'"),
            ("-e a -e b", "there is one filter"),
            ("-e a -f b", "there is one filter"),
            ("-e a f -c", "-c: no option stands here"),
            ("f --", "-- ends the options"),
            ("-- --", "-- ends the options"),
            ("-loops -- f", "-- ends the options"),
            ("-f -", "standard input has the filter"),
            ("-f - f -", "standard input has the filter"),
        ] {
            let Err(Misuse(told)) = asked(arguments) else {
                panic!("{arguments}: no misuse");
            };
            assert!(told.starts_with(what), "{arguments}: {told}");
        }
        assert!(options("--check -f -").filter_only());
    }
}
