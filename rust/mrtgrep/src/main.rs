//! mrtgrep: prints the MRT update records that a filter keeps.
//!
//! Every verdict and line comes from the proved archive, through the crate `grainlantern`; what stands here reads, hands
//! over and writes.

#![forbid(unsafe_code)]

mod arguments;
mod batch;
mod collect;
mod counts;
mod explain;
mod expression;
mod filter;
mod input;
mod judge;
mod messages;
mod output;
mod packing;
mod progress;
mod reader;
mod refused;
mod status;
mod threads;
mod usage;

use std::env::args_os;
use std::io::{stderr, stdin, stdout, ErrorKind, IsTerminal};
use std::process::ExitCode;
use std::sync::Arc;

use grainlantern::{Program, WEIGHT_LIMIT};

use arguments::{Asked, Misuse, Options};
use collect::Collector;
use filter::FilterText;
use input::Input;
use judge::Judge;
use messages::{put, words, Messages};
use output::Output;
use progress::Progress;
use reader::Reader;
use status::Status;
use usage::{HELP, USAGE, VERSION};

fn main() -> ExitCode {
    let done = match arguments::parse(args_os().skip(1)) {
        Ok(Asked::Help) => Output::standard().and_then(|output| print(output, HELP)),
        Ok(Asked::Version) => Output::standard().and_then(|output| print(output, VERSION)),
        Ok(Asked::Run(options)) => run(options),
        Err(Misuse(what)) => Err(format!("{what}\n{}", USAGE.trim_end())),
    };
    done.unwrap_or_else(|what| {
        Messages::new(None).say(what);
        Status::Wrong
    })
    .into()
}

/// Does what is asked; what is wrong, where nothing was done.
fn run(options: Options) -> Result<Status, String> {
    let text = FilterText::of(&options.filter)?;
    let program = text.compile()?;
    if !options.filter_only() && options.wanted() > 0 && waits_for_a_person(&options.inputs) {
        put(USAGE);
        return Ok(Status::Wrong);
    }
    let read: Vec<&Input> = options.inputs.iter().chain(options.filter.file()).collect();
    let output = match &options.output {
        Some(path) => Output::open(path, &read)?,
        None => Output::standard()?,
    };
    if options.filter_only() {
        return tell_filter(&options, output, &text.name, &program);
    }
    judge_all(&options, output, program)
}

/// Whether records would have to be typed.
fn waits_for_a_person(inputs: &[Input]) -> bool {
    inputs.contains(&Input::Standard) && stdin().is_terminal()
}

/// Tells what the filter was taken for.
fn tell_filter(
    options: &Options,
    output: Output,
    name: &str,
    program: &Program,
) -> Result<Status, String> {
    let mut text = String::new();
    if options.check {
        let weight = program.records().len();
        text += &format!("{name}: weight {weight} of at most {WEIGHT_LIMIT}\n");
    }
    if options.explain {
        text += &explain::rows(program);
    }
    if options.quiet {
        text.clear();
    }
    print(output, &text)
}

/// Reads, judges and writes.
fn judge_all(options: &Options, output: Output, program: Program) -> Result<Status, String> {
    let mut collector = Collector::new(options, output, Messages::new(progress(options)));
    if options.wanted() == 0 {
        return Ok(collector.finish());
    }
    let judge = Judge {
        program,
        lines: !options.count && !options.quiet,
        report: options.report,
    };
    let reader = Reader::new(options.inputs.clone());
    match options.threads() {
        1 => threads::run_alone(&judge, reader, &mut collector),
        threads => threads::run(threads, Arc::new(judge), reader, &mut collector)
            .map_err(|why| format!("-j {threads}: no thread could be started: {}", words(&why)))?,
    }
    Ok(collector.finish())
}

/// Progress is for a person who sees nothing else happen.
fn progress(options: &Options) -> Option<Progress> {
    if options.no_progress || !stderr().is_terminal() || stdout().is_terminal() {
        return None;
    }
    let sizes = options.inputs.iter().map(|input| {
        let file = input.metadata().ok().filter(|file| file.is_file())?;
        Some(file.len())
    });
    Some(Progress::new(sizes.sum()))
}

/// Writes a text that is all there is to say.
fn print(mut output: Output, text: &str) -> Result<Status, String> {
    match output.write(text.as_bytes()) {
        Err(why) if why.kind() != ErrorKind::BrokenPipe => {
            Err(format!("{}: {}", output.name(), words(&why)))
        }
        _ => Ok(Status::Kept),
    }
}
