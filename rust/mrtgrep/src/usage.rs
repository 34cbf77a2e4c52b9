//! What the command says of itself.

/// The three forms, for who used none of them.
pub const USAGE: &str = "\
usage: mrtgrep [OPTIONS] [FILE...] [EXPRESSION...]
       mrtgrep [OPTIONS] -e TEXT [FILE...]
       mrtgrep [OPTIONS] -f FILTERFILE [FILE...]
mrtgrep --help says more.
";

/// The answer to `--help`, for a terminal of 80 columns.
pub const HELP: &str = "\
usage: mrtgrep [OPTIONS] [FILE...] [EXPRESSION...]
       mrtgrep [OPTIONS] -e TEXT [FILE...]
       mrtgrep [OPTIONS] -f FILTERFILE [FILE...]

Prints the lines of the MRT update records that a filter keeps, in their order.
Without a filter all are kept. Without a FILE, or where one is -, standard input
is read. The EXPRESSION begins at the first operand that begins with - or is
( or !, and each of its arguments is a token of the filter.

  -e TEXT            the filter is TEXT
  -f FILTERFILE      the filter is in FILTERFILE; - is standard input
  -c, --count        print how many records are kept instead of their lines,
                     for each FILE where several are named
  -m, --max-count N  stop after N kept records
  -q, --quiet        print nothing, and stop at the first kept record
  -o, --output FILE  write to FILE instead of standard output
  -s, --stats        tell at the end what was seen, kept, dropped and refused
  -r, --report       tell each record that isn't judged, with its place
      --strict       exit with 2 if a record isn't judged
      --check        only compile the filter, and print its weight
      --explain      only compile the filter, and print its program in words
  -j, --jobs N       judge on N threads; otherwise one a core, but at most 4
      --no-progress  show no progress
  -h, --help         print this
  -V, --version      print the version

Options come before the first FILE, and -- ends them.
Exit status: 0 some record was kept, 1 none was, 2 something was wrong.
mrtgrep(1) has the details, grainlantern(1) the filter language.
";

/// The answer to `--version`.
pub const VERSION: &str = concat!("mrtgrep ", env!("CARGO_PKG_VERSION"), "\n");
