//! The command line of the second program: one command a report, the cards, the listing, the line
//! bytes, the clock bytes, the repeated line, the test tapes.

mod cases;
mod coverage;
mod model;
mod reports;
mod tapes;
#[cfg(test)]
mod tests;

use cases::case::{Case, RunCase};
use cases::record::cases_of;
use cases::{chip_cases, sample};
use model::input::bytes_of_input;
use model::{card_bytes, clock_bytes, line_bytes, listing};
use reports::failure::Failure;
use reports::{chip_report, counter_report, demand3_report, reflection_report, repeat_line};
use std::env;
use std::ffi::OsString;
use std::io::{self, BufWriter, Read, Write};
use std::path::Path;
use std::process::ExitCode;
use tapes::test_tapes;

/// The commands: what each gives.
const USAGE: &str = "usage: second COMMAND
commands:
  counter  the six-bit counter's answers for every byte
  card_bytes  the counter's 63 values, then the 256 mirrored bytes (binary)
  chip_cases  the large case file of single clocks, walks, lines, runs and tapes (binary)
  chip_sample  a small case file with every kind of case and every outcome (binary)
  coverage  the table of what the cases of the large case file must make happen
  chip  the chip's answers for the cases of the case file on standard input
  demand3  how often demand 3 is checked on the runs of the case file on standard input
  reflection  how often request Three's fact is checked on the cases of the case file on standard input
  listing  the listing of the tape on standard input
  line_bytes  the object bytes and colour bytes of each line of the tape on standard input (binary)
  clock_bytes  the state after each clock of a line, its number and tape on standard input (binary)
  repeat_line  the two buffers after as many line calls as standard input asks for (binary)
  tapes DIR  the test tapes, each a file in the folder DIR
";

/// What a command does with the words after its name, standard input and standard output.
type Run = fn(&[OsString], &mut dyn Read, &mut dyn Write) -> Result<(), Failure>;

/// The commands: name, number of words after it, what is done.
const COMMANDS: [(&str, usize, Run); 13] = [
    ("counter", 0, |_, _, out| Ok(counter_report::write(out)?)),
    ("card_bytes", 0, |_, _, out| Ok(card_bytes::write(out)?)),
    ("chip_cases", 0, |_, _, out| chip_cases::write(out)),
    ("chip_sample", 0, |_, _, out| sample::write(out)),
    ("coverage", 0, |_, _, out| {
        Ok(out.write_all(coverage::text().as_bytes())?)
    }),
    ("chip", 0, |_, input, out| chip_report::write(input, out)),
    ("demand3", 0, |_, input, out| {
        demand3_report::write(out, &runs_of(input)?)
    }),
    ("reflection", 0, |_, input, out| {
        reflection_report::write(input, out)
    }),
    ("listing", 0, |_, input, out| {
        Ok(listing::write(input, out)?)
    }),
    ("line_bytes", 0, |_, input, out| {
        Ok(line_bytes::write(input, out)?)
    }),
    ("clock_bytes", 0, |_, input, out| {
        Ok(clock_bytes::write(input, out)?)
    }),
    ("repeat_line", 0, |_, input, out| {
        Ok(repeat_line::write(input, out)?)
    }),
    ("tapes", 1, |words, _, _| {
        test_tapes::write_into(Path::new(&words[0]))
    }),
];

/// The runs of the case file on an input, each with its record's number. Fails at a record that
/// cannot be read.
fn runs_of(input: &mut dyn Read) -> Result<Vec<(usize, RunCase)>, Failure> {
    let file = bytes_of_input(input, usize::MAX);
    let mut runs = Vec::new();
    for (number, case) in cases_of(&file).enumerate() {
        if let Case::Run(run) = case? {
            runs.push((number, run));
        }
    }
    Ok(runs)
}

/// What the words ask for; none if they are not a known name with its number of words after it.
fn chosen(words: &[OsString]) -> Option<Run> {
    let (name, rest) = words.split_first()?;
    let known = |command: &&(&str, usize, Run)| name == command.0 && rest.len() == command.1;
    COMMANDS.iter().find(known).map(|command| command.2)
}

/// Does the command that the words name and answers the exit status: 0 for a whole output, and for
/// a write error on it, which only ends it; 1 for what is missing or false or cannot be written; 2
/// without a known command. What is wrong, or the usage, is written to the error output.
fn run(words: &[OsString], out: &mut dyn Write, errors: &mut dyn Write) -> u8 {
    let done = chosen(words).map(|run| run(&words[1..], &mut io::stdin().lock(), out));
    let (status, text) = match done {
        Some(Ok(()) | Err(Failure::WriteError)) => (0, String::new()),
        Some(Err(Failure::Named(text))) => (1, text),
        None => (2, USAGE.to_string()),
    };
    let _ = errors.write_all(text.as_bytes());
    status
}

/// Does the command that the program's words name.
fn main() -> ExitCode {
    let words: Vec<OsString> = env::args_os().skip(1).collect();
    let mut out = BufWriter::new(io::stdout().lock());
    ExitCode::from(run(&words, &mut out, &mut io::stderr()))
}

#[cfg(test)]
mod command_tests {
    use super::*;

    /// The status for these words, with an output of so many bytes at most, and the errors.
    fn status(words: &[&str], room: usize) -> (u8, String) {
        let words: Vec<OsString> = words.iter().map(OsString::from).collect();
        let mut errors = Vec::new();
        let status = run(&words, &mut &mut vec![0; room][..], &mut errors);
        (status, String::from_utf8(errors).unwrap())
    }

    #[test]
    fn only_named_things_and_unknown_words_fail() {
        let whole_and_cut = [status(&["counter"], 100_000), status(&["counter"], 9)];
        assert_eq!(whole_and_cut, [(0, "".into()), (0, "".into())]);
        let (failed, text) = status(&["tapes", "/no/such/folder"], 0);
        assert_eq!((failed, text.lines().count()), (1, 1));
        assert!(text.starts_with("cannot write /no/such/folder/"));
        let unknown: [&[&str]; 5] = [
            &[],
            &["Chip"],
            &["chip", "a"],
            &["tapes"],
            &["tapes", "a", "b"],
        ];
        for words in unknown {
            assert_eq!(status(words, 9), (2, USAGE.to_string()));
        }
    }

    #[test]
    fn every_command_is_in_the_usage_in_its_place() {
        let names = USAGE
            .lines()
            .skip(2)
            .filter_map(|line| line.split(' ').nth(2));
        assert_eq!(
            COMMANDS.map(|command| command.0).to_vec(),
            names.collect::<Vec<_>>()
        );
    }
}
