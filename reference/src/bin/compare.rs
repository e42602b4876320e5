//! `compare SERIAL`: runs the program at the path SERIAL on many logs and
//! compares what it answers with what the reference answers.
//!
//! The status is 0 if all is the same, 1 at a difference, 2 if the comparison
//! could not be made.

use std::env;
use std::path::Path;
use std::process::ExitCode;

use reference::answer::Expected;
use reference::compare::{Case, File, compare, report};
use reference::{generate, serial};

/// The seeds 0, 1, 2 and so on, each a whole log.
const LOGS: u64 = 300;

/// The first of these logs are also given as the file `line`.
const LINES: u64 = 12;

/// So many small logs are also cut at every byte.
const CUT_LOGS: usize = 6;
const CUT_ORDERS: usize = 5;
const CUT_LENGTHS: std::ops::RangeInclusive<usize> = 150..=400;

/// Arguments that are wrong, or name what is no file that can be read; and how
/// the line begins that says so.
const WRONG: [(&[&str], &str); 5] = [
    (&["line", "line"], "serial: more than one argument: see 'serial --help'"),
    (&["--help", "line"], "serial: more than one argument: see 'serial --help'"),
    (&["nothing"], "serial: nothing: "),
    (&["no/such/folder"], "serial: no/such/folder: "),
    (&["."], "serial: .: "),
];

fn main() -> ExitCode {
    let arguments: Vec<_> = env::args_os().skip(1).collect();
    let [program] = arguments.as_slice() else {
        eprintln!("usage: compare SERIAL");
        return ExitCode::from(2);
    };
    let logs = logs();
    let cuts = cuts();
    let wrong = wrong_arguments();
    let counted = format!("{LOGS} logs, {} cuts and {} wrong calls", cuts.len(), wrong.len());
    let cases: Vec<Case> = logs.into_iter().chain(cuts).chain(wrong).collect();
    report(&counted, compare(Path::new(program), &cases, expected))
}

fn expected(case: &Case) -> Expected {
    match WRONG.iter().find(|(arguments, _)| case.arguments == *arguments) {
        Some((_, words)) => Expected::Failure(words),
        None => Expected::Answer(serial::answer(&case.files[0].bytes)),
    }
}

/// The program is told by its argument which log to take.
fn as_argument(name: String, log: Vec<u8>) -> Case {
    Case { name, files: vec![File::new("log", log)], arguments: vec!["log".to_string()] }
}

/// The program is told nothing, and takes the log of its own accord.
fn as_line(name: String, log: Vec<u8>) -> Case {
    Case { name, files: vec![File::new("line", log)], arguments: Vec::new() }
}

fn logs() -> Vec<Case> {
    let mut cases = Vec::new();
    for seed in 0..LOGS {
        let name = format!("seed-{seed}");
        let log = generate::log(seed, None);
        if seed < LINES {
            cases.push(as_line(format!("{name}-as-line"), log.clone()));
        }
        cases.push(as_argument(name, log));
    }
    cases
}

fn wrong_arguments() -> Vec<Case> {
    let case = |(number, (arguments, _)): (usize, &(&[&str], &str))| Case {
        name: format!("wrong-arguments-{number}"),
        files: vec![File::new("line", Vec::new())],
        arguments: arguments.iter().map(|argument| argument.to_string()).collect(),
    };
    WRONG.iter().enumerate().map(case).collect()
}

/// Every cut of some small logs, from no bytes to the whole.
fn cuts() -> Vec<Case> {
    let mut cases = Vec::new();
    let small = (0..)
        .map(|seed| (seed, generate::log(seed, Some(CUT_ORDERS))))
        .filter(|(_, log)| CUT_LENGTHS.contains(&log.len()))
        .take(CUT_LOGS);
    for (seed, log) in small {
        for length in 0..=log.len() {
            let name = format!("seed-{seed}-orders-{CUT_ORDERS}-cut-{length}");
            cases.push(as_argument(name, log[..length].to_vec()));
        }
    }
    cases
}
