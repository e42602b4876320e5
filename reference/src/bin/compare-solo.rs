//! `compare-solo SOLO`: runs the program at the path SOLO on many schedules and
//! compares what it answers with what the reference answers.
//!
//! The status is 0 if all is the same, 1 at a difference, 2 if the comparison
//! could not be made.

use std::env;
use std::path::Path;
use std::process::ExitCode;

use reference::answer::Expected;
use reference::compare::{Case, File, compare, report};
use reference::schedule::schedule;
use reference::solo;

/// The seeds 0, 1, 2 and so on, each a log, a house and a script.
const SCHEDULES: u64 = 1000;

const ARGUMENTS: &str = "solo: three arguments are wanted: see 'solo --help'";
const HOUSE: &str = "solo: HOUSE is a number from 0 to 15";

/// Arguments that are wrong, or name a file that is not there; and how the line
/// begins that says so.
const WRONG: [(&[&str], &str); 12] = [
    (&[], ARGUMENTS),
    (&["3"], ARGUMENTS),
    (&["3", "line"], ARGUMENTS),
    (&["3", "line", "script", "script"], ARGUMENTS),
    (&["16", "line", "script"], HOUSE),
    (&["256", "line", "script"], HOUSE),
    (&["-1", "line", "script"], HOUSE),
    (&["+3", "line", "script"], HOUSE),
    (&["x", "line", "script"], HOUSE),
    (&["", "line", "script"], HOUSE),
    (&["3", "nothing", "script"], "solo: nothing: "),
    (&["3", "line", "nothing"], "solo: nothing: "),
];

fn main() -> ExitCode {
    let arguments: Vec<_> = env::args_os().skip(1).collect();
    let [program] = arguments.as_slice() else {
        eprintln!("usage: compare-solo SOLO");
        return ExitCode::from(2);
    };
    let wrong = wrong_arguments();
    let counted = format!("{SCHEDULES} schedules and {} wrong calls", wrong.len());
    let cases: Vec<Case> = schedules().into_iter().chain(wrong).collect();
    report(&counted, compare(Path::new(program), &cases, expected))
}

fn expected(case: &Case) -> Expected {
    let [line, script] = case.files.as_slice() else { unreachable!("each case has two files") };
    if let Some((_, words)) = WRONG.iter().find(|(arguments, _)| case.arguments == *arguments) {
        return Expected::Failure(words);
    }
    let house = case.arguments[0].parse().expect("the house of a schedule is a number");
    Expected::Answer(solo::answer(house, &line.bytes, &script.bytes))
}

fn schedules() -> Vec<Case> {
    let mut cases = Vec::new();
    for seed in 0..SCHEDULES {
        let schedule = schedule(seed);
        let house = schedule.house.to_string();
        cases.push(Case {
            name: format!("seed-{seed}-house-{house}"),
            files: vec![File::new("line", schedule.line), File::new("script", schedule.script)],
            arguments: vec![house, "line".to_string(), "script".to_string()],
        });
    }
    cases
}

fn wrong_arguments() -> Vec<Case> {
    let mut cases = Vec::new();
    for (number, (arguments, _)) in WRONG.iter().enumerate() {
        cases.push(Case {
            name: format!("wrong-arguments-{number}"),
            files: vec![File::new("line", Vec::new()), File::new("script", b"ready\n".to_vec())],
            arguments: arguments.iter().map(|argument| argument.to_string()).collect(),
        });
    }
    cases
}
