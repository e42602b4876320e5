//! `time [--stdout] RUNS PROGRAM BASELINE DIRECTORY ORDERS... [-- ARGUMENT...]`:
//! runs both programs on the logs `DIRECTORY/ORDERS`, each of which has so many
//! orders, and prints the best time of each, their ratio, and how the time per
//! order grows from each log to the next. A log is the last argument of a
//! program, behind the given ones.
//!
//! The time is that of the whole process, its output going to files. The status
//! is 1 if the two programs do not answer the same. With `--stdout` what they
//! write to standard error may differ.

use std::env;
use std::fs::{self, File};
use std::io;
use std::path::{Path, PathBuf};
use std::process::{Command, ExitCode};
use std::time::{Duration, Instant};

const USAGE: &str =
    "usage: time [--stdout] RUNS PROGRAM BASELINE DIRECTORY ORDERS... [-- ARGUMENT...]";

/// What is measured.
struct Plan {
    runs: usize,
    /// The program that is measured, and the one that it is measured against.
    programs: [PathBuf; 2],
    /// What comes before the log.
    arguments: Vec<String>,
    /// What has to be the same.
    streams: &'static [&'static str],
    /// Each with the number of its orders.
    logs: Vec<(u64, PathBuf)>,
}

/// The best times of the two programs on a log.
struct Best {
    orders: u64,
    times: [Duration; 2],
}

fn main() -> ExitCode {
    let arguments: Vec<String> = env::args().skip(1).collect();
    let Some(plan) = parse(&arguments) else {
        eprintln!("{USAGE}");
        return ExitCode::from(2);
    };
    let mut best_of_logs = Vec::new();
    for (orders, log) in &plan.logs {
        match best_times(&plan, log) {
            Ok(Some(times)) => best_of_logs.push(Best { orders: *orders, times }),
            Ok(None) => {
                println!("{orders} orders: the programs do not answer the same");
                return ExitCode::FAILURE;
            }
            Err(error) => {
                eprintln!("time: {error}");
                return ExitCode::from(2);
            }
        }
    }
    report(&plan, &best_of_logs);
    ExitCode::SUCCESS
}

fn parse(arguments: &[String]) -> Option<Plan> {
    let (arguments, streams): (_, &[_]) = match arguments {
        [first, rest @ ..] if first == "--stdout" => (rest, &["stdout"]),
        _ => (arguments, &["stdout", "stderr"]),
    };
    let mut parts = arguments.splitn(2, |argument| argument == "--");
    let [runs, program, baseline, directory, logs @ ..] = parts.next()? else { return None };
    let log = |orders: &String| Some((orders.parse().ok()?, Path::new(directory).join(orders)));
    Some(Plan {
        runs: runs.parse().ok()?,
        programs: [program.into(), baseline.into()],
        arguments: parts.next().unwrap_or_default().to_vec(),
        streams,
        logs: logs.iter().map(log).collect::<Option<_>>()?,
    })
}

/// Runs the programs in turn, so that what else the machine does falls on both.
/// `None` if they do not answer the same.
fn best_times(plan: &Plan, log: &Path) -> io::Result<Option<[Duration; 2]>> {
    let mut best = [Duration::MAX; 2];
    for _ in 0..plan.runs {
        for (program, best) in best.iter_mut().enumerate() {
            *best = run(plan, program, log)?.min(*best);
        }
        for stream in plan.streams {
            if fs::read(output(0, log, stream))? != fs::read(output(1, log, stream))? {
                return Ok(None);
            }
        }
    }
    Ok(Some(best))
}

/// The file for what a program writes.
fn output(program: usize, log: &Path, stream: &str) -> PathBuf {
    log.with_extension(format!("{program}.{stream}"))
}

fn run(plan: &Plan, program: usize, log: &Path) -> io::Result<Duration> {
    let stdout = File::create(output(program, log, "stdout"))?;
    let stderr = File::create(output(program, log, "stderr"))?;
    let path = &plan.programs[program];
    let mut command = Command::new(path);
    command.args(&plan.arguments).arg(log).stdout(stdout).stderr(stderr);
    let start = Instant::now();
    let status = command.status()?;
    let time = start.elapsed();
    if !status.success() {
        return Err(io::Error::other(format!("{} ended with {status}", path.display())));
    }
    Ok(time)
}

fn report(plan: &Plan, best_of_logs: &[Best]) {
    let program = plan.programs[0].file_name().unwrap_or_default().to_string_lossy();
    let names = [&program, "baseline"];
    let width = names.map(str::len).into_iter().max().unwrap_or(0);
    for Best { orders, times } in best_of_logs {
        println!("{orders} orders, best of {} runs:", plan.runs);
        let times = times.map(|time| time.as_secs_f64());
        for (name, time) in names.iter().zip(times) {
            let rate = *orders as f64 / time;
            println!("  {name:<width$} {time:8.3} s {rate:12.0} orders/s");
        }
        println!("  {program} takes {:.2} times as long as the baseline", times[0] / times[1]);
    }
    for pair in best_of_logs.windows(2) {
        let [few, many] = pair else { continue };
        println!("time per order at {} orders over that at {}:", many.orders, few.orders);
        for (index, name) in names.iter().enumerate() {
            let per_order = |best: &Best| best.times[index].as_secs_f64() / best.orders as f64;
            println!("  {name:<width$} {:8.2}", per_order(many) / per_order(few));
        }
    }
}
