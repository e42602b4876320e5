//! Runs a program in many cases and compares its answers with expected ones.

use std::fs;
use std::io;
use std::path::{Path, PathBuf};
use std::process::{Command, ExitCode, Output, Stdio, id};
use std::sync::atomic::{AtomicBool, AtomicUsize, Ordering};
use std::thread;

use crate::answer::{Expected, difference};

/// Every run is a process, and the machine may be small.
const WORKERS: usize = 2;

/// One run of the program.
pub struct Case {
    /// Fits a file name.
    pub name: String,
    /// The program runs where these files lie, and nothing else.
    pub files: Vec<File>,
    pub arguments: Vec<String>,
}

pub struct File {
    pub name: &'static str,
    pub bytes: Vec<u8>,
}

impl File {
    pub fn new(name: &'static str, bytes: Vec<u8>) -> File {
        File { name, bytes }
    }
}

/// A case in which the program did not do what was expected.
pub struct Failure {
    pub case: String,
    pub difference: String,
    /// Where the files of the case are kept.
    pub files: PathBuf,
}

/// Runs the program on the cases until one fails. `expected` is what it should
/// do in a case. Each worker may come upon a failure, so there may be more than
/// one.
pub fn compare(
    program: &Path,
    cases: &[Case],
    expected: impl Fn(&Case) -> Expected + Sync,
) -> io::Result<Vec<Failure>> {
    // The program runs in another directory, so its path must be whole.
    let program = program.canonicalize()?;
    let directory = std::env::temp_dir().join(format!("reference-compare-{}", id()));
    fs::create_dir_all(&directory)?;
    let shared = Shared {
        program,
        directory,
        cases,
        expected,
        next: AtomicUsize::new(0),
        failed: AtomicBool::new(false),
    };
    let failures = work_together(&shared);
    if !matches!(&failures, Ok(failures) if !failures.is_empty()) {
        fs::remove_dir_all(&shared.directory)?;
    }
    failures
}

/// What all workers use.
struct Shared<'a, Expect> {
    program: PathBuf,
    /// Holds a directory for each case that is run or has failed.
    directory: PathBuf,
    cases: &'a [Case],
    expected: Expect,
    /// The next case that no worker has taken.
    next: AtomicUsize,
    failed: AtomicBool,
}

fn work_together<Expect>(shared: &Shared<Expect>) -> io::Result<Vec<Failure>>
where
    Expect: Fn(&Case) -> Expected + Sync,
{
    let results: Vec<io::Result<Option<Failure>>> = thread::scope(|scope| {
        let workers: Vec<_> = (0..WORKERS).map(|_| scope.spawn(|| shared.work())).collect();
        workers.into_iter().map(|worker| worker.join().expect("a worker does not panic")).collect()
    });
    let mut failures = Vec::new();
    for result in results {
        failures.extend(result?);
    }
    Ok(failures)
}

impl<Expect: Fn(&Case) -> Expected> Shared<'_, Expect> {
    /// Takes cases until there are no more or one has failed.
    fn work(&self) -> io::Result<Option<Failure>> {
        while !self.failed.load(Ordering::Relaxed) {
            let Some(case) = self.cases.get(self.next.fetch_add(1, Ordering::Relaxed)) else {
                break;
            };
            let failure = self.check(case)?;
            if failure.is_some() {
                self.failed.store(true, Ordering::Relaxed);
                return Ok(failure);
            }
        }
        Ok(None)
    }

    fn check(&self, case: &Case) -> io::Result<Option<Failure>> {
        let directory = self.directory.join(&case.name);
        fs::create_dir(&directory)?;
        for file in &case.files {
            fs::write(directory.join(file.name), &file.bytes)?;
        }
        let got = self.run(case, &directory)?;
        let Some(difference) = difference(&(self.expected)(case), &got) else {
            fs::remove_dir_all(&directory)?;
            return Ok(None);
        };
        Ok(Some(Failure { case: case.name.clone(), difference, files: directory }))
    }

    fn run(&self, case: &Case, directory: &Path) -> io::Result<Output> {
        Command::new(&self.program)
            .args(&case.arguments)
            .current_dir(directory)
            .stdin(Stdio::null())
            .output()
    }
}

/// Says what the comparison came to. `counted` are the cases in words.
pub fn report(counted: &str, failures: io::Result<Vec<Failure>>) -> ExitCode {
    match failures {
        Ok(failures) if failures.is_empty() => {
            println!("compared {counted}: all the same");
            ExitCode::SUCCESS
        }
        Ok(failures) => {
            for failure in failures {
                println!("{}: {}", failure.case, failure.difference);
                println!("  the files are kept in {}", failure.files.display());
            }
            ExitCode::FAILURE
        }
        Err(error) => {
            eprintln!("cannot compare: {error}");
            ExitCode::from(2)
        }
    }
}
