//! `reference-serial [FILE]`: what `serial` does, by the reference.

use std::env;
use std::fs;
use std::io::{self, Write};
use std::process::ExitCode;

use reference::serial;

fn main() -> ExitCode {
    let file = env::args_os().nth(1).unwrap_or_else(|| "line".into());
    let log = match fs::read(&file) {
        Ok(log) => log,
        Err(error) => {
            eprintln!("{}: {error}", file.display());
            return ExitCode::FAILURE;
        }
    };
    let answer = serial::answer(&log);
    eprint!("{}", answer.stderr);
    match io::stdout().write_all(answer.stdout.as_bytes()) {
        Ok(()) => ExitCode::from(answer.status),
        Err(error) => {
            eprintln!("standard output: {error}");
            ExitCode::FAILURE
        }
    }
}
