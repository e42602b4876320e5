//! `reference-solo HOUSE LINE SCRIPT`: what `solo` does, by the reference.

use std::env;
use std::ffi::OsString;
use std::fs;
use std::io::{self, Write};
use std::process::ExitCode;

use reference::answer::Answer;
use reference::house::HOUSES;
use reference::solo;

fn main() -> ExitCode {
    let arguments: Vec<OsString> = env::args_os().skip(1).collect();
    let answer = match answer(&arguments) {
        Ok(answer) => answer,
        Err(message) => {
            eprintln!("reference-solo: {message}");
            return ExitCode::FAILURE;
        }
    };
    match io::stdout().write_all(answer.stdout.as_bytes()) {
        Ok(()) => ExitCode::from(answer.status),
        Err(error) => {
            eprintln!("reference-solo: standard output: {error}");
            ExitCode::FAILURE
        }
    }
}

fn answer(arguments: &[OsString]) -> Result<Answer, String> {
    let [house, line, script] = arguments else {
        return Err("usage: reference-solo HOUSE LINE SCRIPT".to_string());
    };
    let house = house
        .to_str()
        .and_then(solo::number)
        .filter(|house| *house < HOUSES)
        .ok_or("HOUSE is a number from 0 to 15")?;
    Ok(solo::answer(house, &read(line)?, &read(script)?))
}

fn read(file: &OsString) -> Result<Vec<u8>, String> {
    fs::read(file).map_err(|error| format!("{}: {error}", file.display()))
}
