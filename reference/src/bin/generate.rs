//! `generate SEED [--orders N]`: writes a random log to standard output.

use std::env;
use std::io::{self, Write};
use std::process::ExitCode;

use reference::generate;

const USAGE: &str = "usage: generate SEED [--orders N]";

fn main() -> ExitCode {
    let arguments: Vec<String> = env::args().skip(1).collect();
    let Some((seed, orders)) = parse(&arguments) else {
        eprintln!("{USAGE}");
        return ExitCode::from(2);
    };
    let log = generate::log(seed, orders);
    match io::stdout().write_all(&log) {
        Ok(()) => ExitCode::SUCCESS,
        Err(error) => {
            eprintln!("generate: {error}");
            ExitCode::FAILURE
        }
    }
}

fn parse(arguments: &[String]) -> Option<(u64, Option<usize>)> {
    match arguments {
        [seed] => Some((seed.parse().ok()?, None)),
        [seed, name, orders] if name == "--orders" => {
            Some((seed.parse().ok()?, Some(orders.parse().ok()?)))
        }
        _ => None,
    }
}
