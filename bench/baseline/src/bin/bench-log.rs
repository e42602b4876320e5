//! `bench-log ORDERS SEED`: writes a log to standard output, of orders shaped
//! like sales: each reads five keys, writes the same five and has 24
//! instructions. Nearly all orders go on to their end.
//!
//! The keys of buyers, growers, trolleys and deposits each fill a quarter of
//! all keys, less a few for the clocks, which are hot. Some buyers are hot too.

use std::env;
use std::io::{self, BufWriter};
use std::process::ExitCode;

use baseline::sales::{Random, sale, write_log};

const QUARTER: u64 = 16384;
const CLOCKS: u64 = 64;
const HOT_BUYERS: u64 = 256;

fn main() -> ExitCode {
    let arguments: Vec<String> = env::args().skip(1).collect();
    let Some((orders, seed)) = parse(&arguments) else {
        eprintln!("usage: bench-log ORDERS SEED");
        return ExitCode::from(2);
    };
    let mut random = Random::new(seed);
    let draw = || {
        let keys = keys(&mut random);
        sale(&mut random, keys)
    };
    match write_log(orders, draw, BufWriter::new(io::stdout().lock())) {
        Ok(()) => ExitCode::SUCCESS,
        Err(error) => {
            eprintln!("bench-log: {error}");
            ExitCode::FAILURE
        }
    }
}

fn parse(arguments: &[String]) -> Option<(u64, u64)> {
    match arguments {
        [orders, seed] => Some((orders.parse().ok()?, seed.parse().ok()?)),
        _ => None,
    }
}

/// Rising, since the quarters are.
fn keys(random: &mut Random) -> [u16; 5] {
    let buyers = if random.below(10) == 0 { HOT_BUYERS } else { QUARTER };
    [
        random.below(buyers),
        QUARTER + random.below(QUARTER),
        2 * QUARTER + random.below(QUARTER),
        3 * QUARTER + random.below(QUARTER - CLOCKS),
        4 * QUARTER - CLOCKS + random.below(CLOCKS),
    ]
    .map(|key| key as u16)
}
