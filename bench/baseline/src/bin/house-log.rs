//! `house-log KIND ORDERS SEED HOUSE`: writes a log to standard output, for
//! measuring one house. Each order reads its keys and writes them all.
//!
//! - `apart`: three keys of the house, drawn at random among its 4,096
//! - `hot`: three such keys and the last one of the house, which is always the
//!   same
//! - `five`: five keys of five different houses, all drawn at random

use std::env;
use std::io::{self, BufWriter};
use std::process::ExitCode;

use baseline::house::HOUSES;
use baseline::sales::{Random, sale, small_sale, write_log};

/// The keys of a house are those that leave its number; a row for each.
const ROWS: u64 = 4096;

fn main() -> ExitCode {
    let arguments: Vec<String> = env::args().skip(1).collect();
    let Some((kind, orders, seed, house)) = parse(&arguments) else {
        eprintln!("usage: house-log apart|hot|five ORDERS SEED HOUSE");
        return ExitCode::from(2);
    };
    let mut random = Random::new(seed);
    let draw = || kind.draw(&mut random, house);
    match write_log(orders, draw, BufWriter::new(io::stdout().lock())) {
        Ok(()) => ExitCode::SUCCESS,
        Err(error) => {
            eprintln!("house-log: {error}");
            ExitCode::FAILURE
        }
    }
}

fn parse(arguments: &[String]) -> Option<(Kind, u64, u64, u64)> {
    let [kind, orders, seed, house] = arguments else { return None };
    let kind = match kind.as_str() {
        "apart" => Kind::Apart,
        "hot" => Kind::Hot,
        "five" => Kind::Five,
        _ => return None,
    };
    let house = house.parse().ok().filter(|house| *house < u64::from(HOUSES))?;
    Some((kind, orders.parse().ok()?, seed.parse().ok()?, house))
}

#[derive(Clone, Copy)]
enum Kind {
    Apart,
    Hot,
    Five,
}

impl Kind {
    fn draw(self, random: &mut Random, house: u64) -> Vec<u8> {
        match self {
            Kind::Apart => {
                let rows: [u64; 3] = different(random, ROWS);
                small_sale(random, &rows.map(|row| key(row, house)))
            }
            Kind::Hot => {
                let [a, b, c] = different(random, ROWS - 1);
                let rows = [a, b, c, ROWS - 1];
                small_sale(random, &rows.map(|row| key(row, house)))
            }
            Kind::Five => {
                let houses: [u64; 5] = different(random, HOUSES.into());
                let mut keys = houses.map(|house| key(random.below(ROWS), house));
                keys.sort_unstable();
                sale(random, keys)
            }
        }
    }
}

fn key(row: u64, house: u64) -> u16 {
    (row * u64::from(HOUSES) + house) as u16
}

/// So many different numbers below the bound, rising.
fn different<const COUNT: usize>(random: &mut Random, bound: u64) -> [u64; COUNT] {
    loop {
        let mut numbers = [0; COUNT].map(|_: u64| random.below(bound));
        numbers.sort_unstable();
        if numbers.windows(2).all(|pair| pair[0] < pair[1]) {
            return numbers;
        }
    }
}
