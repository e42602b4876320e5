//! What `solo` does, by the same way, to measure against:
//!
//! - `baseline-solo --bench HOUSE LINE`: the house gets the log, so many orders
//!   at a time, and does what it can
//! - `baseline-solo HOUSE LINE SCRIPT`: plays a script on the house, so that its
//!   answers can be compared

use std::env;
use std::fmt::Write as _;
use std::fs::{self, File};
use std::io::{self, BufReader, ErrorKind, Read, Write};
use std::process::ExitCode;
use std::str::{FromStr, from_utf8};

use baseline::house::{HOUSES, House, Refused, Task};

/// In the benchmark the house gets so many orders at a time.
const BATCH: usize = 1000;
/// How many bytes are read at once.
const PIECE: usize = 131_072;
const MOST_VALUES: usize = 16;

fn main() -> ExitCode {
    let arguments: Vec<String> =
        env::args_os().skip(1).map(|argument| argument.to_string_lossy().into_owned()).collect();
    let arguments: Vec<&str> = arguments.iter().map(String::as_str).collect();
    match answer(&arguments).and_then(|answer| print(&answer)) {
        Ok(()) => ExitCode::SUCCESS,
        Err(message) => {
            eprintln!("baseline-solo: {message}");
            ExitCode::FAILURE
        }
    }
}

fn answer(arguments: &[&str]) -> Result<String, String> {
    match *arguments {
        ["--bench", house, line] => {
            let house = new_house(house)?;
            Orders::open(line).and_then(|orders| bench(house, orders)).map_err(about(line))
        }
        [house, line, script] => {
            let house = new_house(house)?;
            let script_bytes = fs::read(script).map_err(about(script))?;
            let play = |orders| play(house, orders, &script_bytes);
            Orders::open(line).and_then(play).map_err(about(line))
        }
        _ => Err("usage: baseline-solo --bench HOUSE LINE, or HOUSE LINE SCRIPT".to_string()),
    }
}

fn about(file: &str) -> impl Fn(io::Error) -> String {
    move |error| format!("{file}: {error}")
}

fn new_house(number: &str) -> Result<House, String> {
    let number = parse(number).filter(|number| *number < HOUSES);
    number.map(House::new).ok_or("HOUSE is a number from 0 to 15".to_string())
}

fn print(answer: &str) -> Result<(), String> {
    io::stdout().write_all(answer.as_bytes()).map_err(|error| format!("standard output: {error}"))
}

/// The orders of a log, one after another.
struct Orders {
    file: BufReader<File>,
    order: Vec<u8>,
}

impl Orders {
    fn open(path: &str) -> io::Result<Orders> {
        let file = BufReader::with_capacity(PIECE, File::open(path)?);
        Ok(Orders { file, order: Vec::new() })
    }

    /// The bytes of the next order, or `None` where there is no whole one more.
    fn next(&mut self) -> io::Result<Option<&[u8]>> {
        let mut length = [0; 2];
        let read = self.file.read_exact(&mut length).and_then(|()| {
            self.order.resize(usize::from(u16::from_be_bytes(length)), 0);
            self.file.read_exact(&mut self.order)
        });
        match read {
            Ok(()) => Ok(Some(&self.order)),
            Err(error) if error.kind() == ErrorKind::UnexpectedEof => Ok(None),
            Err(error) => Err(error),
        }
    }
}

fn bench(mut house: House, mut orders: Orders) -> io::Result<String> {
    let (mut looks, mut writes) = (0u64, 0u64);
    let mut more = true;
    while more {
        for _ in 0..BATCH {
            match orders.next()? {
                Some(order) => house.append(order),
                None => {
                    more = false;
                    break;
                }
            }
        }
        let mut idle = false;
        while !idle {
            idle = true;
            house.go(4_000_000_000, |task| {
                idle = false;
                match task {
                    Task::Look(_) => looks += 1,
                    Task::Write(_) => writes += 1,
                }
            });
        }
    }
    eprintln!("memory {}", house.memory());
    let mut text = format!("orders {} looks {looks} writes {writes}\n", house.places());
    for (key, value) in house.not_zero() {
        let _ = writeln!(text, "{key} {value}");
    }
    Ok(text)
}

fn play(house: House, orders: Orders, script: &[u8]) -> io::Result<String> {
    let mut player = Player { house, orders };
    let mut text = String::new();
    for (number, command) in (1..).zip(script.split(|byte| *byte == b'\n')) {
        if command.is_empty() {
            continue;
        }
        if command == b"order" {
            text += &player.order()?;
        } else {
            match player.obey(command) {
                Some(Ok(answer)) => text += &answer,
                Some(Err(Refused(number))) => text += &format!("refused {number}"),
                None => text += &format!("line {number}: not understood"),
            }
        }
        text.push('\n');
    }
    Ok(text)
}

struct Player {
    house: House,
    orders: Orders,
}

impl Player {
    /// `None` if the command is not understood.
    fn obey(&mut self, command: &[u8]) -> Option<Result<String, Refused>> {
        let words: Vec<&str> = from_utf8(command).ok()?.split(' ').collect();
        Some(match *words.as_slice() {
            ["look", place] => self.look(parse(place)?),
            ["write", place] => self.write(parse(place)?),
            ["told", from, place, ref values @ ..] if values.len() <= MOST_VALUES => {
                let values: Option<Vec<u32>> = values.iter().map(|value| parse(value)).collect();
                let told = self.house.told(parse(from)?, parse(place)?, &values?);
                told.map(|()| "kept".to_string())
            }
            ["ready"] => {
                Ok("ready:".to_string() + &self.house.ready().map(name).collect::<String>())
            }
            ["go", most] => {
                let mut text = "did:".to_string();
                self.house.go(parse(most)?, |task| text += &name(task));
                Ok(text)
            }
            ["show", key] => {
                let key = parse(key)?;
                Ok(match self.house.value(key) {
                    Some(value) => format!("{key} {value}"),
                    None => "refused: not a key of this house".to_string(),
                })
            }
            _ => return None,
        })
    }

    fn order(&mut self) -> io::Result<String> {
        let Some(order) = self.orders.next()? else {
            return Ok("refused: no more orders".to_string());
        };
        self.house.append(order);
        Ok(format!("order {}", self.house.places() - 1))
    }

    fn look(&mut self, place: u32) -> Result<String, Refused> {
        let mut text = format!("looked {place}:");
        for value in self.house.look(place)? {
            text += &format!(" {value}");
        }
        Ok(text)
    }

    fn write(&mut self, place: u32) -> Result<String, Refused> {
        let mut text = format!("wrote {place}:");
        let Some(keys) = self.house.write(place)?.map(Vec::from_iter) else {
            return Ok(text + " nothing");
        };
        for key in keys {
            let value = self.house.value(key).unwrap_or(0);
            text += &format!(" {key}={value}");
        }
        Ok(text)
    }
}

fn name(task: Task) -> String {
    match task {
        Task::Look(place) => format!(" look {place}"),
        Task::Write(place) => format!(" write {place}"),
    }
}

/// The number that a word is: digits alone.
fn parse<T: FromStr>(word: &str) -> Option<T> {
    if word.starts_with('+') { None } else { word.parse().ok() }
}
