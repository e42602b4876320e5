//! What the program `solo` answers: a script, played on one house.
//!
//! The script is one command a line. Each line gets one line of answer, but for
//! empty ones, which get none.

use std::str::{FromStr, from_utf8};
use std::vec::IntoIter;

use crate::answer::Answer;
use crate::house::{House, Refusal, Task, Written};
use crate::log;
use crate::order::MOST_KEYS;

/// The answer to a whole script.
pub fn answer(house: u8, line: &[u8], script: &[u8]) -> Answer {
    let mut solo = Solo::new(house, line);
    let mut stdout = String::new();
    for command in script.split(|byte| *byte == b'\n') {
        if let Some(answer) = solo.play(command) {
            stdout += &answer;
            stdout.push('\n');
        }
    }
    Answer { stdout, stderr: String::new(), status: 0 }
}

/// The number that a word is: digits alone.
pub fn number<T: FromStr>(word: &str) -> Option<T> {
    if word.starts_with('+') { None } else { word.parse().ok() }
}

enum Command {
    Order,
    Look(usize),
    Write(usize),
    Told(u8, usize, Vec<u32>),
    Ready,
    Go(usize),
    Show(u16),
}

impl Command {
    fn parse(line: &[u8]) -> Option<Command> {
        let words: Vec<&str> = from_utf8(line).ok()?.split(' ').collect();
        match words.as_slice() {
            ["order"] => Some(Command::Order),
            ["look", place] => Some(Command::Look(size(place)?)),
            ["write", place] => Some(Command::Write(size(place)?)),
            ["told", house, place, values @ ..] if values.len() <= MOST_KEYS => {
                let values = values.iter().map(|value| number(value)).collect::<Option<_>>()?;
                Some(Command::Told(number(house)?, size(place)?, values))
            }
            ["ready"] => Some(Command::Ready),
            ["go", most] => Some(Command::Go(size(most)?)),
            ["show", key] => Some(Command::Show(number(key)?)),
            _ => None,
        }
    }
}

/// A place or a count: 32 bits are enough for both.
fn size(word: &str) -> Option<usize> {
    number::<u32>(word).map(|number| number as usize)
}

/// A house, the orders that it does not have yet, and how far the script has
/// been played.
pub struct Solo<'a> {
    house: House,
    to_come: IntoIter<&'a [u8]>,
    lines: usize,
}

impl<'a> Solo<'a> {
    pub fn new(house: u8, line: &'a [u8]) -> Solo<'a> {
        let to_come = log::split(line).orders.into_iter();
        Solo { house: House::new(house), to_come, lines: 0 }
    }

    pub fn house(&self) -> &House {
        &self.house
    }

    /// Plays the next line of the script and gives the answer to it, without its
    /// end of line. An empty line has none.
    pub fn play(&mut self, line: &[u8]) -> Option<String> {
        self.lines += 1;
        if line.is_empty() {
            return None;
        }
        Some(match Command::parse(line) {
            Some(command) => self.obey(command),
            None => format!("line {}: not understood", self.lines),
        })
    }

    fn obey(&mut self, command: Command) -> String {
        match command {
            Command::Order => match self.to_come.next() {
                Some(bytes) => format!("order {}", self.house.append(bytes)),
                None => "refused: no more orders".to_string(),
            },
            Command::Look(place) => match self.house.look(place) {
                Ok(noted) => {
                    let noted: Vec<String> = noted.iter().map(u32::to_string).collect();
                    format!("looked {place}: {}", noted.join(" "))
                }
                Err(refusal) => refused(refusal),
            },
            Command::Write(place) => match self.house.write(place) {
                Ok(written) => format!("wrote {place}: {}", written_text(&written)),
                Err(refusal) => refused(refusal),
            },
            Command::Told(from, place, values) => match self.house.told(from, place, &values) {
                Ok(()) => "kept".to_string(),
                Err(refusal) => refused(refusal),
            },
            Command::Ready => tasks_text("ready:", self.house.ready()),
            Command::Go(most) => tasks_text("did:", &self.house.go(most)),
            Command::Show(key) => match self.house.value(key) {
                Some(value) => format!("{key} {value}"),
                None => "refused: not a key of this house".to_string(),
            },
        }
    }
}

fn refused(refusal: Refusal) -> String {
    format!("refused {}", refusal.number())
}

fn written_text(written: &Written) -> String {
    match written {
        Some(written) => {
            let written: Vec<String> =
                written.iter().map(|(key, value)| format!("{key}={value}")).collect();
            written.join(" ")
        }
        None => "nothing".to_string(),
    }
}

fn tasks_text(name: &str, tasks: &[Task]) -> String {
    let mut text = name.to_string();
    for task in tasks {
        text += &format!(" {task}");
    }
    text
}

#[cfg(test)]
mod tests {
    use super::*;

    /// Place 0: key 3 becomes key 3 + key 20. Place 1: stops, and would write
    /// key 3. Place 2 is malformed. Then a tail.
    const LINE: [u8; 37] = [
        0, 18, 2, 0, 3, 0, 20, 2, 0, 3, 0, 19, 2, 1, 2, 0, 1, 7, 0, 2, //
        0, 6, 0, 1, 0, 3, 1, 8, //
        0, 1, 9, //
        0, 7, 1, 0, 3, 0,
    ];

    #[track_caller]
    fn check(script: &str, expected: &str) {
        assert_eq!(answer(3, &LINE, script.as_bytes()).stdout, expected);
    }

    #[test]
    fn a_house_plays_its_part() {
        check(
            "order\nlook 0\ntold 4 0 5\nready\norder\n\ngo 1\nshow 3\nready\nwrite 1\nready\n\
             order\norder\nshow 4\nshow 19",
            "order 0\nlooked 0: 0\nkept\nready: write 0\norder 1\ndid: write 0\n3 5\n\
             ready: write 1\nwrote 1: nothing\nready:\norder 2\nrefused: no more orders\n\
             refused: not a key of this house\n19 0\n",
        );
        check(
            "order\ntold 4 0 7\ngo 4294967295\nwrite 0\nwrite 0\ntold 4 0 7\ntold 255 0 7\n",
            "order 0\nkept\ndid: look 0\nwrote 0: 3=7 19=0\nrefused 5\nrefused 4\nrefused 2\n",
        );
    }

    #[test]
    fn lines_that_are_not_understood() {
        let lines = [
            "Order",
            " order",
            "order ",
            "order 0",
            "look",
            "look  0",
            "look +0",
            "look -0",
            "look 4294967296",
            "look 0 0",
            "write x",
            "told",
            "told 4",
            "told 256 0 1",
            "told 4 0 1 ",
            "told 4 0 4294967296",
            "told 4 0 1 2 3 4 5 6 7 8 9 10 11 12 13 14 15 16 17",
            "ready 0",
            "go",
            "show 65536",
            "order\r",
            " ",
        ];
        for line in lines {
            check(&format!("\n{line}\nready"), "line 2: not understood\nready:\n");
        }
        check("told 4 0\nlook 00000000000\ngo 007", "refused 3\nrefused 5\ndid:\n");
        assert_eq!(answer(3, &LINE, b"look \xff\n").stdout, "line 1: not understood\n");
    }
}
