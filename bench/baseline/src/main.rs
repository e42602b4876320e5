//! `baseline [FILE]`: what `serial` does, by the same way, to measure against.

use std::env;
use std::fs::File;
use std::io::{self, BufWriter, Read, Write};
use std::process::ExitCode;

use baseline::{Order, Values, new_values};

/// How many bytes are read at once.
const PIECE: usize = 131_072;

fn main() -> ExitCode {
    let path = env::args_os().nth(1).unwrap_or_else(|| "line".into());
    match File::open(&path).and_then(answer) {
        Ok(()) => ExitCode::SUCCESS,
        Err(error) => {
            eprintln!("baseline: {}: {error}", path.display());
            ExitCode::FAILURE
        }
    }
}

fn answer(mut file: File) -> io::Result<()> {
    let mut execution = Execution::new();
    let mut room = vec![0; PIECE];
    loop {
        let count = file.read(&mut room[execution.kept..])?;
        if count == 0 {
            break;
        }
        execution.push(&mut room, count);
    }
    execution.report(BufWriter::new(io::stderr().lock()))?;
    print(&execution.values, BufWriter::with_capacity(1 << 16, io::stdout().lock()))
}

/// What the log came to so far.
struct Execution {
    values: Box<Values>,
    order: Order,
    done: u64,
    malformed: Vec<u64>,
    /// How many bytes at the front of the room are no whole order yet.
    kept: usize,
}

impl Execution {
    fn new() -> Execution {
        Execution { values: new_values(), order: Order::new(), done: 0, malformed: Vec::new(), kept: 0 }
    }

    /// Does the orders that are whole with so many bytes more in the room, and moves the others to its front.
    fn push(&mut self, room: &mut [u8], count: usize) {
        let end = self.kept + count;
        let mut rest = &room[..end];
        while let Some((bytes, behind)) = first_order(rest) {
            rest = behind;
            if self.order.decode(bytes).is_some() {
                self.order.execute(&mut self.values);
                self.done += 1;
            } else {
                self.malformed.push(self.done + self.malformed.len() as u64);
            }
        }
        self.kept = rest.len();
        room.copy_within(end - self.kept..end, 0);
    }

    fn report(&self, mut report: impl Write) -> io::Result<()> {
        for place in &self.malformed {
            writeln!(report, "place {place}: refused 1, malformed order")?;
        }
        if self.kept > 0 {
            writeln!(report, "tail: {} bytes are no whole order, passed over", self.kept)?;
        }
        writeln!(report, "{} orders done, {} malformed", self.done, self.malformed.len())?;
        report.flush()
    }
}

/// The bytes of the first order and what stands behind them.
fn first_order(log: &[u8]) -> Option<(&[u8], &[u8])> {
    let (length, rest) = log.split_first_chunk()?;
    rest.split_at_checked(usize::from(u16::from_be_bytes(*length)))
}

fn print(values: &Values, mut output: impl Write) -> io::Result<()> {
    for (key, value) in values.iter().enumerate() {
        if *value != 0 {
            writeln!(output, "{key} {value}")?;
        }
    }
    output.flush()
}
