//! Orders in plain Rust, written to be fast: one validating pass decodes an
//! order into a buffer that is used again for the next one, and nothing is
//! allocated per order.

pub mod house;
pub mod sales;

const MOST_KEYS: usize = 16;
const MOST_INSTRUCTIONS: usize = 64;
const REGISTERS: usize = 32;
const KEYS: usize = 65536;

/// The value of every key.
pub type Values = [u32; KEYS];

pub fn new_values() -> Box<Values> {
    vec![0; KEYS].into_boxed_slice().try_into().expect("it has this length")
}

/// The numbers are registers, but for the number of `Set`, the count of
/// `SkipIfLess` and the index into the write set of `Write`.
#[derive(Clone, Copy)]
enum Instruction {
    Add(u8, u8, u8),
    Subtract(u8, u8, u8),
    Multiply(u8, u8, u8),
    Divide(u8, u8, u8),
    Set(u8, u32),
    SkipIfLess(u8, u8, u8),
    Write(u8, u8),
    Stop,
}

/// A set of keys, strictly rising.
struct Keys {
    count: usize,
    keys: [u16; MOST_KEYS],
}

impl Keys {
    fn new() -> Keys {
        Keys { count: 0, keys: [0; MOST_KEYS] }
    }

    fn as_slice(&self) -> &[u16] {
        &self.keys[..self.count]
    }

    /// Takes a set of keys from the front of `bytes` and gives what is left.
    fn decode<'a>(&mut self, bytes: &'a [u8]) -> Option<&'a [u8]> {
        let (&count, rest) = bytes.split_first()?;
        let count = usize::from(count);
        if count > MOST_KEYS {
            return None;
        }
        let (keys, rest) = rest.split_at_checked(2 * count)?;
        let mut lowest = 0;
        for (slot, pair) in self.keys.iter_mut().zip(keys.chunks_exact(2)) {
            let key = u16::from_be_bytes([pair[0], pair[1]]);
            if u32::from(key) < lowest {
                return None;
            }
            lowest = u32::from(key) + 1;
            *slot = key;
        }
        self.count = count;
        Some(rest)
    }
}

/// The buffer into which orders are decoded, one after another.
pub struct Order {
    reads: Keys,
    writes: Keys,
    instruction_count: usize,
    instructions: [Instruction; MOST_INSTRUCTIONS],
}

impl Default for Order {
    fn default() -> Order {
        Order::new()
    }
}

impl Order {
    pub fn new() -> Order {
        Order {
            reads: Keys::new(),
            writes: Keys::new(),
            instruction_count: 0,
            instructions: [Instruction::Stop; MOST_INSTRUCTIONS],
        }
    }

    /// Decodes these bytes, or gives `None` if they are malformed; the buffer
    /// then holds no order.
    pub fn decode(&mut self, bytes: &[u8]) -> Option<()> {
        let rest = self.reads.decode(bytes)?;
        let rest = self.writes.decode(rest)?;
        self.decode_instructions(rest)
    }

    fn decode_instructions(&mut self, bytes: &[u8]) -> Option<()> {
        let (&count, rest) = bytes.split_first()?;
        let count = usize::from(count);
        let mut at = 0;
        for slot in self.instructions.get_mut(..count)? {
            let [kind] = take(rest, &mut at)?;
            match kind {
                1..=4 => {
                    let [a, b, c] = take(rest, &mut at)?;
                    below(a | b | c, REGISTERS)?;
                    *slot = match kind {
                        1 => Instruction::Add(a, b, c),
                        2 => Instruction::Subtract(a, b, c),
                        3 => Instruction::Multiply(a, b, c),
                        _ => Instruction::Divide(a, b, c),
                    };
                }
                5 => {
                    let [a, n3, n2, n1, n0] = take(rest, &mut at)?;
                    below(a, REGISTERS)?;
                    *slot = Instruction::Set(a, u32::from_be_bytes([n3, n2, n1, n0]));
                }
                6 => {
                    let [b, c, d] = take(rest, &mut at)?;
                    below(b | c, REGISTERS)?;
                    *slot = Instruction::SkipIfLess(b, c, d);
                }
                7 => {
                    let [w, b] = take(rest, &mut at)?;
                    below(w, self.writes.count)?;
                    below(b, REGISTERS)?;
                    *slot = Instruction::Write(w, b);
                }
                8 => *slot = Instruction::Stop,
                _ => return None,
            }
        }
        self.instruction_count = count;
        (at == rest.len()).then_some(())
    }

    /// Does the order.
    pub fn execute(&self, values: &mut Values) {
        let mut registers = [0; REGISTERS];
        for (register, key) in registers.iter_mut().zip(self.reads.as_slice()) {
            *register = values[usize::from(*key)];
        }
        let mut writes = Writes { values: [0; MOST_KEYS], said: 0 };
        if self.run(&mut registers, &mut writes) {
            self.commit(&writes, values);
        }
    }

    /// Does the instructions. False if the order stops.
    fn run(&self, registers: &mut [u32; REGISTERS], writes: &mut Writes) -> bool {
        let instructions = &self.instructions[..self.instruction_count];
        let mut next = 0;
        while let Some(instruction) = instructions.get(next) {
            next += 1;
            match *instruction {
                Instruction::Add(a, b, c) => {
                    registers[at(a)] = registers[at(b)].wrapping_add(registers[at(c)]);
                }
                Instruction::Subtract(a, b, c) => {
                    registers[at(a)] = registers[at(b)].wrapping_sub(registers[at(c)]);
                }
                Instruction::Multiply(a, b, c) => {
                    registers[at(a)] = registers[at(b)].wrapping_mul(registers[at(c)]);
                }
                Instruction::Divide(a, b, c) => {
                    registers[at(a)] = registers[at(b)].checked_div(registers[at(c)]).unwrap_or(0);
                }
                Instruction::Set(a, n) => registers[at(a)] = n,
                Instruction::SkipIfLess(b, c, d) => {
                    if registers[at(b)] < registers[at(c)] {
                        next += usize::from(d);
                    }
                }
                Instruction::Write(w, b) => writes.say(w, registers[at(b)]),
                Instruction::Stop => return false,
            }
        }
        true
    }

    fn commit(&self, writes: &Writes, values: &mut Values) {
        for (index, key) in self.writes.as_slice().iter().enumerate() {
            // A key that is read too stays if nothing was said of it.
            if writes.is_said(index) || !self.reads.as_slice().contains(key) {
                values[usize::from(*key)] = writes.values[index];
            }
        }
    }
}

/// A register that is known to be below 32. The mask costs less than the check
/// that the compiler would make.
fn at(register: u8) -> usize {
    usize::from(register) % REGISTERS
}

/// What is to be written to each key of the write set, 0 if nothing was said.
struct Writes {
    values: [u32; MOST_KEYS],
    /// A bit for each key of which something was said.
    said: u32,
}

impl Writes {
    fn say(&mut self, index: u8, value: u32) {
        self.values[usize::from(index) % MOST_KEYS] = value;
        self.said |= 1 << (index % 32);
    }

    fn is_said(&self, index: usize) -> bool {
        self.said >> (index % 32) & 1 == 1
    }
}

/// Takes so many bytes from the place `at` on.
fn take<const COUNT: usize>(bytes: &[u8], at: &mut usize) -> Option<[u8; COUNT]> {
    let taken = bytes.get(*at..*at + COUNT)?.try_into().ok()?;
    *at += COUNT;
    Some(taken)
}

/// Some numbers joined by `|` are below 32 if and only if each of them is.
fn below(number: u8, bound: usize) -> Option<()> {
    (usize::from(number) < bound).then_some(())
}
