//! An order, its bytes, and the reasons why bytes are no order.

pub const MOST_KEYS: usize = 16;
pub const MOST_INSTRUCTIONS: usize = 64;
pub const REGISTERS: usize = 32;

#[derive(Clone, Debug, Default, PartialEq, Eq)]
pub struct Order {
    /// The read set: keys, strictly rising.
    pub reads: Vec<u16>,
    /// The write set: keys, strictly rising.
    pub writes: Vec<u16>,
    pub instructions: Vec<Instruction>,
}

/// `to`, `from`, `left` and `right` are register numbers. `index` counts the
/// keys of the write set from 0.
#[derive(Clone, Copy, Debug, PartialEq, Eq)]
pub enum Instruction {
    Add { to: u8, left: u8, right: u8 },
    Subtract { to: u8, left: u8, right: u8 },
    Multiply { to: u8, left: u8, right: u8 },
    Divide { to: u8, left: u8, right: u8 },
    Set { to: u8, number: u32 },
    SkipIfLess { left: u8, right: u8, count: u8 },
    Write { index: u8, from: u8 },
    Stop,
}

/// Why bytes are a malformed order. The programs do not tell these apart; the
/// tests do.
#[derive(Clone, Copy, Debug, PartialEq, Eq, PartialOrd, Ord)]
pub enum Malformed {
    TooManyReads,
    TooManyWrites,
    TooManyInstructions,
    KeysNotRising,
    NoSuchRegister,
    NoSuchWrite,
    UnknownKind,
    TooShort,
    BytesLeftOver,
}

/// The order that these bytes are.
pub fn decode(bytes: &[u8]) -> Result<Order, Malformed> {
    let mut input = Input { rest: bytes };
    let reads = decode_keys(&mut input, Malformed::TooManyReads)?;
    let writes = decode_keys(&mut input, Malformed::TooManyWrites)?;
    let count = usize::from(input.byte()?);
    if count > MOST_INSTRUCTIONS {
        return Err(Malformed::TooManyInstructions);
    }
    let mut instructions = Vec::new();
    for _ in 0..count {
        instructions.push(decode_instruction(&mut input, writes.len())?);
    }
    if !input.rest.is_empty() {
        return Err(Malformed::BytesLeftOver);
    }
    Ok(Order { reads, writes, instructions })
}

fn decode_keys(input: &mut Input, too_many: Malformed) -> Result<Vec<u16>, Malformed> {
    let count = usize::from(input.byte()?);
    if count > MOST_KEYS {
        return Err(too_many);
    }
    let mut keys: Vec<u16> = Vec::new();
    for _ in 0..count {
        let key = input.key()?;
        if keys.last().is_some_and(|last| *last >= key) {
            return Err(Malformed::KeysNotRising);
        }
        keys.push(key);
    }
    Ok(keys)
}

fn decode_instruction(input: &mut Input, writes: usize) -> Result<Instruction, Malformed> {
    let kind = input.byte()?;
    match kind {
        1..=4 => {
            let to = input.register()?;
            let left = input.register()?;
            let right = input.register()?;
            Ok(match kind {
                1 => Instruction::Add { to, left, right },
                2 => Instruction::Subtract { to, left, right },
                3 => Instruction::Multiply { to, left, right },
                _ => Instruction::Divide { to, left, right },
            })
        }
        5 => {
            let to = input.register()?;
            let number = input.number()?;
            Ok(Instruction::Set { to, number })
        }
        6 => {
            let left = input.register()?;
            let right = input.register()?;
            let count = input.byte()?;
            Ok(Instruction::SkipIfLess { left, right, count })
        }
        7 => {
            let index = input.byte()?;
            if usize::from(index) >= writes {
                return Err(Malformed::NoSuchWrite);
            }
            let from = input.register()?;
            Ok(Instruction::Write { index, from })
        }
        8 => Ok(Instruction::Stop),
        _ => Err(Malformed::UnknownKind),
    }
}

/// The bytes that are not yet decoded.
struct Input<'a> {
    rest: &'a [u8],
}

impl Input<'_> {
    fn byte(&mut self) -> Result<u8, Malformed> {
        let (first, rest) = self.rest.split_first().ok_or(Malformed::TooShort)?;
        self.rest = rest;
        Ok(*first)
    }

    fn key(&mut self) -> Result<u16, Malformed> {
        let high = u16::from(self.byte()?);
        let low = u16::from(self.byte()?);
        Ok(high * 256 + low)
    }

    fn number(&mut self) -> Result<u32, Malformed> {
        let high = u32::from(self.key()?);
        let low = u32::from(self.key()?);
        Ok(high * 65536 + low)
    }

    fn register(&mut self) -> Result<u8, Malformed> {
        let register = self.byte()?;
        if usize::from(register) >= REGISTERS {
            return Err(Malformed::NoSuchRegister);
        }
        Ok(register)
    }
}

/// The bytes of an order. Nothing is checked here: an order with too many
/// keys, for example, becomes the bytes of a malformed order.
pub fn encode(order: &Order) -> Vec<u8> {
    let instructions: Vec<Vec<u8>> = order.instructions.iter().map(encode_instruction).collect();
    encode_parts(&order.reads, &order.writes, &instructions)
}

/// As [`encode`], of instructions that are bytes already.
pub fn encode_parts(reads: &[u16], writes: &[u16], instructions: &[Vec<u8>]) -> Vec<u8> {
    let mut bytes = Vec::new();
    for keys in [reads, writes] {
        bytes.push(count_byte(keys.len()));
        for key in keys {
            bytes.extend(key.to_be_bytes());
        }
    }
    bytes.push(count_byte(instructions.len()));
    for instruction in instructions {
        bytes.extend(instruction);
    }
    bytes
}

fn count_byte(count: usize) -> u8 {
    u8::try_from(count).expect("a count fits one byte")
}

pub fn encode_instruction(instruction: &Instruction) -> Vec<u8> {
    match *instruction {
        Instruction::Add { to, left, right } => vec![1, to, left, right],
        Instruction::Subtract { to, left, right } => vec![2, to, left, right],
        Instruction::Multiply { to, left, right } => vec![3, to, left, right],
        Instruction::Divide { to, left, right } => vec![4, to, left, right],
        Instruction::Set { to, number } => {
            let mut bytes = vec![5, to];
            bytes.extend(number.to_be_bytes());
            bytes
        }
        Instruction::SkipIfLess { left, right, count } => vec![6, left, right, count],
        Instruction::Write { index, from } => vec![7, index, from],
        Instruction::Stop => vec![8],
    }
}

#[cfg(test)]
mod tests {
    use super::*;

    #[test]
    fn decodes_one_of_each_kind() {
        let mut bytes = Vec::new();
        bytes.extend([2, 0x00, 0x07, 0xff, 0xff]);
        bytes.extend([1, 0x01, 0x02]);
        bytes.extend([8]);
        bytes.extend([1, 2, 0, 1]);
        bytes.extend([2, 3, 0, 1]);
        bytes.extend([3, 4, 0, 1]);
        bytes.extend([4, 31, 0, 1]);
        bytes.extend([5, 6, 0x01, 0x02, 0x03, 0x04]);
        bytes.extend([6, 0, 1, 255]);
        bytes.extend([7, 0, 31]);
        bytes.extend([8]);
        let order = Order {
            reads: vec![7, 65535],
            writes: vec![258],
            instructions: vec![
                Instruction::Add { to: 2, left: 0, right: 1 },
                Instruction::Subtract { to: 3, left: 0, right: 1 },
                Instruction::Multiply { to: 4, left: 0, right: 1 },
                Instruction::Divide { to: 31, left: 0, right: 1 },
                Instruction::Set { to: 6, number: 16_909_060 },
                Instruction::SkipIfLess { left: 0, right: 1, count: 255 },
                Instruction::Write { index: 0, from: 31 },
                Instruction::Stop,
            ],
        };
        assert_eq!(decode(&bytes), Ok(order.clone()));
        assert_eq!(encode(&order), bytes);
    }

    #[test]
    fn decodes_the_smallest_and_the_largest() {
        assert_eq!(decode(&[0, 0, 0]), Ok(Order::default()));
        let largest = Order {
            reads: (0..16).collect(),
            writes: (65520..=65535).collect(),
            instructions: vec![Instruction::Set { to: 31, number: u32::MAX }; 64],
        };
        let bytes = encode(&largest);
        assert_eq!(bytes.len(), 1 + 32 + 1 + 32 + 1 + 64 * 6);
        assert_eq!(decode(&bytes), Ok(largest));
    }

    #[test]
    fn refuses_counts_that_are_too_large() {
        let keys: Vec<u16> = (0..17).collect();
        let stops = vec![vec![8]; 65];
        assert_eq!(decode(&encode_parts(&keys, &[], &[])), Err(Malformed::TooManyReads));
        assert_eq!(decode(&encode_parts(&[], &keys, &[])), Err(Malformed::TooManyWrites));
        assert_eq!(decode(&encode_parts(&[], &[], &stops)), Err(Malformed::TooManyInstructions));
    }

    #[test]
    fn refuses_keys_that_do_not_rise() {
        for keys in [[5, 5], [6, 5]] {
            assert_eq!(decode(&encode_parts(&keys, &[], &[])), Err(Malformed::KeysNotRising));
            assert_eq!(decode(&encode_parts(&[], &keys, &[])), Err(Malformed::KeysNotRising));
        }
    }

    #[test]
    fn refuses_register_32_wherever_a_register_stands() {
        let mut with_register_32: Vec<Vec<u8>> = Vec::new();
        for kind in 1..=4 {
            with_register_32.push(vec![kind, 32, 0, 0]);
            with_register_32.push(vec![kind, 0, 32, 0]);
            with_register_32.push(vec![kind, 0, 0, 32]);
        }
        with_register_32.push(vec![5, 32, 0, 0, 0, 0]);
        with_register_32.push(vec![6, 32, 0, 0]);
        with_register_32.push(vec![6, 0, 32, 0]);
        with_register_32.push(vec![7, 0, 32]);
        for instruction in with_register_32 {
            let bytes = encode_parts(&[], &[1], std::slice::from_ref(&instruction));
            assert_eq!(decode(&bytes), Err(Malformed::NoSuchRegister), "{instruction:?}");
        }
    }

    #[test]
    fn refuses_a_write_beyond_the_write_set() {
        let write_to_second = vec![vec![7, 1, 0]];
        assert!(decode(&encode_parts(&[], &[1, 2], &write_to_second)).is_ok());
        assert_eq!(decode(&encode_parts(&[], &[1], &write_to_second)), Err(Malformed::NoSuchWrite));
        assert_eq!(decode(&[0, 0, 1, 7, 0, 0]), Err(Malformed::NoSuchWrite));
    }

    #[test]
    fn refuses_unknown_kinds_even_where_they_would_not_be_reached() {
        for kind in [0, 9, 255] {
            let bytes = encode_parts(&[], &[], &[vec![8], vec![kind]]);
            assert_eq!(decode(&bytes), Err(Malformed::UnknownKind));
        }
    }

    #[test]
    fn refuses_every_shorter_and_every_longer_one() {
        let order = Order {
            reads: vec![1, 2],
            writes: vec![3],
            instructions: vec![
                Instruction::Set { to: 5, number: 9 },
                Instruction::Write { index: 0, from: 5 },
                Instruction::Stop,
            ],
        };
        let mut bytes = encode(&order);
        for length in 0..bytes.len() {
            assert_eq!(decode(&bytes[..length]), Err(Malformed::TooShort), "{length}");
        }
        bytes.push(0);
        assert_eq!(decode(&bytes), Err(Malformed::BytesLeftOver));
    }
}
