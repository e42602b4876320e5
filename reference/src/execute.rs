//! What an order does to the values.

use crate::order::{Instruction, Order, REGISTERS};

/// The value of every key.
#[derive(Clone, Debug, PartialEq, Eq)]
pub struct Values {
    of_key: Vec<u32>,
}

impl Values {
    /// Every key has the value 0.
    pub fn new() -> Values {
        Values { of_key: vec![0; 65536] }
    }

    pub fn get(&self, key: u16) -> u32 {
        self.of_key[usize::from(key)]
    }

    pub fn set(&mut self, key: u16, value: u32) {
        self.of_key[usize::from(key)] = value;
    }

    /// The keys whose value is not 0, rising, each with its value.
    pub fn not_zero(&self) -> Vec<(u16, u32)> {
        let mut found = Vec::new();
        for key in 0..=u16::MAX {
            if self.get(key) != 0 {
                found.push((key, self.get(key)));
            }
        }
        found
    }
}

impl Default for Values {
    fn default() -> Values {
        Values::new()
    }
}

/// How an order ended.
#[derive(Clone, Copy, Debug, PartialEq, Eq)]
pub enum End {
    /// It went through its instructions, and its write set was written.
    Written,
    /// It met a stop instruction, and nothing was written.
    Stopped,
}

/// Does one order.
pub fn execute(order: &Order, values: &mut Values) -> End {
    let Some(said) = writes_said(order, values) else {
        return End::Stopped;
    };
    for (key, said) in order.writes.iter().zip(said) {
        match said {
            Some(value) => values.set(*key, value),
            // The order reads the key and says nothing of it: it stays.
            None if order.reads.contains(key) => {}
            None => values.set(*key, 0),
        }
    }
    End::Written
}

/// What the instructions say of each key of the write set, or `None` at all if
/// the order stops.
fn writes_said(order: &Order, values: &Values) -> Option<Vec<Option<u32>>> {
    let mut registers = [0u32; REGISTERS];
    for (register, key) in order.reads.iter().enumerate() {
        registers[register] = values.get(*key);
    }
    let mut said = vec![None; order.writes.len()];
    let mut next = 0;
    while next < order.instructions.len() {
        let instruction = order.instructions[next];
        next += 1;
        let value = |register: u8| registers[usize::from(register)];
        match instruction {
            Instruction::Add { to, left, right } => {
                registers[usize::from(to)] = value(left).wrapping_add(value(right));
            }
            Instruction::Subtract { to, left, right } => {
                registers[usize::from(to)] = value(left).wrapping_sub(value(right));
            }
            Instruction::Multiply { to, left, right } => {
                registers[usize::from(to)] = value(left).wrapping_mul(value(right));
            }
            Instruction::Divide { to, left, right } => {
                registers[usize::from(to)] = match value(right) {
                    0 => 0,
                    divisor => value(left) / divisor,
                };
            }
            Instruction::Set { to, number } => {
                registers[usize::from(to)] = number;
            }
            Instruction::SkipIfLess { left, right, count } => {
                if value(left) < value(right) {
                    next += usize::from(count);
                }
            }
            Instruction::Write { index, from } => {
                said[usize::from(index)] = Some(value(from));
            }
            Instruction::Stop => return None,
        }
    }
    Some(said)
}

#[cfg(test)]
mod tests {
    use super::*;
    use Instruction::*;

    /// Does an order on values that are 0 but for the given ones, and gives
    /// what is then not 0.
    fn after(
        before: &[(u16, u32)],
        reads: &[u16],
        writes: &[u16],
        instructions: &[Instruction],
    ) -> Vec<(u16, u32)> {
        let mut values = Values::new();
        for (key, value) in before {
            values.set(*key, *value);
        }
        let order = Order {
            reads: reads.to_vec(),
            writes: writes.to_vec(),
            instructions: instructions.to_vec(),
        };
        execute(&order, &mut values);
        values.not_zero()
    }

    #[test]
    fn arithmetic() {
        let before = [(10, 7), (20, 3)];
        let instructions = [
            Add { to: 2, left: 0, right: 1 },
            Subtract { to: 3, left: 0, right: 1 },
            Multiply { to: 4, left: 0, right: 1 },
            Divide { to: 5, left: 0, right: 1 },
            Write { index: 0, from: 2 },
            Write { index: 1, from: 3 },
            Write { index: 2, from: 4 },
            Write { index: 3, from: 5 },
        ];
        assert_eq!(
            after(&before, &[10, 20], &[1, 2, 3, 4], &instructions),
            [(1, 10), (2, 4), (3, 21), (4, 2), (10, 7), (20, 3)]
        );
    }

    #[test]
    fn arithmetic_wraps() {
        let instructions = [
            Set { to: 0, number: 4_294_967_295 },
            Set { to: 1, number: 2 },
            Add { to: 2, left: 0, right: 1 },
            Subtract { to: 3, left: 31, right: 1 },
            Multiply { to: 4, left: 0, right: 0 },
            Multiply { to: 5, left: 0, right: 1 },
            Write { index: 0, from: 2 },
            Write { index: 1, from: 3 },
            Write { index: 2, from: 4 },
            Write { index: 3, from: 5 },
        ];
        assert_eq!(
            after(&[], &[], &[0, 1, 2, 65535], &instructions),
            [(0, 1), (1, 4_294_967_294), (2, 1), (65535, 4_294_967_294)]
        );
    }

    #[test]
    fn division_by_zero_gives_zero() {
        let instructions = [Divide { to: 0, left: 0, right: 9 }, Write { index: 0, from: 0 }];
        assert_eq!(after(&[(4, 8)], &[4], &[4], &instructions), []);
    }

    #[test]
    fn a_register_may_be_its_own_operand() {
        let instructions = [
            Add { to: 0, left: 0, right: 0 },
            Multiply { to: 0, left: 0, right: 0 },
            Write { index: 0, from: 0 },
        ];
        assert_eq!(after(&[(4, 3)], &[4], &[4], &instructions), [(4, 36)]);
    }

    #[test]
    fn skips_only_if_less() {
        let skip = |left, right| {
            let instructions = [
                SkipIfLess { left, right, count: 1 },
                Write { index: 0, from: 1 },
                Write { index: 1, from: 1 },
            ];
            after(&[(4, 5), (6, 9)], &[4, 6], &[8, 9], &instructions)
        };
        assert_eq!(skip(0, 1), [(4, 5), (6, 9), (9, 9)]);
        assert_eq!(skip(1, 0), [(4, 5), (6, 9), (8, 9), (9, 9)]);
        assert_eq!(skip(0, 0), [(4, 5), (6, 9), (8, 9), (9, 9)]);
    }

    #[test]
    fn less_is_of_numbers_without_sign() {
        let instructions = [
            Set { to: 0, number: 1 },
            Set { to: 1, number: 2_147_483_648 },
            SkipIfLess { left: 0, right: 1, count: 1 },
            Stop,
            Write { index: 0, from: 0 },
        ];
        assert_eq!(after(&[], &[], &[3], &instructions), [(3, 1)]);
    }

    #[test]
    fn a_skip_past_the_end_ends_the_order() {
        let instructions = [
            Set { to: 1, number: 1 },
            Write { index: 0, from: 1 },
            SkipIfLess { left: 0, right: 1, count: 255 },
            Stop,
        ];
        assert_eq!(after(&[], &[], &[3], &instructions), [(3, 1)]);
    }

    #[test]
    fn a_skipped_skip_does_nothing() {
        let instructions = [
            Set { to: 1, number: 1 },
            SkipIfLess { left: 0, right: 1, count: 1 },
            SkipIfLess { left: 0, right: 1, count: 1 },
            Write { index: 0, from: 1 },
        ];
        assert_eq!(after(&[], &[], &[3], &instructions), [(3, 1)]);
    }

    #[test]
    fn nothing_said_of_a_write_key() {
        // 5 is read and written: it stays. 6 is only written: it becomes 0.
        // 7 is only read.
        let before = [(5, 50), (6, 60), (7, 70)];
        assert_eq!(after(&before, &[5, 7], &[5, 6], &[]), [(5, 50), (7, 70)]);
    }

    #[test]
    fn a_write_that_is_skipped_says_nothing() {
        let instructions = [
            SkipIfLess { left: 2, right: 0, count: 2 },
            Write { index: 0, from: 1 },
            Write { index: 1, from: 1 },
        ];
        assert_eq!(after(&[(5, 50), (6, 60)], &[5], &[5, 6], &instructions), [(5, 50)]);
    }

    #[test]
    fn the_last_write_counts_and_is_what_the_register_was_then() {
        let instructions = [
            Set { to: 0, number: 1 },
            Write { index: 0, from: 0 },
            Set { to: 0, number: 2 },
            Write { index: 0, from: 0 },
            Set { to: 0, number: 3 },
        ];
        assert_eq!(after(&[], &[], &[9], &instructions), [(9, 2)]);
    }

    #[test]
    fn after_a_stop_nothing_is_written() {
        let instructions = [
            Set { to: 0, number: 1 },
            Write { index: 0, from: 0 },
            Stop,
            Write { index: 1, from: 0 },
        ];
        assert_eq!(after(&[(5, 50), (6, 60)], &[], &[5, 6], &instructions), [(5, 50), (6, 60)]);
    }
}
