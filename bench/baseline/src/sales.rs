//! Orders that are shaped like sales, for the logs of the benchmarks.

use std::io::{self, Write};

const TROLLEYS: u64 = 16384;

// The registers. The first five are the values of the keys.
const BUYER: u8 = 0;
const GROWER: u8 = 1;
const TROLLEY: u8 = 2;
const DEPOSIT: u8 = 3;
const CLOCK: u8 = 4;
const ZERO: u8 = 5;
const ONE: u8 = 6;
const PRICE: u8 = 7;
const BUNCHES: u8 = 8;
const CREDIT: u8 = 9;
const ROOM: u8 = 10;
const PART: u8 = 11;
const COMMISSION: u8 = 12;
const REBATE: u8 = 13;

// The kinds of instructions.
const ADD: u8 = 1;
const SUBTRACT: u8 = 2;
const MULTIPLY: u8 = 3;
const DIVIDE: u8 = 4;
const SET: u8 = 5;
const SKIP_IF_LESS: u8 = 6;
const WRITE: u8 = 7;
const STOP: u8 = 8;

/// Writes a log of so many orders, each of which is drawn.
pub fn write_log(
    orders: u64,
    mut draw: impl FnMut() -> Vec<u8>,
    mut output: impl Write,
) -> io::Result<()> {
    for _ in 0..orders {
        let order = draw();
        output.write_all(&(order.len() as u16).to_be_bytes())?;
        output.write_all(&order)?;
    }
    output.flush()
}

/// A sale to a buyer by a grower, and so on: in the order of the registers. It
/// reads and writes these keys, which are rising, and has 24 instructions.
/// Nearly all sales go on to their end.
pub fn sale(random: &mut Random, keys: [u16; 5]) -> Vec<u8> {
    let mut instructions = Instructions { count: 0, bytes: Vec::new() };
    pay(random, &mut instructions);
    // The order of the other effects differs, so that not all orders are the
    // same instructions with other numbers.
    let mut effects = [GROWER, TROLLEY, DEPOSIT, CLOCK];
    for place in (1..effects.len()).rev() {
        effects.swap(place, random.below(place as u64 + 1) as usize);
    }
    for effect in effects {
        match effect {
            TROLLEY => instructions.set(TROLLEY, random.below(TROLLEYS) as u32),
            GROWER => instructions.push(&[ADD, GROWER, GROWER, PRICE]),
            DEPOSIT => instructions.push(&[ADD, DEPOSIT, DEPOSIT, COMMISSION]),
            _ => instructions.push(&[ADD, CLOCK, CLOCK, ONE]),
        }
        // The keys of the write set are those of the read set.
        instructions.push(&[WRITE, effect, effect]);
    }

    order(&keys, instructions)
}

/// A small sale: a buyer, a grower and a deposit, whose keys are rising, and
/// behind these perhaps a clock. It has 12 instructions, or 15 with the clock.
pub fn small_sale(random: &mut Random, keys: &[u16]) -> Vec<u8> {
    // There is no trolley, so these are one register further down.
    const DEPOSIT: u8 = 2;
    const CLOCK: u8 = 3;
    let mut instructions = Instructions { count: 0, bytes: Vec::new() };
    let price = 10_000 + random.below(100_000) as u32;
    instructions.set(PRICE, price);
    instructions.set(COMMISSION, price / 50);
    instructions.set(CREDIT, 1 << 31);
    instructions.push(&[ADD, ROOM, BUYER, CREDIT]);
    instructions.push(&[SKIP_IF_LESS, PRICE, ROOM, 1]);
    instructions.push(&[STOP]);
    instructions.push(&[SUBTRACT, BUYER, BUYER, PRICE]);
    instructions.push(&[ADD, GROWER, GROWER, PRICE]);
    instructions.push(&[ADD, DEPOSIT, DEPOSIT, COMMISSION]);
    if keys.len() > usize::from(CLOCK) {
        instructions.set(ONE, 1);
        instructions.push(&[ADD, CLOCK, CLOCK, ONE]);
    }
    for slot in 0..keys.len() as u8 {
        instructions.push(&[WRITE, slot, slot]);
    }
    order(keys, instructions)
}

/// An order that reads and writes these keys.
fn order(keys: &[u16], instructions: Instructions) -> Vec<u8> {
    let mut order = Vec::new();
    for _reads_then_writes in 0..2 {
        order.push(keys.len() as u8);
        for key in keys {
            order.extend(key.to_be_bytes());
        }
    }
    order.push(instructions.count);
    order.extend(instructions.bytes);
    order
}

/// The buyer pays, or the order stops because his credit does not suffice.
fn pay(random: &mut Random, instructions: &mut Instructions) {
    // One price in two hundred is beyond any credit.
    let price = if random.below(200) == 0 { 1 << 24 } else { 50 + random.below(500) as u32 };
    instructions.set(ONE, 1);
    instructions.set(PRICE, price);
    instructions.set(BUNCHES, 200 + random.below(50) as u32);
    instructions.push(&[MULTIPLY, PRICE, PRICE, BUNCHES]);
    instructions.set(CREDIT, 1 << 31);
    instructions.push(&[ADD, ROOM, BUYER, CREDIT]);
    instructions.push(&[SKIP_IF_LESS, ROOM, PRICE, 1]);
    instructions.push(&[SKIP_IF_LESS, ZERO, ONE, 1]);
    instructions.push(&[STOP]);
    instructions.set(PART, 50);
    instructions.push(&[DIVIDE, COMMISSION, PRICE, PART]);
    // Half of the sales are large enough for a rebate.
    instructions.set(REBATE, 300 * 225);
    instructions.push(&[SKIP_IF_LESS, PRICE, REBATE, 1]);
    instructions.push(&[SUBTRACT, PRICE, PRICE, COMMISSION]);
    instructions.push(&[SUBTRACT, BUYER, BUYER, PRICE]);
    instructions.push(&[WRITE, BUYER, BUYER]);
}

struct Instructions {
    count: u8,
    bytes: Vec<u8>,
}

impl Instructions {
    fn push(&mut self, instruction: &[u8]) {
        self.count += 1;
        self.bytes.extend(instruction);
    }

    fn set(&mut self, register: u8, number: u32) {
        self.push(&[SET, register]);
        self.bytes.extend(number.to_be_bytes());
    }
}

/// Numbers that look random and depend on the seed alone (splitmix64).
pub struct Random {
    state: u64,
}

impl Random {
    pub fn new(seed: u64) -> Random {
        Random { state: seed }
    }

    pub fn below(&mut self, bound: u64) -> u64 {
        self.state = self.state.wrapping_add(0x9e37_79b9_7f4a_7c15);
        let mut mixed = self.state;
        mixed = (mixed ^ (mixed >> 30)).wrapping_mul(0xbf58_476d_1ce4_e5b9);
        mixed = (mixed ^ (mixed >> 27)).wrapping_mul(0x94d0_49bb_1331_11eb);
        (mixed ^ (mixed >> 31)) % bound
    }
}
