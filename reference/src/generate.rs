//! Random logs from a seed: orders of every shape, malformed ones for every
//! reason, and sometimes a tail.

use std::collections::BTreeSet;

use crate::log;
use crate::order::{
    Instruction, MOST_INSTRUCTIONS, MOST_KEYS, Order, REGISTERS, encode, encode_instruction,
    encode_parts,
};
use crate::random::Random;

/// The log of a seed. Without `orders` the seed also says how many orders it
/// has. With `orders` it starts with the same orders.
pub fn log(seed: u64, orders: Option<usize>) -> Vec<u8> {
    let mut random = Random::new(seed);
    let count_of_seed = count(&mut random);
    let manner = Manner::new(&mut random);
    let mut log = Vec::new();
    for _ in 0..orders.unwrap_or(count_of_seed) {
        let order = if random.percent(manner.malformed_percent) {
            malformed(&mut random, &manner)
        } else {
            encode(&well_formed(&mut random, &manner))
        };
        log::push(&mut log, &order);
    }
    match random.below(10) {
        // An order of no bytes at the very end is no tail.
        0 => log::push(&mut log, &[]),
        1..=4 => log.extend(tail(&mut random, &manner)),
        _ => {}
    }
    log
}

/// A log of so many orders that use nothing but some of these keys, which are
/// rising and at most 16. Some orders are malformed, and those few of them that
/// are not so after all use others too.
pub fn log_of_keys(random: &mut Random, keys: &[u16], orders: usize) -> Vec<u8> {
    let manner = Manner {
        hot_keys: keys.to_vec(),
        hot_percent: 100,
        malformed_percent: random.pick(&[0, 5, 20]),
    };
    let mut log = Vec::new();
    for _ in 0..orders {
        let order = if random.percent(manner.malformed_percent) {
            malformed(random, &manner)
        } else {
            let reads = some_of(random, keys);
            let writes = some_of(random, keys);
            let instructions = instructions(random, reads.len(), writes.len());
            encode(&Order { reads, writes, instructions })
        };
        log::push(&mut log, &order);
    }
    if random.percent(20) {
        log.extend(tail(random, &manner));
    }
    log
}

fn some_of(random: &mut Random, keys: &[u16]) -> Vec<u16> {
    let percent = random.pick(&[0, 10, 20, 40, 80]);
    keys.iter().copied().filter(|_| random.percent(percent)).collect()
}

fn count(random: &mut Random) -> usize {
    match random.below(10) {
        0 => random.below(3),
        1..=3 => random.between(2, 15),
        4..=6 => random.between(10, 80),
        _ => random.between(60, 400),
    }
}

/// What the orders of one log have in common.
struct Manner {
    /// A few keys that many orders use, so that orders depend on each other.
    hot_keys: Vec<u16>,
    hot_percent: usize,
    malformed_percent: usize,
}

impl Manner {
    fn new(random: &mut Random) -> Manner {
        let mut hot_keys = Vec::new();
        for _ in 0..random.pick(&[1, 2, 4, 8, 24, 64]) {
            hot_keys.push(random.key());
        }
        if random.percent(30) {
            hot_keys.extend([0, 1, 255, 256, 65534, 65535]);
        }
        Manner {
            hot_keys,
            hot_percent: random.pick(&[50, 90, 97, 100]),
            malformed_percent: random.pick(&[0, 5, 10, 20, 60]),
        }
    }
}

/// A well-formed order.
fn well_formed(random: &mut Random, manner: &Manner) -> Order {
    let read_count = key_count(random);
    let reads = keys(random, manner, read_count, &[]);
    let write_count = key_count(random);
    let writes = keys(random, manner, write_count, &reads);
    let instructions = instructions(random, reads.len(), writes.len());
    Order { reads, writes, instructions }
}

fn key_count(random: &mut Random) -> usize {
    match random.below(10) {
        0 => 0,
        1 => MOST_KEYS,
        2 => random.between(0, MOST_KEYS),
        _ => random.between(1, 6),
    }
}

/// So many different keys, rising. About half of them are taken from `shared`
/// as far as it goes.
fn keys(random: &mut Random, manner: &Manner, count: usize, shared: &[u16]) -> Vec<u16> {
    let mut keys = BTreeSet::new();
    let mut draws = 0;
    while keys.len() < count {
        draws += 1;
        let key = if !shared.is_empty() && random.percent(50) {
            random.pick(shared)
        } else if random.percent(manner.hot_percent) {
            random.pick(&manner.hot_keys)
        } else {
            random.key()
        };
        // There may be fewer hot keys than are wanted.
        keys.insert(if draws > 4 * count { random.key() } else { key });
    }
    keys.into_iter().collect()
}

/// How often each kind of instruction is drawn, in the order of the kinds, but
/// for the stop.
const COMMON_WEIGHTS: [usize; 7] = [4, 3, 2, 2, 4, 2, 4];
const SKIPPING_WEIGHTS: [usize; 7] = [2, 2, 1, 1, 3, 8, 5];
const WRITING_WEIGHTS: [usize; 7] = [1, 1, 1, 1, 2, 1, 9];
const DIVIDING_WEIGHTS: [usize; 7] = [1, 1, 1, 8, 3, 1, 3];

/// The manner of one order's instructions.
struct Style {
    weights: [usize; 7],
    /// Registers are mostly below this. With few of them the instructions use
    /// each other's results more.
    registers: usize,
    writes: usize,
    stop_per_thousand: usize,
}

fn instructions(random: &mut Random, reads: usize, writes: usize) -> Vec<Instruction> {
    let style = Style {
        weights: random.pick(&[
            COMMON_WEIGHTS,
            COMMON_WEIGHTS,
            SKIPPING_WEIGHTS,
            WRITING_WEIGHTS,
            DIVIDING_WEIGHTS,
        ]),
        registers: random.pick(&[reads.max(2), reads + 4, 4, REGISTERS]),
        writes,
        stop_per_thousand: random.pick(&[0, 0, 0, 5, 50]),
    };
    let count = match random.below(12) {
        0 => 0,
        1 => MOST_INSTRUCTIONS,
        2 => random.between(0, MOST_INSTRUCTIONS),
        _ => random.between(2, 16),
    };
    let mut instructions = Vec::new();
    for _ in 0..count {
        instructions.push(instruction(random, &style));
    }
    if random.percent(60) {
        let at_end = writes_at_end(random, &style);
        instructions.truncate(MOST_INSTRUCTIONS - at_end.len());
        instructions.extend(at_end);
    }
    instructions
}

fn instruction(random: &mut Random, style: &Style) -> Instruction {
    if random.below(1000) < style.stop_per_thousand {
        return Instruction::Stop;
    }
    let mut draw = random.below(style.weights.iter().sum());
    let mut kind = 1;
    for weight in style.weights {
        if draw < weight {
            break;
        }
        draw -= weight;
        kind += 1;
    }
    let to = register(random, style);
    let left = register(random, style);
    let right = register(random, style);
    match kind {
        1 => Instruction::Add { to, left, right },
        2 => Instruction::Subtract { to, left, right },
        3 => Instruction::Multiply { to, left, right },
        4 => Instruction::Divide { to, left, right },
        5 => Instruction::Set { to, number: number(random) },
        6 => Instruction::SkipIfLess { left, right, count: skip_count(random) },
        _ if style.writes > 0 => {
            Instruction::Write { index: random.below(style.writes) as u8, from: left }
        }
        _ => Instruction::Set { to, number: number(random) },
    }
}

/// Writes to most keys of the write set, so that most orders change something.
fn writes_at_end(random: &mut Random, style: &Style) -> Vec<Instruction> {
    let mut writes = Vec::new();
    for index in 0..style.writes {
        if random.percent(85) {
            writes.push(Instruction::Write { index: index as u8, from: register(random, style) });
        }
    }
    writes
}

fn register(random: &mut Random, style: &Style) -> u8 {
    let bound = if random.percent(95) { style.registers } else { REGISTERS };
    random.below(bound) as u8
}

fn number(random: &mut Random) -> u32 {
    match random.below(8) {
        0 => random.pick(&[0, 1, 2]),
        1 => random.pick(&[255, 256, 65_535, 65_536, 1 << 24]),
        2 => random.pick(&[i32::MAX as u32, 1 << 31, u32::MAX - 1, u32::MAX]),
        3..=5 => random.between(3, 1000) as u32,
        _ => random.number(),
    }
}

fn skip_count(random: &mut Random) -> u8 {
    match random.below(8) {
        0 => 0,
        1 => random.pick(&[63, 64, 127, 128, 254, 255]),
        2 => random.byte(),
        _ => random.between(1, 4) as u8,
    }
}

/// The bytes of an order that is malformed for a reason drawn at random. A few
/// are well-formed after all: a changed byte may do no harm.
fn malformed(random: &mut Random, manner: &Manner) -> Vec<u8> {
    let order = well_formed(random, manner);
    let bytes = encode(&order);
    match random.below(14) {
        0 => too_many_keys(random, order, true),
        1 => too_many_keys(random, order, false),
        2 => too_many_instructions(random, order),
        3 => keys_not_rising(random, manner, order, true),
        4 => keys_not_rising(random, manner, order, false),
        5 | 6 => no_such_register(random, order),
        7 => no_such_write(random, order),
        8 => unknown_kind(random, order),
        9 => too_short(random, bytes),
        10 => bytes_left_over(random, bytes),
        11 => changed_byte(random, bytes),
        12 => random_bytes(random),
        _ => Vec::new(),
    }
}

fn too_many_keys(random: &mut Random, mut order: Order, in_reads: bool) -> Vec<u8> {
    let count = if random.percent(70) { MOST_KEYS + 1 } else { random.between(MOST_KEYS + 1, 255) };
    let mut keys = BTreeSet::new();
    while keys.len() < count {
        keys.insert(random.key());
    }
    let keys = keys.into_iter().collect();
    if in_reads {
        order.reads = keys;
    } else {
        order.writes = keys;
    }
    encode(&order)
}

fn too_many_instructions(random: &mut Random, mut order: Order) -> Vec<u8> {
    let most = MOST_INSTRUCTIONS + 1;
    let count = if random.percent(70) { most } else { random.between(most, 255) };
    order.instructions.resize(count, Instruction::Set { to: 0, number: 1 });
    encode(&order)
}

fn keys_not_rising(
    random: &mut Random,
    manner: &Manner,
    mut order: Order,
    in_reads: bool,
) -> Vec<u8> {
    let count = random.between(2, MOST_KEYS);
    let mut keys = keys(random, manner, count, &[]);
    let place = random.below(count - 1);
    if random.percent(50) {
        keys.swap(place, place + 1);
    } else {
        keys[place] = keys[place + 1];
    }
    if in_reads {
        order.reads = keys;
    } else {
        // The writes of the instructions must stay within the write set.
        order.instructions.clear();
        order.writes = keys;
    }
    encode(&order)
}

fn no_such_register(random: &mut Random, mut order: Order) -> Vec<u8> {
    if order.writes.is_empty() {
        order.writes.push(random.key());
    }
    let mut wrong = match random.below(7) {
        kind @ 0..=3 => vec![kind as u8 + 1, 0, 1, 2],
        4 => vec![5, 0, 0, 0, 0, 1],
        5 => vec![6, 0, 1, random.byte()],
        _ => vec![7, 0, 1],
    };
    let at = match wrong[0] {
        1..=4 => random.between(1, 3),
        5 => 1,
        6 => random.between(1, 2),
        _ => 2,
    };
    wrong[at] = random.pick(&[32, 33, 63, 64, 128, 160, 255]);
    with_instruction(random, &order, wrong)
}

fn no_such_write(random: &mut Random, order: Order) -> Vec<u8> {
    let count = order.writes.len();
    let index = if random.percent(70) { count } else { random.between(count, 255) };
    with_instruction(random, &order, vec![7, index as u8, 0])
}

fn unknown_kind(random: &mut Random, order: Order) -> Vec<u8> {
    let kind = match random.below(4) {
        0 => 0,
        1 => 9,
        _ => random.between(10, 255) as u8,
    };
    // Some have numbers behind them, as a known kind would.
    let length = random.pick(&[1, 1, 3, 4, 6]);
    let mut wrong = vec![0; length];
    wrong[0] = kind;
    with_instruction(random, &order, wrong)
}

/// The bytes of an order with one more instruction, in place of another one if
/// there is no room.
fn with_instruction(random: &mut Random, order: &Order, instruction: Vec<u8>) -> Vec<u8> {
    let mut instructions: Vec<Vec<u8>> = Vec::new();
    for known in &order.instructions {
        instructions.push(encode_instruction(known));
    }
    instructions.truncate(MOST_INSTRUCTIONS - 1);
    let place = random.below(instructions.len() + 1);
    instructions.insert(place, instruction);
    encode_parts(&order.reads, &order.writes, &instructions)
}

fn too_short(random: &mut Random, mut bytes: Vec<u8>) -> Vec<u8> {
    let length = if random.percent(30) { bytes.len() - 1 } else { random.below(bytes.len()) };
    bytes.truncate(length);
    bytes
}

fn bytes_left_over(random: &mut Random, mut bytes: Vec<u8>) -> Vec<u8> {
    let more = match random.below(40) {
        0 => usize::from(u16::MAX) - bytes.len(),
        1 => random.between(200, 3000),
        2..=20 => 1,
        _ => random.between(1, 8),
    };
    for _ in 0..more {
        bytes.push(random.byte());
    }
    bytes
}

fn changed_byte(random: &mut Random, mut bytes: Vec<u8>) -> Vec<u8> {
    let place = random.below(bytes.len());
    bytes[place] = if random.percent(50) { random.byte() } else { bytes[place] ^ 1 };
    bytes
}

fn random_bytes(random: &mut Random) -> Vec<u8> {
    let mut bytes = Vec::new();
    for _ in 0..random.between(1, 40) {
        bytes.push(random.byte());
    }
    bytes
}

/// Bytes that are no whole order.
fn tail(random: &mut Random, manner: &Manner) -> Vec<u8> {
    match random.below(4) {
        0 => vec![random.pick(&[0, 1, 255])],
        1 => vec![0, random.between(1, 255) as u8],
        2 => vec![255, 255, 0, 0, 0],
        _ => {
            let mut bytes = Vec::new();
            log::push(&mut bytes, &encode(&well_formed(random, manner)));
            bytes.truncate(random.between(1, bytes.len() - 1));
            bytes
        }
    }
}

#[cfg(test)]
mod tests {
    use super::*;
    use crate::order::{Malformed, decode};
    use std::collections::BTreeMap;

    #[test]
    fn the_same_seed_gives_the_same_log() {
        assert_eq!(super::log(7, None), super::log(7, None));
        assert_ne!(super::log(7, None), super::log(8, None));
    }

    #[test]
    fn well_formed_orders_are_well_formed() {
        let mut random = Random::new(1);
        for _ in 0..20 {
            let manner = Manner::new(&mut random);
            for _ in 0..50 {
                let order = well_formed(&mut random, &manner);
                assert_eq!(decode(&encode(&order)), Ok(order));
            }
        }
    }

    #[test]
    fn every_reason_and_every_shape_comes_up() {
        let mut reasons: BTreeMap<Malformed, usize> = BTreeMap::new();
        let mut shapes: BTreeMap<&str, usize> = BTreeMap::new();
        let mut shape = |name, present: bool| {
            *shapes.entry(name).or_default() += usize::from(present);
        };
        for seed in 0..300 {
            let bytes = super::log(seed, None);
            let log = log::split(&bytes);
            shape("empty log", bytes.is_empty());
            shape("tail", !log.tail.is_empty());
            shape("order of no bytes at the end", bytes.ends_with(&[0, 0]) && log.tail.is_empty());
            for bytes in log.orders {
                let order = match decode(bytes) {
                    Ok(order) => order,
                    Err(reason) => {
                        *reasons.entry(reason).or_default() += 1;
                        continue;
                    }
                };
                let both = order.reads.iter().filter(|key| order.writes.contains(key)).count();
                let count = order.instructions.len();
                shape("reads nothing", order.reads.is_empty());
                shape("reads 16", order.reads.len() == 16);
                shape("writes nothing", order.writes.is_empty());
                shape("writes 16", order.writes.len() == 16);
                shape("reads and writes the same key", both > 0);
                shape("no instruction", count == 0);
                shape("64 instructions", count == 64);
                for (place, instruction) in order.instructions.iter().enumerate() {
                    let left = count - place - 1;
                    match *instruction {
                        Instruction::SkipIfLess { count, .. } => {
                            shape("skip past the end", usize::from(count) > left);
                            shape("skip of nothing", count == 0);
                        }
                        Instruction::Stop => shape("stop", true),
                        _ => {}
                    }
                }
            }
        }
        for (shape, times) in &shapes {
            assert!(*times > 0, "{shape} does not come up");
        }
        assert_eq!(reasons.len(), 9, "{reasons:?}");
        assert!(reasons.values().all(|times| *times > 20), "{reasons:?}");
    }
}
