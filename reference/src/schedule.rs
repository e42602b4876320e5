//! Random scripts for `solo` from a seed: a log, a house, and what happens to it
//! in a random mixture, also what must be refused. In the end the house gets all
//! orders, is told all that it needs and does all that it can.
//!
//! The script is written while the house is at work, so that most lines find
//! something to do.

use std::collections::BTreeSet;

use crate::execute::{Values, execute};
use crate::generate;
use crate::house::{HOUSES, house_of, keys_of};
use crate::log;
use crate::order::{Order, decode};
use crate::random::Random;
use crate::solo::Solo;

pub struct Schedule {
    pub house: u8,
    pub line: Vec<u8>,
    pub script: Vec<u8>,
    /// All that the house keeps is what the other houses would tell.
    pub honest: bool,
    /// What all orders leave, serially.
    pub end: Values,
}

pub fn schedule(seed: u64) -> Schedule {
    let mut random = Random::new(seed);
    let line = random_line(&mut random, seed);
    let log = Log::new(&line);
    let house = random_house(&mut random, &log.orders);
    let honest = random.percent(85);
    let mut writer = Writer {
        random,
        house,
        honest,
        solo: Solo::new(house, &line),
        told: BTreeSet::new(),
        log,
        script: Vec::new(),
    };
    writer.at_random();
    writer.finish();
    if writer.random.percent(20) {
        // The last line needs no end.
        writer.script.pop();
    }
    let (script, end) = (writer.script, writer.log.end);
    Schedule { house, line, script, honest, end }
}

/// A log of every shape, or one of few keys, where much has to wait.
fn random_line(random: &mut Random, seed: u64) -> Vec<u8> {
    if random.percent(35) {
        return generate::log(seed, Some(random.between(0, 50)));
    }
    let mut keys = BTreeSet::new();
    // With few keys most orders wait for each other, with more many are ready at once.
    let most = random.pick(&[2, 5]);
    for _ in 0..random.between(1, 3) {
        let any = random.below(usize::from(HOUSES)) as u8;
        let house = random.pick(&[0, 3, 15, any]);
        for _ in 0..random.between(1, most) {
            keys.insert(random_key(random, house));
        }
    }
    let keys: Vec<u16> = keys.into_iter().collect();
    let most = random.pick(&[6, 24, 24, 60, 60, 200]);
    let orders = random.between(2, most);
    generate::log_of_keys(random, &keys, orders)
}

/// A key of a house, often the same.
fn random_key(random: &mut Random, house: u8) -> u16 {
    let any = random.below(4096) as u16;
    16 * random.pick(&[0, 1, 2, 4095, any]) + u16::from(house)
}

/// Mostly the house of a key that an order has.
fn random_house(random: &mut Random, orders: &[Order]) -> u8 {
    let keys: Vec<u16> =
        orders.iter().flat_map(|order| [&order.reads, &order.writes]).flatten().copied().collect();
    if keys.is_empty() || random.percent(3) {
        random.below(usize::from(HOUSES)) as u8
    } else {
        house_of(random.pick(&keys))
    }
}

/// A log with what it comes to serially.
struct Log {
    /// An order that is malformed stands as one without keys.
    orders: Vec<Order>,
    /// By place, what each order reads, in the order of the read set.
    reads: Vec<Vec<u32>>,
    /// What all orders leave.
    end: Values,
}

impl Log {
    fn new(line: &[u8]) -> Log {
        let orders: Vec<Order> =
            log::split(line).orders.iter().map(|bytes| decode(bytes).unwrap_or_default()).collect();
        let mut reads = Vec::new();
        let mut values = Values::new();
        for order in &orders {
            reads.push(order.reads.iter().map(|key| values.get(*key)).collect());
            execute(order, &mut values);
        }
        Log { orders, reads, end: values }
    }

    /// What a house tells of an order.
    fn told_by(&self, house: u8, place: usize) -> Vec<u32> {
        let order = &self.orders[place];
        let read = order.reads.iter().zip(&self.reads[place]);
        read.filter(|(key, _)| house_of(**key) == house).map(|(_, value)| *value).collect()
    }
}

/// How often each deed of [`Writer::deed`] is drawn, in their order there.
const MIXED: [usize; 10] = [20, 20, 10, 25, 8, 8, 5, 4, 3, 1];
const MOSTLY_GO: [usize; 10] = [25, 2, 4, 30, 4, 30, 8, 4, 1, 1];
const ONE_BY_ONE: [usize; 10] = [20, 40, 10, 25, 4, 1, 4, 2, 1, 1];
const RARELY_TOLD: [usize; 10] = [30, 25, 10, 3, 4, 15, 5, 2, 1, 1];
const FIRST_THE_LOG: [usize; 10] = [80, 5, 5, 10, 2, 5, 3, 1, 1, 1];

/// Lines that are not understood, but for the last two.
const DAMAGED: [&str; 26] = [
    " ",
    "orders",
    "order 0",
    "order ",
    " order",
    "ORDER",
    "look",
    "look 0 1",
    "look  0",
    "look +0",
    "look -1",
    "look 4294967296",
    "write 0x1",
    "write",
    "told",
    "told 4",
    "told 256 0 1",
    "told 1 0 4294967296",
    "told 1 0 1 1 1 1 1 1 1 1 1 1 1 1 1 1 1",
    "ready\r",
    "go 1 1",
    "go 4294967296",
    "go  1",
    "show 65536",
    "show 00000000000000000000007",
    "look 4294967295",
];

struct Writer<'a> {
    random: Random,
    house: u8,
    honest: bool,
    /// The house as the script so far leaves it.
    solo: Solo<'a>,
    /// By place and house, what it was told so far.
    told: BTreeSet<(usize, u8)>,
    log: Log,
    script: Vec<u8>,
}

impl Writer<'_> {
    fn say(&mut self, line: &[u8]) {
        self.solo.play(line);
        self.script.extend(line);
        self.script.push(b'\n');
    }

    fn at_random(&mut self) {
        let weights = self.random.pick(&[MIXED, MOSTLY_GO, ONE_BY_ONE, RARELY_TOLD, FIRST_THE_LOG]);
        let most = 8 * self.log.orders.len() + 10;
        for _ in 0..self.random.between(0, most) {
            if self.nothing_is_left() {
                break;
            }
            self.deed(&weights);
        }
    }

    fn nothing_is_left(&self) -> bool {
        self.has_all_orders()
            && self.solo.house().ready().is_empty()
            && self.wanted().iter().all(|wanted| self.told.contains(wanted))
    }

    fn has_all_orders(&self) -> bool {
        self.solo.house().places() == self.log.orders.len()
    }

    fn deed(&mut self, weights: &[usize; 10]) {
        let mut draw = self.random.below(weights.iter().sum());
        let mut deed = 0;
        while draw >= weights[deed] {
            draw -= weights[deed];
            deed += 1;
        }
        // Where there is nothing to do of a kind, that is tried rarely.
        let in_vain = self.random.percent(10);
        if deed == 0 && self.has_all_orders() && !in_vain {
            deed = 1;
        }
        if deed == 1 && self.solo.house().ready().is_empty() && !in_vain {
            deed = if self.has_all_orders() { 3 } else { 0 };
        }
        let line = match deed {
            0 => "order".to_string(),
            1 => self.listed_task(),
            2 => self.any_task(),
            3 => self.wanted_telling(),
            4 => self.any_telling(),
            5 => format!("go {}", self.random.pick(&[0, 1, 1, 2, 3, 10, u32::MAX])),
            6 => "ready".to_string(),
            7 => format!("show {}", self.any_key()),
            8 => return self.damaged(),
            _ => String::new(),
        };
        self.say(line.as_bytes());
        if self.random.percent(20) {
            self.say(b"ready");
        }
    }

    /// A task that is ready, not always the first one.
    fn listed_task(&mut self) -> String {
        match self.solo.house().ready() {
            [] => "ready".to_string(),
            tasks => self.random.pick(tasks).to_string(),
        }
    }

    /// Any task, which mostly may not be done.
    fn any_task(&mut self) -> String {
        let task = self.random.pick(&["look", "write"]);
        let place = self.any_place();
        format!("{task} {place}")
    }

    /// A place that the house has, or one beyond.
    fn any_place(&mut self) -> usize {
        let places = self.solo.house().places();
        match self.random.below(20) {
            0 => u32::MAX as usize,
            1 => places,
            _ => self.random.below(places + 1),
        }
    }

    fn any_key(&mut self) -> u16 {
        let any = self.random.below(usize::from(HOUSES)) as u8;
        let house = if self.random.percent(80) { self.house } else { any };
        random_key(&mut self.random, house)
    }

    /// All that the house needs to be told: the place, and who tells.
    fn wanted(&self) -> Vec<(usize, u8)> {
        let mut wanted = Vec::new();
        for (place, order) in self.log.orders.iter().enumerate() {
            if keys_of(self.house, &order.writes).is_empty() {
                continue;
            }
            for other in 0..HOUSES {
                if other != self.house && !keys_of(other, &order.reads).is_empty() {
                    wanted.push((place, other));
                }
            }
        }
        wanted
    }

    /// Something that the house needs to be told, but sometimes once more, or
    /// before it has the order.
    fn wanted_telling(&mut self) -> String {
        let places = self.solo.house().places();
        let again = self.random.percent(15);
        let mut wanted = self.wanted();
        wanted.retain(|(place, other)| {
            *place < places + 1 && (again || !self.told.contains(&(*place, *other)))
        });
        if wanted.is_empty() {
            return "ready".to_string();
        }
        let (place, other) = self.random.pick(&wanted);
        if place < places {
            self.told.insert((place, other));
        }
        let mut values = self.log.told_by(other, place);
        if !self.honest && self.random.percent(30) {
            values = values.iter().map(|_| self.random.number()).collect();
        }
        telling(other, place, &values)
    }

    /// A telling that is mostly refused. Whatever its values are, they are kept
    /// only where they are right.
    fn any_telling(&mut self) -> String {
        let place = self.any_place();
        let reads = match self.log.orders.get(place) {
            Some(order) => order.reads.as_slice(),
            None => &[],
        };
        let teller = match self.random.below(10) {
            0..=1 => self.house,
            2 => self.random.between(usize::from(HOUSES), 255) as u8,
            3..=8 if !reads.is_empty() => house_of(self.random.pick(reads)),
            _ => self.random.below(usize::from(HOUSES)) as u8,
        };
        let mut values = if reads.is_empty() { vec![5] } else { self.log.told_by(teller, place) };
        match self.random.below(5) {
            0 => values.push(7),
            1 => values.truncate(values.len().saturating_sub(1)),
            2 => values.resize(self.random.pick(&[15, 16]), 9),
            _ => {}
        }
        telling(teller, place, &values)
    }

    fn damaged(&mut self) {
        if self.random.percent(70) {
            let line = self.random.pick(&DAMAGED);
            return self.say(line.as_bytes());
        }
        // Nothing that is told, lest it become a lie.
        let mut line = match self.random.below(3) {
            0 => "order".to_string(),
            1 => self.listed_task(),
            _ => self.any_task(),
        }
        .into_bytes();
        let place = self.random.below(line.len());
        match self.random.byte() {
            b'\n' => {}
            byte => line[place] = byte,
        }
        self.say(&line);
    }

    /// The house gets everything, is told everything and does everything.
    fn finish(&mut self) {
        while !self.has_all_orders() {
            self.say(b"order");
        }
        self.say(b"order");
        let mut wanted = self.wanted();
        while !wanted.is_empty() {
            let (place, other) = wanted.swap_remove(self.random.below(wanted.len()));
            let line = telling(other, place, &self.log.told_by(other, place));
            self.say(line.as_bytes());
            if self.random.percent(10) {
                self.say(b"go 2");
            }
        }
        self.say(b"ready");
        while !self.solo.house().ready().is_empty() {
            self.say(b"go 1000000");
        }
        self.say(b"go 1000000");
        self.say(b"ready");
        let mut touched = BTreeSet::from([self.any_key()]);
        for order in &self.log.orders {
            touched.extend(keys_of(self.house, &order.reads));
            touched.extend(keys_of(self.house, &order.writes));
        }
        for key in touched {
            self.say(format!("show {key}").as_bytes());
        }
    }
}

fn telling(house: u8, place: usize, values: &[u32]) -> String {
    let mut line = format!("told {house} {place}");
    for value in values {
        line += &format!(" {value}");
    }
    line
}

#[cfg(test)]
mod tests {
    use super::*;
    use std::collections::BTreeMap;

    /// Plays the whole script and gives the house as it then is, and the answers.
    fn played<'a>(schedule: &'a Schedule) -> (Solo<'a>, Vec<String>) {
        let mut solo = Solo::new(schedule.house, &schedule.line);
        let lines = schedule.script.split(|byte| *byte == b'\n');
        let answers = lines.filter_map(|line| solo.play(line)).collect();
        (solo, answers)
    }

    #[test]
    fn in_the_end_the_values_are_the_serial_ones() {
        let mut honest = 0;
        for seed in 0..120 {
            let schedule = schedule(seed);
            let (solo, _) = played(&schedule);
            assert_eq!(solo.house().ready(), [], "seed {seed}");
            if !schedule.honest {
                continue;
            }
            honest += 1;
            for key in 0..=u16::MAX {
                if house_of(key) == schedule.house {
                    assert_eq!(
                        solo.house().value(key),
                        Some(schedule.end.get(key)),
                        "seed {seed}: {key}"
                    );
                }
            }
        }
        assert!(honest > 60);
    }

    #[test]
    fn every_answer_comes_up() {
        let mut times: BTreeMap<&str, usize> = BTreeMap::new();
        for seed in 0..120 {
            let (_, answers) = played(&schedule(seed));
            for answer in &answers {
                let kind = match answer.split(' ').collect::<Vec<_>>().as_slice() {
                    ["refused", "2"] => "misfit",
                    ["refused", "3"] => "beyond",
                    ["refused", "4"] => "not wanted",
                    ["refused", "5"] => "not now",
                    ["refused:", "no", ..] => "no more orders",
                    ["refused:", "not", ..] => "not a key",
                    ["kept"] => "kept",
                    ["looked", _, _] => "looked at one key",
                    ["looked", ..] => "looked at many keys",
                    ["wrote", _, "nothing"] => "wrote nothing",
                    ["wrote", _, _] => "wrote one key",
                    ["wrote", ..] => "wrote many keys",
                    ["ready:"] => "nothing ready",
                    ["ready:", _, _] => "one task ready",
                    ["ready:", ..] => "many tasks ready",
                    ["did:"] => "did nothing",
                    ["did:", _, _] => "did one task",
                    ["did:", ..] => "did many tasks",
                    ["line", ..] => "not understood",
                    ["order", _] => "order",
                    _ => "value",
                };
                *times.entry(kind).or_default() += 1;
            }
        }
        assert_eq!(times.len(), 21, "{times:?}");
        assert!(times.values().all(|times| *times > 30), "{times:?}");
    }
}
