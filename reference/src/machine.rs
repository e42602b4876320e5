//! The machine of the houses, naively, for random runs: each house does its
//! part of the orders of a log, and may crash; after each deed the promises
//! are checked.
//!
//! Key k belongs to house k mod 16. Only the first few houses have keys here,
//! and only these are simulated. In the others everything is done from the
//! start: they count as having copied the whole log and having said so.
//!
//! [`Rules`] can make one rule wrong, to see which [`Promise`] it breaks.

use std::collections::{BTreeMap, BTreeSet};

use crate::execute::{Values, execute};
use crate::order::{Instruction, Order};
use crate::random::Random;

const HOUSES: u16 = 16;
/// All keys of a log are below this.
const KEYS: u16 = 48;

#[derive(Clone, Copy, Debug, PartialEq, Eq, PartialOrd, Ord)]
pub enum Promise {
    /// All that is noted, heard or sent is what stands there serially.
    ReadsRight,
    /// When all is done, the values are those that the log leaves serially.
    EndsRight,
    /// Two runs over one log never say different things of an order.
    Alike,
    /// Calm deeds, without any message from before, do everything everywhere.
    NeverStuck,
    /// Of the orders that write a key, those done are the first so many.
    NoGap,
    /// What was told can be told again while a house has not copied beyond it.
    ToldStays,
}

/// Which rules are wrong. By default none is.
#[derive(Clone, Copy, Debug, Default)]
pub struct Rules {
    /// A house writes once it knows all, and does not wait for earlier orders.
    pub write_without_waiting: bool,
    /// A house looks again for what it has noted.
    pub look_anew: bool,
    /// A house drops a note once the others were told, copied or not.
    pub drop_once_told: bool,
    /// An order waits only for earlier ones that write what it writes.
    pub apart_only_where_both_write: bool,
    /// A checkpoint does not need the notes before it on disk.
    pub checkpoint_before_sync: bool,
    /// A checkpoint may have an earlier place than the one before.
    pub place_may_fall: bool,
}

/// What two random runs over the log of a seed came to.
#[derive(Debug, Default)]
pub struct Report {
    /// The promises broken, in the order in which they broke.
    pub broken: Vec<Promise>,
    /// The deeds, each with its house.
    pub deeds: Vec<(usize, Deed)>,
}

/// Two random runs over the log of a seed, each completed by calm deeds.
pub fn try_seed(seed: u64, rules: Rules) -> Report {
    let mut random = Random::new(seed);
    let log = Log::random(&mut random);
    let mut run = Run::new(&log, rules);
    for _ in 0..2 {
        run.start_again();
        run.at_random(&mut random);
        run.complete();
    }
    run.report
}

/// The keys of a house that an order reads and writes.
struct Part {
    reads: Vec<u16>,
    writes: Vec<u16>,
}

struct Log {
    orders: Vec<Order>,
    /// By house and place.
    parts: Vec<Vec<Part>>,
    /// What stands in each key before the order at a place, serially, and, as
    /// the last, behind all orders.
    before: Vec<Vec<u32>>,
}

impl Log {
    fn new(houses: usize, first: Vec<u32>, orders: Vec<Order>) -> Log {
        let mut before = vec![first];
        for order in &orders {
            before.push(after(order, before.last().expect("the first values")));
        }
        let mut parts = Vec::new();
        for house in 0..houses {
            let part = |order: &Order| Part {
                reads: keys_of_house(house, &order.reads),
                writes: keys_of_house(house, &order.writes),
            };
            parts.push(orders.iter().map(part).collect());
        }
        Log { orders, parts, before }
    }

    fn random(random: &mut Random) -> Log {
        let houses = random.between(2, 5);
        // With few keys many orders conflict.
        let most = random.between(1, 2);
        let count = random.between(4, 8);
        let orders = (0..count).map(|_| random_order(random, houses, most)).collect();
        let first = (0..KEYS).map(|_| random.number()).collect();
        Log::new(houses, first, orders)
    }

    fn part(&self, house: usize, place: usize) -> &Part {
        &self.parts[house][place]
    }

    fn len(&self) -> usize {
        self.orders.len()
    }

    fn houses(&self) -> usize {
        self.parts.len()
    }
}

fn keys_of_house(house: usize, keys: &[u16]) -> Vec<u16> {
    keys.iter().copied().filter(|key| owner(*key) == house).collect()
}

fn owner(key: u16) -> usize {
    usize::from(key % HOUSES)
}

/// What an order leaves in each key if it finds these values.
fn after(order: &Order, values: &[u32]) -> Vec<u32> {
    let mut all = Values::new();
    for (key, value) in (0..KEYS).zip(values) {
        all.set(key, *value);
    }
    execute(order, &mut all);
    (0..KEYS).map(|key| all.get(key)).collect()
}

/// An order of at most 3 reads and 2 writes, of `most` keys in each house.
/// Some stop, and some stop if what they read is large.
fn random_order(random: &mut Random, houses: usize, most: usize) -> Order {
    let reads = random_keys(random, houses, most, 3);
    let writes = random_keys(random, houses, most, 2);
    let number = random.number();
    let stops = match random.below(8) {
        0 => vec![Instruction::Stop],
        1 => vec![
            Instruction::Set { to: LIMIT, number: random.number() },
            Instruction::SkipIfLess { left: SUM, right: LIMIT, count: 1 },
            Instruction::Stop,
        ],
        _ => vec![],
    };
    order(reads, writes, number, &stops)
}

// Registers behind those of the reads.
const SUM: u8 = 20;
const LIMIT: u8 = 21;

/// An order whose writes depend on all that it reads, so that a wrong read
/// shows. `stops` stands before the writes.
fn order(reads: Vec<u16>, writes: Vec<u16>, number: u32, stops: &[Instruction]) -> Order {
    let mut instructions = vec![Instruction::Set { to: SUM, number }];
    for register in 0..reads.len() as u8 {
        instructions.push(Instruction::Add { to: SUM, left: SUM, right: register });
    }
    instructions.extend(stops);
    for index in 0..writes.len() as u8 {
        instructions.push(Instruction::Write { index, from: SUM });
        instructions.push(Instruction::Add { to: SUM, left: SUM, right: SUM });
    }
    Order { reads, writes, instructions }
}

/// Up to `count` keys, rising.
fn random_keys(random: &mut Random, houses: usize, most: usize, count: usize) -> Vec<u16> {
    let mut keys = BTreeSet::new();
    for _ in 0..random.between(0, count) {
        keys.insert(random.below(houses) as u16 + HOUSES * random.below(most) as u16);
    }
    keys.into_iter().collect()
}

#[derive(Clone, Debug, PartialEq, Eq)]
pub enum Message {
    /// What a house noted for an order.
    Told { house: usize, place: usize, values: Vec<u32> },
    /// A house asks another one for what it noted for an order.
    Asks { house: usize, place: usize, of: usize },
    /// The place of a house's checkpoint.
    Copied { house: usize, place: usize },
}

#[derive(Clone, Debug, PartialEq, Eq)]
pub enum Deed {
    Grow,
    Look(usize),
    Write(usize),
    Sync,
    Tell(usize),
    Ask {
        place: usize,
        of: usize,
    },
    Hear(Message),
    Checkpoint(usize),
    Say,
    Drop(usize),
    /// The notes for these orders, which are not on disk, go.
    Crash {
        lost: Vec<usize>,
    },
}

struct House {
    /// How many orders of the log it has.
    have: usize,
    /// The value of each key; only those of its own keys count.
    value: Vec<u32>,
    /// By place: the values of its keys that the order reads.
    noted: BTreeMap<usize, Vec<u32>>,
    /// The places of the notes that are on disk.
    synced: BTreeSet<usize>,
    /// The places of the orders whose part it wrote since it came up.
    wrote: BTreeSet<usize>,
    /// By place and key: what it was told.
    heard: BTreeMap<(usize, u16), u32>,
    /// The place of its checkpoint, and the values there.
    place: usize,
    saved: Vec<u32>,
    /// By house: the farthest place that it said it copied.
    copied: Vec<usize>,
}

impl House {
    fn fresh(log: &Log) -> House {
        House {
            have: 0,
            value: log.before[0].clone(),
            noted: BTreeMap::new(),
            synced: BTreeSet::new(),
            wrote: BTreeSet::new(),
            heard: BTreeMap::new(),
            place: 0,
            saved: log.before[0].clone(),
            copied: vec![0; log.houses()],
        }
    }

    fn hear(&mut self, log: &Log, message: &Message) {
        match message {
            Message::Told { house, place, values } => {
                for (key, value) in log.part(*house, *place).reads.iter().zip(values) {
                    self.heard.insert((*place, *key), *value);
                }
            }
            Message::Copied { house, place } => {
                self.copied[*house] = self.copied[*house].max(*place);
            }
            Message::Asks { .. } => {}
        }
    }

    fn crash(&mut self, lost: &[usize]) {
        self.value.clone_from(&self.saved);
        self.noted.retain(|place, _| !lost.contains(place));
        self.synced = self.noted.keys().copied().collect();
        self.wrote.clear();
        self.heard.clear();
        self.copied.fill(0);
    }
}

/// The houses and all messages ever sent.
struct Net<'a> {
    log: &'a Log,
    rules: Rules,
    houses: Vec<House>,
    messages: Vec<Message>,
}

impl Net<'_> {
    fn new(log: &Log, rules: Rules) -> Net<'_> {
        let houses = (0..log.houses()).map(|_| House::fresh(log)).collect();
        Net { log, rules, houses, messages: Vec::new() }
    }

    fn done(&self, house: usize, place: usize) -> bool {
        let state = &self.houses[house];
        let part = self.log.part(house, place);
        if place < state.place {
            true
        } else if !part.writes.is_empty() {
            state.wrote.contains(&place)
        } else if !part.reads.is_empty() {
            state.noted.contains_key(&place)
        } else {
            true
        }
    }

    fn all_done(&self) -> bool {
        let mut houses = 0..self.houses.len();
        houses.all(|house| (0..self.log.len()).all(|place| self.done(house, place)))
    }

    /// Whether every earlier order that conflicts is done in the house.
    fn ready(&self, house: usize, place: usize) -> bool {
        (0..place).all(|earlier| !self.conflict(house, place, earlier) || self.done(house, earlier))
    }

    fn conflict(&self, house: usize, place: usize, earlier: usize) -> bool {
        let one = self.log.part(house, place);
        let other = self.log.part(house, earlier);
        if meet(&one.writes, &other.writes) {
            return true;
        }
        let read_and_written = meet(&one.writes, &other.reads) || meet(&one.reads, &other.writes);
        read_and_written && !self.rules.apart_only_where_both_write
    }

    /// What a house knows to have stood in a key for an order.
    fn knows(&self, house: usize, place: usize, key: u16) -> Option<u32> {
        let state = &self.houses[house];
        if owner(key) != house {
            return state.heard.get(&(place, key)).copied();
        }
        let values = state.noted.get(&place)?;
        let index = self.log.part(house, place).reads.iter().position(|own| *own == key)?;
        Some(values[index])
    }

    /// Whether the conditions of a deed hold.
    fn may(&self, house: usize, deed: &Deed) -> bool {
        let state = &self.houses[house];
        match *deed {
            Deed::Grow => state.have < self.log.len(),
            Deed::Look(place) => self.may_look(house, place),
            Deed::Write(place) => self.may_write(house, place),
            Deed::Tell(place) => state.noted.contains_key(&place) && state.synced.contains(&place),
            Deed::Ask { place, .. } => place < state.have,
            Deed::Hear(ref message) => self.may_hear(house, message),
            Deed::Checkpoint(place) => self.may_make_checkpoint(house, place),
            Deed::Drop(place) => self.may_drop(house, place),
            Deed::Sync | Deed::Say => true,
            Deed::Crash { ref lost } => lost.iter().all(|place| !state.synced.contains(place)),
        }
    }

    fn may_look(&self, house: usize, place: usize) -> bool {
        let state = &self.houses[house];
        place < state.have
            && state.place <= place
            && !self.log.part(house, place).reads.is_empty()
            && (self.rules.look_anew || !state.noted.contains_key(&place))
            && self.ready(house, place)
    }

    fn may_write(&self, house: usize, place: usize) -> bool {
        let state = &self.houses[house];
        let part = self.log.part(house, place);
        place < state.have
            && state.place <= place
            && !part.writes.is_empty()
            && !state.wrote.contains(&place)
            && (part.reads.is_empty() || state.noted.contains_key(&place))
            && (self.rules.write_without_waiting || self.ready(house, place))
            && self.knows_all(house, place)
    }

    fn knows_all(&self, house: usize, place: usize) -> bool {
        let mut reads = self.log.orders[place].reads.iter();
        reads.all(|key| self.knows(house, place, *key).is_some())
    }

    fn may_hear(&self, house: usize, message: &Message) -> bool {
        let understood = match message {
            Message::Told { place, .. } => *place < self.houses[house].have,
            Message::Copied { .. } => true,
            Message::Asks { .. } => false,
        };
        understood && self.messages.contains(message)
    }

    fn may_make_checkpoint(&self, house: usize, place: usize) -> bool {
        let state = &self.houses[house];
        let untouched = |later: usize| {
            let part = self.log.part(house, later);
            part.reads.is_empty() && part.writes.is_empty()
        };
        let on_disk =
            state.noted.keys().all(|noted| *noted >= place || state.synced.contains(noted));
        place <= state.have
            && (self.rules.place_may_fall || state.place <= place)
            && (0..place).all(|earlier| self.done(house, earlier))
            && (place..self.log.len()).all(|later| untouched(later) || !self.done(house, later))
            && (self.rules.checkpoint_before_sync || on_disk)
    }

    fn may_drop(&self, house: usize, place: usize) -> bool {
        if self.rules.drop_once_told {
            return self.all_were_told(house, place);
        }
        self.houses[house].copied.iter().all(|copied| place < *copied)
    }

    /// Whether the house has done its part, told of it, and every other house
    /// that writes for the order has heard it.
    fn all_were_told(&self, house: usize, place: usize) -> bool {
        let needs_it = |other: usize| {
            let writes = !self.log.part(other, place).writes.is_empty();
            other != house && writes && self.houses[other].place <= place
        };
        let has_heard = |other: usize| {
            let mut keys = self.log.part(house, place).reads.iter();
            keys.all(|key| self.houses[other].heard.contains_key(&(place, *key)))
        };
        self.done(house, place)
            && self.has_told(house, place)
            && (0..self.houses.len()).all(|other| !needs_it(other) || has_heard(other))
    }

    fn has_told(&self, house: usize, place: usize) -> bool {
        self.messages.iter().any(|message| match *message {
            Message::Told { house: teller, place: of, .. } => (teller, of) == (house, place),
            _ => false,
        })
    }

    /// Does a deed whose conditions hold.
    fn perform(&mut self, house: usize, deed: &Deed) {
        let log = self.log;
        let state = &mut self.houses[house];
        match *deed {
            Deed::Grow => state.have += 1,
            Deed::Look(place) => {
                let reads = log.part(house, place).reads.iter();
                let values = reads.map(|key| state.value[usize::from(*key)]).collect();
                state.noted.insert(place, values);
            }
            Deed::Write(place) => self.write(house, place),
            Deed::Sync => state.synced = state.noted.keys().copied().collect(),
            Deed::Tell(place) => {
                let values = state.noted[&place].clone();
                self.messages.push(Message::Told { house, place, values });
            }
            Deed::Ask { place, of } => self.messages.push(Message::Asks { house, place, of }),
            Deed::Hear(ref message) => state.hear(log, message),
            Deed::Checkpoint(place) => {
                state.place = place;
                state.saved.clone_from(&state.value);
            }
            Deed::Say => {
                let place = state.place;
                self.messages.push(Message::Copied { house, place });
            }
            Deed::Drop(place) => {
                state.noted.remove(&place);
                state.synced.remove(&place);
            }
            Deed::Crash { ref lost } => state.crash(lost),
        }
    }

    fn write(&mut self, house: usize, place: usize) {
        let order = &self.log.orders[place];
        // What is read is as the house knows it, whatever stands there now.
        let mut found = self.houses[house].value.clone();
        for key in &order.reads {
            let known = self.knows(house, place, *key).expect("the house knows all that is read");
            found[usize::from(*key)] = known;
        }
        let left = after(order, &found);
        let state = &mut self.houses[house];
        for key in &self.log.part(house, place).writes {
            state.value[usize::from(*key)] = left[usize::from(*key)];
        }
        state.wrote.insert(place);
    }

    /// Whether all that a house noted, heard or knows is right.
    fn reads_right(&self, house: usize) -> bool {
        let state = &self.houses[house];
        let mut noted = state.noted.iter();
        let mut heard = state.heard.iter();
        noted.all(|(place, values)| self.told_right(house, *place, values))
            && heard.all(|((place, key), value)| self.before(*place, *key) == *value)
            && (0..self.log.len()).all(|place| self.given_right(house, place))
    }

    fn told_right(&self, house: usize, place: usize, values: &[u32]) -> bool {
        let keys = self.log.part(house, place).reads.iter();
        keys.map(|key| self.before(place, *key)).eq(values.iter().copied())
    }

    /// Whether a write for this order would be given the right values.
    fn given_right(&self, house: usize, place: usize) -> bool {
        self.log.orders[place].reads.iter().all(|key| match self.knows(house, place, *key) {
            Some(value) => value == self.before(place, *key),
            None => true,
        })
    }

    fn before(&self, place: usize, key: u16) -> u32 {
        self.log.before[place][usize::from(key)]
    }

    fn ends_right(&self) -> bool {
        let right = |key: u16| match self.houses.get(owner(key)) {
            Some(house) => house.value[usize::from(key)] == self.before(self.log.len(), key),
            // No order has a key of a house that is not simulated.
            None => true,
        };
        !self.all_done() || (0..KEYS).all(right)
    }

    fn no_gap(&self, house: usize) -> bool {
        let both_write = |one: usize, other: usize| {
            meet(&self.log.part(house, one).writes, &self.log.part(house, other).writes)
        };
        (0..self.log.len()).all(|later| {
            !self.done(house, later)
                || (0..later)
                    .all(|earlier| !both_write(earlier, later) || self.done(house, earlier))
        })
    }

    fn told_stays(&self) -> bool {
        let least = self.houses.iter().map(|house| house.place).min().unwrap_or(0);
        self.messages.iter().all(|message| match message {
            Message::Told { house, place, values } if least <= *place => {
                let teller = &self.houses[*house];
                teller.noted.get(place) == Some(values) && teller.synced.contains(place)
            }
            _ => true,
        })
    }
}

fn meet(one: &[u16], other: &[u16]) -> bool {
    one.iter().any(|key| other.contains(key))
}

/// Runs over one log, one after the other, and what is found on the way.
struct Run<'a> {
    net: Net<'a>,
    /// By house and place: what a run first noted, and what one first told.
    first_noted: BTreeMap<(usize, usize), Vec<u32>>,
    first_told: BTreeMap<(usize, usize), Vec<u32>>,
    report: Report,
}

impl Run<'_> {
    fn new(log: &Log, rules: Rules) -> Run<'_> {
        Run {
            net: Net::new(log, rules),
            first_noted: BTreeMap::new(),
            first_told: BTreeMap::new(),
            report: Report::default(),
        }
    }

    fn start_again(&mut self) {
        self.net = Net::new(self.net.log, self.net.rules);
    }

    /// Draws deeds and does those that may be done.
    fn at_random(&mut self, random: &mut Random) {
        let crashes_per_thousand = random.pick(&[0, 2, 5, 10, 20]);
        for _ in 0..random.between(50, 1000) {
            let house = random.below(self.net.houses.len());
            if random.below(1000) < crashes_per_thousand {
                let deed = random_crash(random, &self.net.houses[house]);
                self.attempt(house, deed);
            } else if let Some(deed) = random_deed(random, &self.net, house) {
                self.attempt(house, deed);
            }
        }
    }

    /// Does a deed if it may be done, and checks the promises. That a deed may
    /// not be done is nothing wrong.
    fn attempt(&mut self, house: usize, deed: Deed) {
        if self.net.may(house, &deed) {
            let sent_before = self.net.messages.len();
            self.net.perform(house, &deed);
            self.report.deeds.push((house, deed));
            self.check(house, sent_before);
        }
    }

    /// Checks what the last deed, of this house, may have changed.
    fn check(&mut self, house: usize, sent_before: usize) {
        let mut sent_right = true;
        let mut alike = true;
        for message in &self.net.messages[sent_before..] {
            if let Message::Told { house, place, values } = message {
                sent_right &= self.net.told_right(*house, *place, values);
                alike &= same_as_first(&mut self.first_told, *house, *place, values);
            }
        }
        for (place, values) in &self.net.houses[house].noted {
            alike &= same_as_first(&mut self.first_noted, house, *place, values);
        }
        self.expect(Promise::ReadsRight, sent_right && self.net.reads_right(house));
        self.expect(Promise::Alike, alike);
        self.expect(Promise::NoGap, self.net.no_gap(house));
        self.expect(Promise::ToldStays, self.net.told_stays());
        self.expect(Promise::EndsRight, self.net.ends_right());
    }

    fn expect(&mut self, promise: Promise, kept: bool) {
        if !kept && !self.report.broken.contains(&promise) {
            self.report.broken.push(promise);
        }
    }

    /// Does all orders everywhere, in the order of the log, by calm deeds and
    /// without any message from before.
    fn complete(&mut self) {
        for place in 0..self.net.log.len() {
            self.complete_order(place);
        }
        self.expect(Promise::NeverStuck, self.net.all_done());
        self.expect(Promise::EndsRight, self.net.ends_right());
    }

    fn complete_order(&mut self, place: usize) {
        let sent_before = self.net.messages.len();
        for house in 0..self.net.houses.len() {
            while self.net.houses[house].have <= place {
                self.attempt(house, Deed::Grow);
            }
            // With a wrong rule the house might look for what it has noted.
            if !self.net.houses[house].noted.contains_key(&place) {
                self.attempt(house, Deed::Look(place));
            }
            self.attempt(house, Deed::Sync);
            self.attempt(house, Deed::Tell(place));
        }
        let told = self.net.messages[sent_before..].to_vec();
        for house in 0..self.net.houses.len() {
            for message in &told {
                self.attempt(house, Deed::Hear(message.clone()));
            }
            self.attempt(house, Deed::Write(place));
        }
    }
}

fn same_as_first(
    first: &mut BTreeMap<(usize, usize), Vec<u32>>,
    house: usize,
    place: usize,
    values: &[u32],
) -> bool {
    first.entry((house, place)).or_insert_with(|| values.to_vec()) == values
}

/// Each note that is not on disk goes or stays.
fn random_crash(random: &mut Random, house: &House) -> Deed {
    let volatile = house.noted.keys().filter(|place| !house.synced.contains(place));
    Deed::Crash { lost: volatile.copied().filter(|_| random.percent(50)).collect() }
}

/// A deed that is no crash. It may be one that may not be done now.
fn random_deed(random: &mut Random, net: &Net, house: usize) -> Option<Deed> {
    let place = random.below(net.log.len());
    Some(match random.below(24) {
        0..=2 => Deed::Grow,
        3..=6 => Deed::Look(place),
        7..=10 => Deed::Write(place),
        11 => Deed::Sync,
        12 | 13 => Deed::Tell(random_note(random, net, house)?),
        14 => Deed::Ask { place, of: random.below(net.houses.len()) },
        15..=18 => Deed::Hear(random_message(random, net)?),
        19 | 20 => Deed::Checkpoint(random_checkpoint(random, net, house)),
        21 => Deed::Say,
        _ => Deed::Drop(random_note(random, net, house)?),
    })
}

/// The place of a note of the house.
fn random_note(random: &mut Random, net: &Net, house: usize) -> Option<usize> {
    let noted: Vec<usize> = net.houses[house].noted.keys().copied().collect();
    if noted.is_empty() { None } else { Some(random.pick(&noted)) }
}

/// Any message ever sent that can be heard; often one of the last, or else
/// news would spread too slowly.
fn random_message(random: &mut Random, net: &Net) -> Option<Message> {
    let is_heard = |message: &&Message| !matches!(message, Message::Asks { .. });
    let messages: Vec<&Message> = net.messages.iter().filter(is_heard).collect();
    let from = if random.percent(50) { messages.len().saturating_sub(8) } else { 0 };
    let messages = &messages[from..];
    if messages.is_empty() { None } else { Some(random.pick(messages).clone()) }
}

/// Any place; often the last one before which all is done, or else few
/// checkpoints would get far.
fn random_checkpoint(random: &mut Random, net: &Net, house: usize) -> usize {
    let end = net.log.len();
    if random.percent(50) {
        return random.between(0, end);
    }
    (0..end).find(|place| !net.done(house, *place)).unwrap_or(end).min(net.houses[house].have)
}

#[cfg(test)]
mod tests {
    use super::Promise::*;
    use super::*;

    const RIGHT: Rules = Rules {
        write_without_waiting: false,
        look_anew: false,
        drop_once_told: false,
        apart_only_where_both_write: false,
        checkpoint_before_sync: false,
        place_may_fall: false,
    };
    const WRITE_WITHOUT_WAITING: Rules = Rules { write_without_waiting: true, ..RIGHT };
    const LOOK_ANEW: Rules = Rules { look_anew: true, ..RIGHT };
    const DROP_ONCE_TOLD: Rules = Rules { drop_once_told: true, ..RIGHT };
    const APART_ONLY_WHERE_BOTH_WRITE: Rules = Rules { apart_only_where_both_write: true, ..RIGHT };
    const CHECKPOINT_BEFORE_SYNC: Rules = Rules { checkpoint_before_sync: true, ..RIGHT };
    const PLACE_MAY_FALL: Rules = Rules { place_may_fall: true, ..RIGHT };

    #[test]
    fn the_right_rules_break_nothing() {
        for seed in 0..1500 {
            let report = try_seed(seed, RIGHT);
            assert_eq!(report.broken, [], "seed {seed}: {:?}", report.deeds);
        }
    }

    #[test]
    fn every_deed_comes_up() {
        let mut times: BTreeMap<&str, usize> = BTreeMap::new();
        for seed in 0..100 {
            for (_, deed) in try_seed(seed, RIGHT).deeds {
                *times.entry(name(&deed)).or_default() += 1;
            }
        }
        assert_eq!(times.len(), 12, "{times:?}");
        assert!(times.values().all(|times| *times >= 30), "{times:?}");
    }

    fn name(deed: &Deed) -> &'static str {
        match deed {
            Deed::Grow => "grow",
            Deed::Look(_) => "look",
            Deed::Write(_) => "write",
            Deed::Sync => "sync",
            Deed::Tell(_) => "tell",
            Deed::Ask { .. } => "ask",
            Deed::Hear(_) => "hear",
            Deed::Checkpoint(_) => "checkpoint",
            Deed::Say => "say",
            Deed::Drop(_) => "drop",
            Deed::Crash { lost } if lost.is_empty() => "crash that loses no note",
            Deed::Crash { .. } => "crash that loses notes",
        }
    }

    #[test]
    fn random_runs_find_write_without_waiting() {
        let found = Found::in_seeds(100, WRITE_WITHOUT_WAITING);
        // A wrong read comes first where an order reads what a later one wrote.
        found.expect(&[ReadsRight, NoGap], &[ReadsRight, EndsRight, Alike, NoGap]);
    }

    #[test]
    fn random_runs_find_look_anew() {
        let found = Found::in_seeds(100, LOOK_ANEW);
        found.expect(&[ReadsRight], &[ReadsRight, EndsRight, Alike, ToldStays]);
    }

    #[test]
    fn random_runs_find_drop_once_told() {
        let found = Found::in_seeds(100, DROP_ONCE_TOLD);
        found.expect(&[ToldStays], &[ReadsRight, EndsRight, Alike, NeverStuck, ToldStays]);
    }

    #[test]
    fn random_runs_find_apart_only_where_both_write() {
        let found = Found::in_seeds(100, APART_ONLY_WHERE_BOTH_WRITE);
        found.expect(&[ReadsRight], &[ReadsRight, EndsRight, Alike]);
    }

    #[test]
    fn random_runs_find_checkpoint_before_sync() {
        let found = Found::in_seeds(200, CHECKPOINT_BEFORE_SYNC);
        found.expect(&[NeverStuck], &[NeverStuck]);
    }

    #[test]
    fn random_runs_find_place_may_fall() {
        let found = Found::in_seeds(200, PLACE_MAY_FALL);
        found.expect(&[ToldStays], &[ToldStays]);
    }

    /// What the runs of many seeds break: by promise, the first seed.
    #[derive(Debug, Default)]
    struct Found {
        /// Broken before any other promise.
        first: BTreeMap<Promise, u64>,
        /// Broken at any time.
        all: BTreeMap<Promise, u64>,
    }

    impl Found {
        fn in_seeds(seeds: u64, rules: Rules) -> Found {
            let mut found = Found::default();
            for seed in 0..seeds {
                let broken = try_seed(seed, rules).broken;
                for promise in broken.iter().take(1) {
                    found.first.entry(*promise).or_insert(seed);
                }
                for promise in broken {
                    found.all.entry(promise).or_insert(seed);
                }
            }
            found
        }

        fn expect(&self, first: &[Promise], all: &[Promise]) {
            assert!(self.first.keys().eq(first), "{self:?}");
            assert!(self.all.keys().eq(all), "{self:?}");
        }
    }

    // Small examples, deed by deed. Keys 0 and 16 are in house 0, key 1 is in
    // house 1.

    #[test]
    fn an_example_of_write_without_waiting() {
        let log = log_of(&[(&[1], &[0]), (&[1], &[0])]);
        let mut run = started(&log, WRITE_WITHOUT_WAITING);
        for place in [0, 1] {
            must(&mut run, 1, Deed::Look(place));
            must(&mut run, 1, Deed::Sync);
            must(&mut run, 1, Deed::Tell(place));
        }
        must(&mut run, 0, Deed::Crash { lost: vec![] });
        hear_all(&mut run, 0);
        only_by_the_wrong_rule(&mut run, 0, Deed::Write(1));
        run.complete();
        assert_eq!(run.report.broken, [NoGap, EndsRight]);
    }

    #[test]
    fn an_example_of_look_anew() {
        let log = log_of(&[(&[0], &[1]), (&[], &[0])]);
        let mut run = started(&log, LOOK_ANEW);
        look_and_tell(&mut run);
        must(&mut run, 0, Deed::Write(1));
        only_by_the_wrong_rule(&mut run, 0, Deed::Look(0));
        assert_eq!(run.report.broken, [ReadsRight, Alike, ToldStays]);
        run.complete();
        assert_eq!(run.report.broken, [ReadsRight, Alike, ToldStays, EndsRight]);
    }

    #[test]
    fn an_example_of_drop_once_told() {
        let log = log_of(&[(&[0], &[1]), (&[], &[0])]);
        let mut run = started(&log, DROP_ONCE_TOLD);
        look_and_tell(&mut run);
        hear_all(&mut run, 1);
        must(&mut run, 0, Deed::Write(1));
        must(&mut run, 0, Deed::Checkpoint(2));
        only_by_the_wrong_rule(&mut run, 0, Deed::Drop(0));
        must(&mut run, 1, Deed::Crash { lost: vec![] });
        run.complete();
        assert_eq!(run.report.broken, [ToldStays, NeverStuck]);
    }

    #[test]
    fn an_example_of_drop_once_told_without_a_checkpoint() {
        let log = log_of(&[(&[0], &[1]), (&[], &[0])]);
        let mut run = started(&log, DROP_ONCE_TOLD);
        look_and_tell(&mut run);
        hear_all(&mut run, 1);
        must(&mut run, 0, Deed::Write(1));
        only_by_the_wrong_rule(&mut run, 0, Deed::Drop(0));
        must(&mut run, 1, Deed::Crash { lost: vec![] });
        // Nothing is noted any more, so house 0 may look, and finds what order
        // 1 left. Nobody is stuck.
        run.complete();
        assert_eq!(run.report.broken, [ToldStays, ReadsRight, Alike, EndsRight]);
    }

    #[test]
    fn an_example_of_apart_only_where_both_write() {
        let log = log_of(&[(&[0], &[]), (&[], &[0])]);
        let mut run = started(&log, APART_ONLY_WHERE_BOTH_WRITE);
        only_by_the_wrong_rule(&mut run, 0, Deed::Write(1));
        must(&mut run, 0, Deed::Look(0));
        run.complete();
        assert_eq!(run.report.broken, [ReadsRight]);
    }

    #[test]
    fn an_example_of_checkpoint_before_sync() {
        let log = log_of(&[(&[0], &[1])]);
        let mut run = started(&log, CHECKPOINT_BEFORE_SYNC);
        must(&mut run, 0, Deed::Look(0));
        only_by_the_wrong_rule(&mut run, 0, Deed::Checkpoint(1));
        must(&mut run, 0, Deed::Crash { lost: vec![0] });
        run.complete();
        assert_eq!(run.report.broken, [NeverStuck]);
    }

    /// The order does not touch house 1, whose place falls: it does not need
    /// the note that is gone.
    #[test]
    fn an_example_of_place_may_fall() {
        let log = log_of(&[(&[0], &[16])]);
        let mut run = started(&log, PLACE_MAY_FALL);
        drop_what_all_have_copied(&mut run);
        only_by_the_wrong_rule(&mut run, 1, Deed::Checkpoint(0));
        run.complete();
        assert_eq!(run.report.broken, [ToldStays]);
    }

    /// The order touches house 1 and lies before its place, so it counts as
    /// done, and a checkpoint has no such order behind it.
    #[test]
    fn a_place_cannot_fall_below_an_order_that_touches_the_house() {
        let log = log_of(&[(&[0], &[1])]);
        let mut run = started(&log, PLACE_MAY_FALL);
        drop_what_all_have_copied(&mut run);
        assert!(!run.net.may(1, &Deed::Checkpoint(0)));
        must(&mut run, 1, Deed::Crash { lost: vec![] });
        assert!(!run.net.may(1, &Deed::Checkpoint(0)));
    }

    /// A log of orders with these reads and writes, for two houses.
    fn log_of(orders: &[(&[u16], &[u16])]) -> Log {
        let numbers = 1000..;
        let orders = orders
            .iter()
            .zip(numbers)
            .map(|((reads, writes), number)| order(reads.to_vec(), writes.to_vec(), number, &[]))
            .collect();
        Log::new(2, (0..KEYS).map(u32::from).collect(), orders)
    }

    /// Both houses have the whole log.
    fn started(log: &Log, rules: Rules) -> Run<'_> {
        let mut run = Run::new(log, rules);
        for house in [0, 1] {
            for _ in 0..log.len() {
                must(&mut run, house, Deed::Grow);
            }
        }
        run
    }

    /// House 0 notes what order 0 reads and tells it.
    fn look_and_tell(run: &mut Run) {
        must(run, 0, Deed::Look(0));
        must(run, 0, Deed::Sync);
        must(run, 0, Deed::Tell(0));
    }

    /// Order 0 is done, both houses put it behind a checkpoint, and house 0
    /// drops its note.
    fn drop_what_all_have_copied(run: &mut Run) {
        run.complete();
        for house in [0, 1] {
            must(run, house, Deed::Checkpoint(1));
            must(run, house, Deed::Say);
        }
        hear_all(run, 0);
        must(run, 0, Deed::Drop(0));
        assert_eq!(run.report.broken, []);
    }

    fn must(run: &mut Run, house: usize, deed: Deed) {
        assert!(run.net.may(house, &deed), "house {house}: {deed:?}");
        run.attempt(house, deed);
    }

    fn only_by_the_wrong_rule(run: &mut Run, house: usize, deed: Deed) {
        let wrong = run.net.rules;
        run.net.rules = RIGHT;
        assert!(!run.net.may(house, &deed), "house {house}: {deed:?}");
        run.net.rules = wrong;
        must(run, house, deed);
    }

    fn hear_all(run: &mut Run, house: usize) {
        for message in run.net.messages.clone() {
            run.attempt(house, Deed::Hear(message));
        }
    }
}
