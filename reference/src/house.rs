//! One house, naively: it has the values of its own keys and so much of the
//! log, and goes through the log anew for every question.
//!
//! Key k belongs to house k mod 16. For each order the house first looks: it
//! notes the values of its own keys that the order reads. Then, once the other
//! houses have told what the order reads there, it writes its own keys that the
//! order writes. Both wait for the earlier orders that conflict with it here.

use std::collections::{BTreeMap, BTreeSet};
use std::fmt;

use crate::execute::{End, Values, execute};
use crate::order::{Order, decode};

pub const HOUSES: u8 = 16;

/// What a house does for the order at a place.
#[derive(Clone, Copy, Debug, PartialEq, Eq)]
pub enum Task {
    Look(usize),
    Write(usize),
}

impl fmt::Display for Task {
    fn fmt(&self, f: &mut fmt::Formatter) -> fmt::Result {
        match self {
            Task::Look(place) => write!(f, "look {place}"),
            Task::Write(place) => write!(f, "write {place}"),
        }
    }
}

/// Why a house turns something away, with the number that says so.
#[derive(Clone, Copy, Debug, PartialEq, Eq)]
pub enum Refusal {
    /// There is no such house, or it has not so many values to tell.
    Misfit = 2,
    /// The house does not have so much of the log.
    Beyond = 3,
    /// Nobody asked for this, or it was told already.
    NotWanted = 4,
    /// The task may not be done now, or never.
    NotNow = 5,
}

impl Refusal {
    pub fn number(self) -> u8 {
        self as u8
    }
}

/// The keys that an order writes in a house and their new values, or `None` if
/// the order comes to nothing.
pub type Written = Option<Vec<(u16, u32)>>;

pub struct House {
    number: u8,
    /// The log so far. An order that is malformed stands as one without keys.
    orders: Vec<Order>,
    /// The keys of other houses are never set.
    values: Values,
    /// By place, what was noted, in the order of the read set.
    noted: BTreeMap<usize, Vec<u32>>,
    written: BTreeSet<usize>,
    /// By place and house, what was told, in the order of the read set.
    told: BTreeMap<(usize, u8), Vec<u32>>,
    ready: Vec<Task>,
}

impl House {
    pub fn new(number: u8) -> House {
        assert!(number < HOUSES);
        House {
            number,
            orders: Vec::new(),
            values: Values::new(),
            noted: BTreeMap::new(),
            written: BTreeSet::new(),
            told: BTreeMap::new(),
            ready: Vec::new(),
        }
    }

    /// How many orders of the log it has.
    pub fn places(&self) -> usize {
        self.orders.len()
    }

    /// The tasks that may be done now, in the order in which they became so. Of
    /// those that became so by the same step the one at the lower place is first.
    pub fn ready(&self) -> &[Task] {
        &self.ready
    }

    /// The value of a key, if it is the house's own.
    pub fn value(&self, key: u16) -> Option<u32> {
        (house_of(key) == self.number).then(|| self.values.get(key))
    }

    /// Takes the next order of the log and gives its place.
    pub fn append(&mut self, bytes: &[u8]) -> usize {
        let place = self.orders.len();
        self.orders.push(decode(bytes).unwrap_or_default());
        self.list_again();
        place
    }

    /// Notes the values of its own keys that the order reads, and gives them.
    pub fn look(&mut self, place: usize) -> Result<Vec<u32>, Refusal> {
        if !self.may_look(place) {
            return Err(Refusal::NotNow);
        }
        let mut noted = Vec::new();
        for key in self.own_reads(place) {
            noted.push(self.values.get(key));
        }
        self.noted.insert(place, noted.clone());
        self.list_again();
        Ok(noted)
    }

    /// Does the order on the values that were noted and told, and writes its own
    /// keys.
    pub fn write(&mut self, place: usize) -> Result<Written, Refusal> {
        if !self.may_write(place) {
            return Err(Refusal::NotNow);
        }
        let mut values = self.values_read(place);
        let written = match execute(&self.orders[place], &mut values) {
            End::Written => {
                let keys = self.own_writes(place);
                Some(keys.into_iter().map(|key| (key, values.get(key))).collect::<Vec<_>>())
            }
            End::Stopped => None,
        };
        for (key, value) in written.iter().flatten() {
            self.values.set(*key, *value);
        }
        self.written.insert(place);
        self.list_again();
        Ok(written)
    }

    /// Keeps what another house has noted for the order at a place.
    pub fn told(&mut self, from: u8, place: usize, values: &[u32]) -> Result<(), Refusal> {
        if from >= HOUSES {
            return Err(Refusal::Misfit);
        }
        let Some(order) = self.orders.get(place) else {
            return Err(Refusal::Beyond);
        };
        if values.len() != keys_of(from, &order.reads).len() {
            return Err(Refusal::Misfit);
        }
        let wanted =
            from != self.number && !self.own_writes(place).is_empty() && !values.is_empty();
        if !wanted || self.told.contains_key(&(place, from)) {
            return Err(Refusal::NotWanted);
        }
        self.told.insert((place, from), values.to_vec());
        self.list_again();
        Ok(())
    }

    /// Does the first so many of the tasks that are ready now, and gives them.
    /// What becomes ready by that is not among them.
    pub fn go(&mut self, most: usize) -> Vec<Task> {
        let tasks: Vec<Task> = self.ready.iter().copied().take(most).collect();
        for task in &tasks {
            let done = match *task {
                Task::Look(place) => self.look(place).is_ok(),
                Task::Write(place) => self.write(place).is_ok(),
            };
            assert!(done, "what is ready stays so until it is done");
        }
        tasks
    }

    fn may_look(&self, place: usize) -> bool {
        place < self.orders.len()
            && !self.own_reads(place).is_empty()
            && !self.noted.contains_key(&place)
            && self.is_ready(place)
    }

    fn may_write(&self, place: usize) -> bool {
        place < self.orders.len()
            && !self.own_writes(place).is_empty()
            && !self.written.contains(&place)
            && (self.own_reads(place).is_empty() || self.noted.contains_key(&place))
            && self.all_is_told(place)
            && self.is_ready(place)
    }

    /// Every earlier order that conflicts with this one here is done here.
    fn is_ready(&self, place: usize) -> bool {
        (0..place).all(|earlier| !self.conflict(earlier, place) || self.is_done(earlier))
    }

    fn is_done(&self, place: usize) -> bool {
        if !self.own_writes(place).is_empty() {
            self.written.contains(&place)
        } else if !self.own_reads(place).is_empty() {
            self.noted.contains_key(&place)
        } else {
            true
        }
    }

    /// Both touch a key of this house, and at least one of them writes it.
    fn conflict(&self, one: usize, other: usize) -> bool {
        let touches =
            |order: &Order, key: &u16| order.reads.contains(key) || order.writes.contains(key);
        let writes_into = |one: usize, other: usize| {
            self.own_writes(one).iter().any(|key| touches(&self.orders[other], key))
        };
        writes_into(one, other) || writes_into(other, one)
    }

    /// Every key that the order reads in another house has been told.
    fn all_is_told(&self, place: usize) -> bool {
        self.orders[place].reads.iter().all(|key| {
            let house = house_of(*key);
            house == self.number || self.told.contains_key(&(place, house))
        })
    }

    /// The values that the order reads, as they were noted and told; the other
    /// keys are 0.
    fn values_read(&self, place: usize) -> Values {
        let mut values = Values::new();
        for house in 0..HOUSES {
            let keys = keys_of(house, &self.orders[place].reads);
            if keys.is_empty() {
                continue;
            }
            let read = if house == self.number {
                &self.noted[&place]
            } else {
                &self.told[&(place, house)]
            };
            for (key, value) in keys.iter().zip(read) {
                values.set(*key, *value);
            }
        }
        values
    }

    fn own_reads(&self, place: usize) -> Vec<u16> {
        keys_of(self.number, &self.orders[place].reads)
    }

    fn own_writes(&self, place: usize) -> Vec<u16> {
        keys_of(self.number, &self.orders[place].writes)
    }

    /// Finds what may be done, and puts what was not listed yet at the end of
    /// the list.
    fn list_again(&mut self) {
        let mut tasks = Vec::new();
        for place in 0..self.orders.len() {
            if self.may_look(place) {
                tasks.push(Task::Look(place));
            }
            if self.may_write(place) {
                tasks.push(Task::Write(place));
            }
        }
        self.ready.retain(|listed| tasks.contains(listed));
        for task in tasks {
            if !self.ready.contains(&task) {
                self.ready.push(task);
            }
        }
    }
}

pub fn house_of(key: u16) -> u8 {
    (key % u16::from(HOUSES)) as u8
}

/// Those of the keys that belong to a house.
pub fn keys_of(house: u8, keys: &[u16]) -> Vec<u16> {
    keys.iter().copied().filter(|key| house_of(*key) == house).collect()
}

#[cfg(test)]
mod tests {
    use super::*;
    use crate::order::{Instruction, encode};

    /// House 3 with these orders, given by what they read and write. Each writes
    /// to all its keys one more than the sum of what it reads.
    fn house_3(orders: &[(&[u16], &[u16])]) -> House {
        let mut house = House::new(3);
        for (reads, writes) in orders {
            let mut instructions = vec![Instruction::Set { to: 30, number: 1 }];
            for register in 0..reads.len() {
                instructions.push(Instruction::Add { to: 30, left: 30, right: register as u8 });
            }
            for index in 0..writes.len() {
                instructions.push(Instruction::Write { index: index as u8, from: 30 });
            }
            append(&mut house, reads, writes, instructions);
        }
        house
    }

    fn append(house: &mut House, reads: &[u16], writes: &[u16], instructions: Vec<Instruction>) {
        let order = Order { reads: reads.to_vec(), writes: writes.to_vec(), instructions };
        house.append(&encode(&order));
    }

    #[test]
    fn an_order_waits_for_the_one_that_writes_before_it() {
        let mut house = house_3(&[(&[3], &[3]), (&[3], &[19])]);
        assert_eq!(house.ready(), [Task::Look(0)]);
        assert_eq!(house.look(1), Err(Refusal::NotNow));
        assert_eq!(house.write(0), Err(Refusal::NotNow));
        assert_eq!(house.look(0), Ok(vec![0]));
        assert_eq!(house.look(0), Err(Refusal::NotNow));
        assert_eq!(house.ready(), [Task::Write(0)]);
        assert_eq!(house.write(0), Ok(Some(vec![(3, 1)])));
        assert_eq!(house.write(0), Err(Refusal::NotNow));
        assert_eq!(house.look(1), Ok(vec![1]));
        assert_eq!(house.write(1), Ok(Some(vec![(19, 2)])));
        assert_eq!((house.value(3), house.value(19), house.value(4)), (Some(1), Some(2), None));
        assert_eq!(house.ready(), []);
    }

    #[test]
    fn readers_go_side_by_side_and_a_writer_waits_for_them() {
        let mut house = house_3(&[(&[3], &[]), (&[3], &[4]), (&[], &[3]), (&[19], &[])]);
        assert_eq!(house.ready(), [Task::Look(0), Task::Look(1), Task::Look(3)]);
        assert_eq!(house.look(1), Ok(vec![0]));
        assert_eq!(house.write(2), Err(Refusal::NotNow));
        // Key 4 is not for this house to write.
        assert_eq!(house.write(1), Err(Refusal::NotNow));
        assert_eq!(house.look(0), Ok(vec![0]));
        assert_eq!(house.ready(), [Task::Look(3), Task::Write(2)]);
        assert_eq!(house.write(2), Ok(Some(vec![(3, 1)])));
    }

    #[test]
    fn what_other_houses_tell() {
        let mut house = house_3(&[(&[3, 4, 5, 20], &[3, 4]), (&[3, 4], &[4]), (&[], &[])]);
        // The lowest number wins.
        assert_eq!(house.told(16, 9, &[]), Err(Refusal::Misfit));
        assert_eq!(house.told(3, 9, &[]), Err(Refusal::Beyond));
        assert_eq!(house.told(3, 0, &[]), Err(Refusal::Misfit));
        assert_eq!(house.told(3, 0, &[0]), Err(Refusal::NotWanted));
        assert_eq!(house.told(4, 0, &[0]), Err(Refusal::Misfit));
        assert_eq!(house.told(6, 0, &[]), Err(Refusal::NotWanted));
        assert_eq!(house.told(4, 1, &[0]), Err(Refusal::NotWanted));
        assert_eq!(house.told(4, 2, &[]), Err(Refusal::NotWanted));

        assert_eq!(house.told(4, 0, &[10, 200]), Ok(()));
        assert_eq!(house.told(4, 0, &[10, 200]), Err(Refusal::NotWanted));
        assert_eq!(house.look(0), Ok(vec![0]));
        assert_eq!(house.write(0), Err(Refusal::NotNow));
        assert_eq!(house.told(5, 0, &[3000]), Ok(()));
        assert_eq!(house.write(0), Ok(Some(vec![(3, 3211)])));
        assert_eq!(house.look(1), Ok(vec![3211]));
    }

    #[test]
    fn a_step_lists_by_place_and_go_does_only_what_was_listed() {
        let mut house = house_3(&[(&[], &[3, 19]), (&[19], &[]), (&[], &[35]), (&[3], &[51])]);
        assert_eq!(house.ready(), [Task::Write(0), Task::Write(2)]);
        assert_eq!(house.go(0), []);
        assert_eq!(house.go(1), [Task::Write(0)]);
        assert_eq!(house.ready(), [Task::Write(2), Task::Look(1), Task::Look(3)]);
        assert_eq!(house.look(1), Ok(vec![1]));
        assert_eq!(house.go(9), [Task::Write(2), Task::Look(3)]);
        assert_eq!(house.ready(), [Task::Write(3)]);
        assert_eq!(house.go(9), [Task::Write(3)]);
        assert_eq!(house.go(9), []);
        assert_eq!(house.value(51), Some(2));
    }

    #[test]
    fn orders_that_say_nothing_stop_or_are_malformed() {
        let mut house = house_3(&[(&[], &[3, 19])]);
        // Of 3 and 19 nothing is said: 3 is read and stays, 19 is not.
        append(&mut house, &[3], &[3, 19], vec![]);
        append(&mut house, &[], &[3], vec![Instruction::Stop]);
        assert_eq!(house.append(&[1, 0]), 3);
        assert_eq!(house.write(0), Ok(Some(vec![(3, 1), (19, 1)])));
        assert_eq!(house.look(1), Ok(vec![1]));
        assert_eq!(house.write(1), Ok(Some(vec![(3, 1), (19, 0)])));
        assert_eq!(house.write(2), Ok(None));
        assert_eq!(house.value(3), Some(1));
        assert_eq!(house.look(3), Err(Refusal::NotNow));
        assert_eq!(house.told(4, 3, &[1]), Err(Refusal::Misfit));
        assert_eq!(house.ready(), []);
    }
}
