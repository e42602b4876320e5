//! One house in plain Rust, written to be fast: what it keeps of the orders lies
//! in a few flat lists, and for each of its keys there is a queue of the orders
//! that touch the key and are not done yet.
//!
//! Key k belongs to house k mod 16. An order is ready when no earlier one in the
//! queues of its keys conflicts with it. It is looked at in the queues when it
//! comes and when one before it is done, and never otherwise.

use std::collections::VecDeque;
use std::mem::{size_of, take};
use std::ops::Range;

use crate::{KEYS, MOST_KEYS, Order, REGISTERS, Writes};

pub const HOUSES: u8 = 16;
const ROWS: usize = KEYS / HOUSES as usize;

/// What a house does for the order at a place.
#[derive(Clone, Copy)]
pub enum Task {
    Look(u32),
    Write(u32),
}

/// Why a house turns something away.
#[derive(Clone, Copy)]
pub struct Refused(pub u8);

/// A key of the house, by its row, that an order touches. A key that it reads
/// and writes has two.
#[derive(Clone, Copy)]
struct Mark {
    row: u16,
    writes: bool,
}

/// The order at a place touches a key and is not done.
#[derive(Clone, Copy)]
struct Entry {
    place: u32,
    writes: bool,
}

/// Lists of things one behind another in one list, each known by its place.
struct Lists<T> {
    items: Vec<T>,
    ends: Vec<usize>,
}

impl<T> Lists<T> {
    fn new() -> Lists<T> {
        Lists { items: Vec::new(), ends: Vec::new() }
    }

    /// What was put behind the last list becomes the next one.
    fn end(&mut self) {
        self.ends.push(self.items.len());
    }

    fn range(&self, place: u32) -> Range<usize> {
        let place = place as usize;
        let start = if place == 0 { 0 } else { self.ends[place - 1] };
        start..self.ends[place]
    }

    fn get(&self, place: u32) -> &[T] {
        &self.items[self.range(place)]
    }

    fn get_mut(&mut self, place: u32) -> &mut [T] {
        let range = self.range(place);
        &mut self.items[range]
    }

    fn memory(&self) -> usize {
        self.items.capacity() * size_of::<T>() + self.ends.capacity() * size_of::<usize>()
    }
}

pub struct House {
    number: u16,
    /// The bytes of each order.
    orders: Lists<u8>,
    /// The keys of the house that each order touches, those that it writes first.
    marks: Lists<Mark>,
    /// What each order reads, as far as it is known. An order that does not
    /// touch the house has none.
    slots: Lists<Option<u32>>,
    done: Vec<bool>,
    looked: Vec<bool>,
    /// By row, in the order of the log.
    queues: Vec<VecDeque<Entry>>,
    /// The tasks that may be done, in the order in which they became so, and
    /// some that were done out of turn.
    ready: VecDeque<Task>,
    /// By row.
    values: Vec<u32>,
    /// Room for the order that is at hand.
    order: Order,
    /// Room for the places that become ready by a step.
    woken: Vec<u32>,
}

impl House {
    pub fn new(number: u8) -> House {
        assert!(number < HOUSES);
        House {
            number: number.into(),
            orders: Lists::new(),
            marks: Lists::new(),
            slots: Lists::new(),
            done: Vec::new(),
            looked: Vec::new(),
            queues: vec![VecDeque::new(); ROWS],
            ready: VecDeque::new(),
            values: vec![0; ROWS],
            order: Order::new(),
            woken: Vec::new(),
        }
    }

    /// How many orders of the log it has.
    pub fn places(&self) -> u32 {
        self.done.len() as u32
    }

    /// The value of a key, if it is the house's own.
    pub fn value(&self, key: u16) -> Option<u32> {
        self.owns(key).then(|| self.values[row(key)])
    }

    /// The keys of the house whose value is not 0, rising, each with its value.
    pub fn not_zero(&self) -> impl Iterator<Item = (u16, u32)> {
        let rows = (0..).zip(&self.values).filter(|(_, value)| **value != 0);
        rows.map(|(row, value)| (self.key(row), *value))
    }

    pub fn ready(&self) -> impl Iterator<Item = Task> {
        self.ready.iter().copied().filter(|task| !self.was_done(*task))
    }

    /// How many bytes its lists take.
    pub fn memory(&self) -> usize {
        let in_queues: usize = self.queues.iter().map(VecDeque::capacity).sum();
        self.orders.memory()
            + self.marks.memory()
            + self.slots.memory()
            + self.done.capacity()
            + self.looked.capacity()
            + self.queues.capacity() * size_of::<VecDeque<Entry>>()
            + in_queues * size_of::<Entry>()
            + self.ready.capacity() * size_of::<Task>()
            + self.values.capacity() * size_of::<u32>()
            + self.woken.capacity() * size_of::<u32>()
    }

    /// Takes the next order of the log.
    pub fn append(&mut self, bytes: &[u8]) {
        let place = self.places();
        self.orders.items.extend_from_slice(bytes);
        self.orders.end();
        // A malformed order touches nothing.
        if self.order.decode(bytes).is_some() {
            for (keys, writes) in [(&self.order.writes, true), (&self.order.reads, false)] {
                let own = keys.as_slice().iter().filter(|key| **key % 16 == self.number);
                self.marks.items.extend(own.map(|key| Mark { row: key / 16, writes }));
            }
        }
        self.marks.end();
        let touched = !self.marks.get(place).is_empty();
        if touched {
            let count = self.slots.items.len() + self.order.reads.count;
            self.slots.items.resize(count, None);
        }
        self.slots.end();
        self.done.push(!touched);
        self.looked.push(false);
        if touched {
            let ready = self.is_ready(place);
            for mark in self.marks.get(place) {
                let entry = Entry { place, writes: mark.writes };
                self.queues[usize::from(mark.row)].push_back(entry);
            }
            if ready {
                self.list(place);
            }
        }
    }

    /// Notes the values of its own keys that the order reads.
    pub fn look(&mut self, place: u32) -> Result<impl Iterator<Item = u32>, Refused> {
        if place >= self.places()
            || self.looked[place as usize]
            || !self.reads(place)
            || !self.is_ready(place)
        {
            return Err(Refused(5));
        }
        self.do_look(place);
        let own = self.order.reads.as_slice().iter().map(|key| self.owns(*key));
        let noted = self.slots.get(place).iter().zip(own).filter(|(_, own)| *own);
        Ok(noted.filter_map(|(slot, _)| *slot))
    }

    /// Does the order on what it reads, and writes its own keys. Gives these, or
    /// `None` if the order comes to nothing.
    pub fn write(&mut self, place: u32) -> Result<Option<impl Iterator<Item = u16>>, Refused> {
        if place >= self.places()
            || self.done[place as usize]
            || !self.writes(place)
            || !self.knows_all(place)
            || !self.is_ready(place)
        {
            return Err(Refused(5));
        }
        let written = self.do_write(place);
        let marks = self.marks.get(place).iter().take_while(|mark| mark.writes);
        Ok(written.then(|| marks.map(|mark| self.key(mark.row))))
    }

    /// Keeps what another house has noted for the order at a place.
    pub fn told(&mut self, from: u8, place: u32, values: &[u32]) -> Result<(), Refused> {
        if from >= HOUSES {
            return Err(Refused(2));
        }
        if place >= self.places() {
            return Err(Refused(3));
        }
        let reads = match self.order.decode(self.orders.get(place)) {
            Some(()) => self.order.reads.as_slice(),
            None => &[],
        };
        let from = u16::from(from);
        let theirs = reads.iter().enumerate().filter(|(_, key)| **key % 16 == from);
        let mut slots = [0; MOST_KEYS];
        let mut count = 0;
        for (slot, _) in theirs {
            slots[count] = slot;
            count += 1;
        }
        if values.len() != count {
            return Err(Refused(2));
        }
        // All of one house are known or none is.
        if count == 0
            || from == self.number
            || !self.writes(place)
            || self.slots.get(place)[slots[0]].is_some()
        {
            return Err(Refused(4));
        }
        let known = self.slots.get_mut(place);
        for (slot, value) in slots.iter().zip(values) {
            known[*slot] = Some(*value);
        }
        if self.knows_all(place) && self.is_ready(place) {
            self.ready.push_back(Task::Write(place));
        }
        Ok(())
    }

    /// Does the first so many of the tasks that are ready now, each of which is
    /// handed to `did`. What becomes ready by that is not among them.
    pub fn go(&mut self, most: u32, mut did: impl FnMut(Task)) {
        let mut left = most;
        for _ in 0..self.ready.len() {
            if left == 0 {
                break;
            }
            let Some(task) = self.ready.pop_front() else { break };
            if self.was_done(task) {
                continue;
            }
            match task {
                Task::Look(place) => self.do_look(place),
                Task::Write(place) => {
                    self.do_write(place);
                }
            }
            left -= 1;
            did(task);
        }
    }

    fn was_done(&self, task: Task) -> bool {
        match task {
            Task::Look(place) => self.looked[place as usize],
            Task::Write(place) => self.done[place as usize],
        }
    }

    fn do_look(&mut self, place: u32) {
        let decoded = self.order.decode(self.orders.get(place));
        debug_assert!(decoded.is_some());
        let slots = self.slots.get_mut(place);
        for (slot, key) in slots.iter_mut().zip(self.order.reads.as_slice()) {
            if key % 16 == self.number {
                *slot = Some(self.values[row(*key)]);
            }
        }
        self.looked[place as usize] = true;
        if !self.writes(place) {
            self.finish(place);
        } else if self.knows_all(place) {
            self.ready.push_back(Task::Write(place));
        }
    }

    /// False if the order comes to nothing.
    fn do_write(&mut self, place: u32) -> bool {
        let decoded = self.order.decode(self.orders.get(place));
        debug_assert!(decoded.is_some());
        let mut registers = [0; REGISTERS];
        for (register, slot) in registers.iter_mut().zip(self.slots.get(place)) {
            *register = slot.unwrap_or(0);
        }
        let read = registers;
        let mut writes = Writes { values: [0; MOST_KEYS], said: 0 };
        let written = self.order.run(&mut registers, &mut writes);
        if written {
            let reads = self.order.reads.as_slice();
            for (index, key) in self.order.writes.as_slice().iter().enumerate() {
                if key % 16 != self.number {
                    continue;
                }
                self.values[row(*key)] = if writes.is_said(index) {
                    writes.values[index]
                } else {
                    // A key that is read too stays if nothing was said of it.
                    reads.iter().position(|read| read == key).map_or(0, |slot| read[slot])
                };
            }
        }
        self.finish(place);
        written
    }

    /// The order is done: its entries go, and those that waited for nothing else
    /// are listed.
    fn finish(&mut self, place: u32) {
        self.done[place as usize] = true;
        for mark in self.marks.get(place) {
            let queue = &mut self.queues[usize::from(mark.row)];
            match queue.iter().position(|entry| entry.place == place) {
                Some(0) => {
                    queue.pop_front();
                }
                Some(at) => {
                    queue.remove(at);
                }
                None => debug_assert!(false, "an order that is not done is in its queues"),
            }
        }
        let mut woken = take(&mut self.woken);
        for mark in self.marks.get(place) {
            let mut queue = self.queues[usize::from(mark.row)].iter();
            let Some(first) = queue.next() else { continue };
            if first.writes {
                self.wake(first.place, place, &mut woken);
            } else if mark.writes {
                self.wake(first.place, place, &mut woken);
                for entry in queue.take_while(|entry| !entry.writes) {
                    self.wake(entry.place, place, &mut woken);
                }
            }
        }
        woken.sort_unstable();
        woken.dedup();
        for place in woken.drain(..) {
            self.list(place);
        }
        self.woken = woken;
    }

    /// An order that is first in a queue since the one at `done` is done becomes
    /// ready if it waits nowhere else.
    fn wake(&self, place: u32, done: u32, woken: &mut Vec<u32>) {
        if place > done && self.is_ready(place) {
            woken.push(place);
        }
    }

    /// Lists what is to be done next for an order that has become ready, if it
    /// need not be told more.
    fn list(&mut self, place: u32) {
        if self.reads(place) && !self.looked[place as usize] {
            self.ready.push_back(Task::Look(place));
        } else if self.knows_all(place) {
            self.ready.push_back(Task::Write(place));
        }
    }

    /// No earlier order that is not done conflicts with this one.
    fn is_ready(&self, place: u32) -> bool {
        self.marks.get(place).iter().all(|mark| {
            let queue = self.queues[usize::from(mark.row)].iter();
            let mut earlier = queue.take_while(|entry| entry.place < place);
            !earlier.any(|entry| mark.writes || entry.writes)
        })
    }

    fn knows_all(&self, place: u32) -> bool {
        self.slots.get(place).iter().all(Option::is_some)
    }

    /// The order reads a key of the house.
    fn reads(&self, place: u32) -> bool {
        self.marks.get(place).last().is_some_and(|mark| !mark.writes)
    }

    /// The order writes a key of the house.
    fn writes(&self, place: u32) -> bool {
        self.marks.get(place).first().is_some_and(|mark| mark.writes)
    }

    /// The key of the house at a row.
    fn key(&self, row: u16) -> u16 {
        16 * row + self.number
    }

    fn owns(&self, key: u16) -> bool {
        key % 16 == self.number
    }
}

/// Where a key stands among those of its house.
fn row(key: u16) -> usize {
    usize::from(key / 16)
}
