//! A morning of flower sales, as a log of orders.
//!
//! `sales [--orders N] [--seed S]` writes the log to standard output. Without
//! arguments it is the file `line` beside this one.
//!
//! There are sixteen auction halls, and key k belongs to hall k mod 16. All
//! money is in cents.
//!
//! | keys                     | what it is                                 | hall      |
//! |--------------------------|--------------------------------------------|-----------|
//! | 0x0100 + h               | how many sales the clock of hall h counted | h         |
//! | 0x0200 + h               | the commission that this clock took        | h         |
//! | 0x0300 + h               | the money in the cash desk of hall h       | h         |
//! | 0x1000 + b               | the money of buyer b                       | b mod 16  |
//! | 0x1100 + b               | his limit: his money does not go below it  | b mod 16  |
//! | 0x2000 + g               | the money of grower g                      | g mod 16  |
//! | 0x3000 + t               | the owner of trolley t, 0 if it is free    | t mod 16  |
//! | 0x3100 + t               | how many bunches stand on trolley t        | t mod 16  |
//! | 0x4000 + 16 b + 12 + d   | what buyer b has deposited at depot d      | 12 + d    |
//! | 0x6000 + 16 g + 12 + d   | what grower g has deposited at depot d     | 12 + d    |
//!
//! Trolley t is of depot t mod 4. Whoever has a trolley has a deposit for it at
//! its depot. A sale moves the trolley from the grower to the buyer, and the
//! deposit with it. It touches up to five halls: the buyer's, the grower's, the
//! trolley's, the depot's and the clock's.
//!
//! No order makes or loses money: the desks, the buyers, the growers, the
//! deposits and the commissions together always have what the first order put
//! into the desks.

use std::env;
use std::io::{self, Write};
use std::process::ExitCode;

use reference::execute::{Values, execute};
use reference::log;
use reference::order::{Instruction, Order, encode};
use reference::random::Random;

const DEFAULT_ORDERS: usize = 400;
const DEFAULT_SEED: u64 = 1;

const HALLS: usize = 16;
const BUYERS: usize = 32;
const GROWERS: usize = 16;
const TROLLEYS: usize = 96;
const DEPOTS: usize = 4;

const DESK_AT_OPENING: u32 = 50_000_000;
const DEPOSIT: u32 = 1_250;
/// The clock takes one part in fifty of the price.
const COMMISSION_PART: u32 = 50;

/// At these places a malformed order stands, to show how it is reported.
const PLACE_NOT_RISING: usize = 200;
const PLACE_CUT_SHORT: usize = 300;

// The keys.

fn clock_sales(hall: usize) -> u16 {
    key(0x0100 + hall)
}

fn clock_commission(hall: usize) -> u16 {
    key(0x0200 + hall)
}

fn desk_money(hall: usize) -> u16 {
    key(0x0300 + hall)
}

fn buyer_money(buyer: usize) -> u16 {
    key(0x1000 + buyer)
}

fn buyer_limit(buyer: usize) -> u16 {
    key(0x1100 + buyer)
}

fn grower_money(grower: usize) -> u16 {
    key(0x2000 + grower)
}

fn trolley_owner(trolley: usize) -> u16 {
    key(0x3000 + trolley)
}

fn trolley_content(trolley: usize) -> u16 {
    key(0x3100 + trolley)
}

/// The account of the buyer at the depot of this trolley.
fn buyer_deposit(buyer: usize, trolley: usize) -> u16 {
    key(0x4000 + 16 * buyer + 12 + trolley % DEPOTS)
}

/// The account of the grower at the depot of this trolley.
fn grower_deposit(grower: usize, trolley: usize) -> u16 {
    key(0x6000 + 16 * grower + 12 + trolley % DEPOTS)
}

fn key(number: usize) -> u16 {
    u16::try_from(number).expect("a key has two bytes")
}

// Owners of trolleys, as they stand in the values.

#[derive(Clone, Copy, PartialEq, Eq)]
enum Owner {
    Nobody,
    Grower(usize),
    Buyer(usize),
}

const NOBODY_NUMBER: u32 = 0;
const FIRST_GROWER_NUMBER: u32 = 1_000;
const FIRST_BUYER_NUMBER: u32 = 2_000;

fn grower_number(grower: usize) -> u32 {
    FIRST_GROWER_NUMBER + grower as u32
}

fn buyer_number(buyer: usize) -> u32 {
    FIRST_BUYER_NUMBER + buyer as u32
}

fn owner_of_number(number: u32) -> Owner {
    match number {
        NOBODY_NUMBER => Owner::Nobody,
        FIRST_GROWER_NUMBER..FIRST_BUYER_NUMBER => {
            Owner::Grower((number - FIRST_GROWER_NUMBER) as usize)
        }
        _ => Owner::Buyer((number - FIRST_BUYER_NUMBER) as usize),
    }
}

// The registers that the orders below use. The values of the keys that an order
// reads lie in the registers 0 to 15. No instruction below changes ZERO.

const ZERO: u8 = 16;
const ONE: u8 = 17;
const DIFFERENCE: u8 = 18;
const OWNER: u8 = 19;
const AMOUNT: u8 = 20;
const PRICE: u8 = 21;
const COST: u8 = 22;
const ROOM: u8 = 23;
const PART: u8 = 24;
const COMMISSION: u8 = 25;
const PROCEEDS: u8 = 26;
const CONTENT: u8 = 27;
const RESULT: u8 = 28;

/// An order that is being written.
struct Draft {
    order: Order,
}

impl Draft {
    /// An order that reads and writes these keys, given in any order.
    fn new(reads: &[u16], writes: &[u16]) -> Draft {
        let mut order = Order {
            reads: reads.to_vec(),
            writes: writes.to_vec(),
            instructions: Vec::new(),
        };
        order.reads.sort();
        order.writes.sort();
        Draft { order }
    }

    /// The register with the value of this key of the read set.
    fn value(&self, key: u16) -> u8 {
        position(&self.order.reads, key)
    }

    fn set(&mut self, to: u8, number: u32) {
        self.push(Instruction::Set { to, number });
    }

    fn add(&mut self, to: u8, left: u8, right: u8) {
        self.push(Instruction::Add { to, left, right });
    }

    fn subtract(&mut self, to: u8, left: u8, right: u8) {
        self.push(Instruction::Subtract { to, left, right });
    }

    fn multiply(&mut self, to: u8, left: u8, right: u8) {
        self.push(Instruction::Multiply { to, left, right });
    }

    fn divide(&mut self, to: u8, left: u8, right: u8) {
        self.push(Instruction::Divide { to, left, right });
    }

    fn write(&mut self, key: u16, from: u8) {
        let index = position(&self.order.writes, key);
        self.push(Instruction::Write { index, from });
    }

    /// Writes a number to a key.
    fn write_number(&mut self, key: u16, number: u32) {
        self.set(RESULT, number);
        self.write(key, RESULT);
    }

    /// Adds a register to the value of a key that is read and written.
    fn raise(&mut self, key: u16, by: u8) {
        self.add(RESULT, self.value(key), by);
        self.write(key, RESULT);
    }

    /// Subtracts a register from the value of a key that is read and written.
    fn lower(&mut self, key: u16, by: u8) {
        self.subtract(RESULT, self.value(key), by);
        self.write(key, RESULT);
    }

    /// Nothing is written if `left` is below `right`.
    fn stop_if_less(&mut self, left: u8, right: u8) {
        self.set(ONE, 1);
        self.skip_if_less(left, right, 1);
        // Zero is below one: this always passes over the stop.
        self.skip_if_less(ZERO, ONE, 1);
        self.push(Instruction::Stop);
    }

    /// Nothing is written if the two differ.
    fn stop_unless_equal(&mut self, left: u8, right: u8) {
        self.set(ONE, 1);
        self.subtract(DIFFERENCE, left, right);
        self.skip_if_less(DIFFERENCE, ONE, 1);
        self.push(Instruction::Stop);
    }

    fn skip_if_less(&mut self, left: u8, right: u8, count: u8) {
        self.push(Instruction::SkipIfLess { left, right, count });
    }

    fn push(&mut self, instruction: Instruction) {
        self.order.instructions.push(instruction);
    }

    fn finish(self) -> Order {
        self.order
    }
}

fn position(keys: &[u16], key: u16) -> u8 {
    keys.iter()
        .position(|known| *known == key)
        .expect("the order has this key") as u8
}

// The orders.

/// The first order of all: the money of the desks.
fn open_desks() -> Order {
    let desks: Vec<u16> = (0..HALLS).map(desk_money).collect();
    let mut draft = Draft::new(&[], &desks);
    for desk in desks {
        draft.write_number(desk, DESK_AT_OPENING);
    }
    draft.finish()
}

fn set_limit(buyer: usize, limit: u32) -> Order {
    let mut draft = Draft::new(&[], &[buyer_limit(buyer)]);
    draft.write_number(buyer_limit(buyer), limit);
    draft.finish()
}

/// Moves money from one account to another, if the first has so much.
fn pay(from: u16, to: u16, amount: u32) -> Order {
    let mut draft = Draft::new(&[from, to], &[from, to]);
    draft.set(AMOUNT, amount);
    draft.stop_if_less(draft.value(from), AMOUNT);
    draft.lower(from, AMOUNT);
    draft.raise(to, AMOUNT);
    draft.finish()
}

/// A grower takes free trolleys, all of one depot, and puts so many bunches on
/// each. The deposit for them comes from his money.
fn take_trolleys(grower: usize, trolleys: &[usize], bunches: u32) -> Order {
    let money = grower_money(grower);
    let deposit = grower_deposit(grower, trolleys[0]);
    let owners = trolleys.iter().map(|trolley| trolley_owner(*trolley));
    let contents = trolleys.iter().map(|trolley| trolley_content(*trolley));
    let reads: Vec<u16> = [money, deposit].into_iter().chain(owners.clone()).collect();
    let writes: Vec<u16> = reads.iter().copied().chain(contents.clone()).collect();

    let mut draft = Draft::new(&reads, &writes);
    for owner in owners.clone() {
        draft.stop_unless_equal(draft.value(owner), ZERO);
    }
    draft.set(COST, DEPOSIT * trolleys.len() as u32);
    draft.stop_if_less(draft.value(money), COST);
    draft.lower(money, COST);
    draft.raise(deposit, COST);
    draft.set(OWNER, grower_number(grower));
    draft.set(CONTENT, bunches);
    for owner in owners {
        draft.write(owner, OWNER);
    }
    for content in contents {
        draft.write(content, CONTENT);
    }
    draft.finish()
}

/// A buyer buys all bunches on a grower's trolley, at the price of one bunch
/// that the clock of this hall showed.
struct Sale {
    buyer: usize,
    grower: usize,
    trolley: usize,
    hall: usize,
    bunch_price: u32,
}

fn sell(sale: &Sale) -> Order {
    let money = buyer_money(sale.buyer);
    let limit = buyer_limit(sale.buyer);
    let buyer_deposit = buyer_deposit(sale.buyer, sale.trolley);
    let grower_money = grower_money(sale.grower);
    let grower_deposit = grower_deposit(sale.grower, sale.trolley);
    let owner = trolley_owner(sale.trolley);
    let content = trolley_content(sale.trolley);
    let sales = clock_sales(sale.hall);
    let commission = clock_commission(sale.hall);
    let changed = [
        money,
        buyer_deposit,
        grower_money,
        grower_deposit,
        owner,
        sales,
        commission,
    ];
    let mut draft = Draft::new(&[&changed[..], &[limit, content]].concat(), &changed);

    // The trolley may have been sold already.
    draft.set(OWNER, grower_number(sale.grower));
    draft.stop_unless_equal(draft.value(owner), OWNER);

    // The buyer pays the price and the deposit, if his limit leaves room.
    draft.set(PRICE, sale.bunch_price);
    draft.multiply(PRICE, PRICE, draft.value(content));
    draft.set(AMOUNT, DEPOSIT);
    draft.add(COST, PRICE, AMOUNT);
    draft.subtract(ROOM, draft.value(money), draft.value(limit));
    draft.stop_if_less(ROOM, COST);
    draft.lower(money, COST);

    // The grower gets that, less the commission.
    draft.set(PART, COMMISSION_PART);
    draft.divide(COMMISSION, PRICE, PART);
    draft.subtract(PROCEEDS, COST, COMMISSION);
    draft.raise(grower_money, PROCEEDS);
    draft.raise(commission, COMMISSION);

    // The trolley and its deposit are now the buyer's.
    draft.lower(grower_deposit, AMOUNT);
    draft.raise(buyer_deposit, AMOUNT);
    draft.write_number(owner, buyer_number(sale.buyer));

    draft.set(ONE, 1);
    draft.raise(sales, ONE);
    draft.finish()
}

/// A buyer brings a trolley back to its depot, empty, and gets the deposit.
fn return_trolley(buyer: usize, trolley: usize) -> Order {
    let money = buyer_money(buyer);
    let deposit = buyer_deposit(buyer, trolley);
    let owner = trolley_owner(trolley);
    let content = trolley_content(trolley);
    // Nothing is said of the content, which is not read: it becomes 0.
    let mut draft = Draft::new(&[money, deposit, owner], &[money, deposit, owner, content]);
    draft.set(OWNER, buyer_number(buyer));
    draft.stop_unless_equal(draft.value(owner), OWNER);
    draft.set(AMOUNT, DEPOSIT);
    draft.lower(deposit, AMOUNT);
    draft.raise(money, AMOUNT);
    draft.write_number(owner, NOBODY_NUMBER);
    draft.finish()
}

// The morning.

/// The log so far. The orders are also done, since who has a trolley now tells
/// what can be done with it next.
struct Morning {
    random: Random,
    log: Vec<u8>,
    places: usize,
    values: Values,
}

impl Morning {
    fn emit(&mut self, order: &Order) {
        execute(order, &mut self.values);
        self.emit_bytes(&encode(order));
    }

    fn emit_bytes(&mut self, bytes: &[u8]) {
        log::push(&mut self.log, bytes);
        self.places += 1;
    }

    fn owner(&self, trolley: usize) -> Owner {
        owner_of_number(self.values.get(trolley_owner(trolley)))
    }

    /// What must have happened before the first sale.
    fn opening(&mut self) -> Vec<Order> {
        let mut orders = vec![open_desks()];
        for buyer in 0..BUYERS {
            // Some buyers bring too little for the morning.
            let amount = if buyer % 4 == 0 {
                self.number(20_000, 50_000)
            } else {
                self.number(100_000, 400_000)
            };
            orders.push(pay(desk_money(buyer % HALLS), buyer_money(buyer), amount));
            orders.push(set_limit(buyer, self.number(5, 15) * 1_000));
        }
        for grower in 0..GROWERS {
            let amount = self.number(20_000, 40_000);
            orders.push(pay(
                desk_money(grower % HALLS),
                grower_money(grower),
                amount,
            ));
            // The trolleys g, g + 16, g + 32 and so on, which are of one depot.
            let trolleys: Vec<usize> = (grower..TROLLEYS).step_by(GROWERS).collect();
            orders.push(take_trolleys(grower, &trolleys, self.number(20, 90)));
        }
        orders
    }

    /// What happens next.
    fn next_order(&mut self) -> Order {
        match self.random.below(100) {
            0..5 => {
                let buyer = self.random.below(BUYERS);
                pay(
                    desk_money(buyer % HALLS),
                    buyer_money(buyer),
                    self.number(50_000, 200_000),
                )
            }
            5..9 => {
                let grower = self.random.below(GROWERS);
                pay(
                    grower_money(grower),
                    desk_money(grower % HALLS),
                    self.number(50_000, 200_000),
                )
            }
            9..12 => self.late_sale(),
            _ => self.next_of_trolley(),
        }
    }

    /// A trolley goes from the depot to a grower, to a buyer, and back.
    fn next_of_trolley(&mut self) -> Order {
        let mut trolley = self.random.below(TROLLEYS);
        // Sales should be the most frequent, so the draw is repeated for them.
        for _ in 0..3 {
            if matches!(self.owner(trolley), Owner::Grower(_)) {
                break;
            }
            trolley = self.random.below(TROLLEYS);
        }
        match self.owner(trolley) {
            Owner::Grower(grower) => self.sale_of(trolley, grower),
            Owner::Buyer(buyer) => return_trolley(buyer, trolley),
            Owner::Nobody => {
                let grower = self.random.below(GROWERS);
                take_trolleys(grower, &[trolley], self.number(20, 90))
            }
        }
    }

    fn sale_of(&mut self, trolley: usize, grower: usize) -> Order {
        sell(&Sale {
            buyer: self.random.below(BUYERS),
            grower,
            trolley,
            hall: self.random.below(HALLS),
            bunch_price: self.number(80, 600),
        })
    }

    /// A sale by a grower who mostly does not have this trolley.
    fn late_sale(&mut self) -> Order {
        let trolley = self.random.below(TROLLEYS);
        let grower = self.random.below(GROWERS);
        self.sale_of(trolley, grower)
    }

    /// A sale whose first two read keys have changed places.
    fn sale_with_keys_not_rising(&mut self) -> Vec<u8> {
        let mut order = self.sale_of(0, 0);
        order.reads.swap(0, 1);
        encode(&order)
    }

    /// A sale whose last instructions are missing.
    fn sale_cut_short(&mut self) -> Vec<u8> {
        let mut bytes = encode(&self.sale_of(0, 0));
        bytes.truncate(bytes.len() - 7);
        bytes
    }

    fn number(&mut self, low: usize, high: usize) -> u32 {
        self.random.between(low, high) as u32
    }
}

/// The log of a morning with so many orders.
fn morning(orders: usize, seed: u64) -> Vec<u8> {
    let mut morning = Morning {
        random: Random::new(seed),
        log: Vec::new(),
        places: 0,
        values: Values::new(),
    };
    let opening = morning.opening();
    for order in opening.iter().take(orders) {
        morning.emit(order);
    }
    while morning.places < orders {
        match morning.places {
            PLACE_NOT_RISING => {
                let bytes = morning.sale_with_keys_not_rising();
                morning.emit_bytes(&bytes);
            }
            PLACE_CUT_SHORT => {
                let bytes = morning.sale_cut_short();
                morning.emit_bytes(&bytes);
            }
            _ => {
                let order = morning.next_order();
                morning.emit(&order);
            }
        }
    }
    morning.log
}

fn main() -> ExitCode {
    let arguments: Vec<String> = env::args().skip(1).collect();
    let Some((orders, seed)) = parse(&arguments) else {
        eprintln!("usage: sales [--orders N] [--seed S]");
        return ExitCode::from(2);
    };
    match io::stdout().write_all(&morning(orders, seed)) {
        Ok(()) => ExitCode::SUCCESS,
        Err(error) => {
            eprintln!("sales: {error}");
            ExitCode::FAILURE
        }
    }
}

fn parse(arguments: &[String]) -> Option<(usize, u64)> {
    let mut orders = DEFAULT_ORDERS;
    let mut seed = DEFAULT_SEED;
    for pair in arguments.chunks(2) {
        match pair {
            [name, number] if name == "--orders" => orders = number.parse().ok()?,
            [name, number] if name == "--seed" => seed = number.parse().ok()?,
            _ => return None,
        }
    }
    Some((orders, seed))
}

#[cfg(test)]
mod tests {
    use super::*;
    use reference::execute::End;
    use reference::order::decode;
    use reference::serial;
    use std::fs;

    /// A file of this directory.
    fn committed(name: &str) -> Vec<u8> {
        let path = format!("{}/../examples/sales/{name}", env!("CARGO_MANIFEST_DIR"));
        fs::read(path).expect("the file is there")
    }

    #[test]
    fn the_committed_files_are_what_the_generator_gives() {
        let log = morning(DEFAULT_ORDERS, DEFAULT_SEED);
        assert!(committed("line") == log);
        assert!(committed("values") == serial::answer(&log).stdout.into_bytes());
    }

    /// All money of the house.
    fn total(values: &Values) -> u32 {
        let mut keys: Vec<u16> = Vec::new();
        for hall in 0..HALLS {
            keys.extend([clock_commission(hall), desk_money(hall)]);
        }
        for buyer in 0..BUYERS {
            keys.push(buyer_money(buyer));
            keys.extend((0..DEPOTS).map(|depot| buyer_deposit(buyer, depot)));
        }
        for grower in 0..GROWERS {
            keys.push(grower_money(grower));
            keys.extend((0..DEPOTS).map(|depot| grower_deposit(grower, depot)));
        }
        keys.into_iter().map(|key| values.get(key)).sum()
    }

    #[test]
    fn no_money_is_made_or_lost_and_limits_hold() {
        let log = morning(2_000, 3);
        let mut values = Values::new();
        for bytes in log::split(&log).orders {
            let Ok(order) = decode(bytes) else { continue };
            execute(&order, &mut values);
            assert_eq!(total(&values), HALLS as u32 * DESK_AT_OPENING);
        }
        for buyer in 0..BUYERS {
            assert!(values.get(buyer_money(buyer)) >= values.get(buyer_limit(buyer)));
        }
    }

    #[test]
    fn two_are_malformed_and_some_are_stopped() {
        let log = morning(DEFAULT_ORDERS, DEFAULT_SEED);
        let mut values = Values::new();
        let mut malformed = Vec::new();
        let mut stopped = 0;
        for (place, bytes) in log::split(&log).orders.into_iter().enumerate() {
            match decode(bytes) {
                Ok(order) => {
                    if execute(&order, &mut values) == End::Stopped {
                        stopped += 1;
                    }
                }
                Err(_) => malformed.push(place),
            }
        }
        assert_eq!(malformed, [PLACE_NOT_RISING, PLACE_CUT_SHORT]);
        assert!((20..80).contains(&stopped), "{stopped} are stopped");
        let sales: u32 = (0..HALLS).map(|hall| values.get(clock_sales(hall))).sum();
        assert!(sales > 100, "{sales} sales");
    }
}
