//! The course of a generated feed: enrolments, hours and, if asked for, faults strewn in.
//!
//! It keeps its own small picture of the ledger (stage, books, seconds, last closed hour), enough to know what is
//! proper next, and of every faulty record by which number it must be refused: checks run by number, so of several
//! faults in one record the lowest number counts.

use crate::books::{CurveBook, Soundness, REQUIREMENTS};
use crate::house::{hour_parts, House, Supplier, Temper};
use crate::house::{MOST_CUSTOMERS, MOST_SUPPLIERS, MOST_TARGET, MOST_WITHDRAWN};
use crate::random::Random;
use crate::record::{Market, Record, Row, Withdrawal};

const LAST_HOUR: u32 = 499_999;
const HOUR_SECONDS: u32 = 3_600;
const MOST_PRICE: u32 = 100_000;

pub struct Plan {
    pub suppliers: usize,
    pub customers: usize,
    pub hours: u32,
    pub temper: Temper,
    pub faults: bool,
}

#[derive(Clone, Copy, PartialEq, Eq)]
enum Stage {
    AtRest,
    Opened,
    Cleared,
}

/// A refusal that the feed is to meet: number and offset of the record.
pub type Expected = (u32, u64);

pub struct Course<'a> {
    random: &'a mut Random,
    book: &'a CurveBook,
    plan: Plan,
    house: House,
    begun: bool,
    stage: Stage,
    last_closed: Option<u32>,
    next_hour: u32,
    hours_left: u32,
    seconds: u32,
    feed: Vec<u8>,
    /// Offset of the feed's first byte that is not handed on yet.
    handed_on: u64,
    expected: Vec<Expected>,
    /// Offsets of all records, of those not handed on.
    records: Vec<u64>,
}

/// Part of a feed.
pub struct Piece {
    pub bytes: Vec<u8>,
    pub records: Vec<u64>,
    pub expected: Vec<Expected>,
}

impl<'a> Course<'a> {
    pub fn new(random: &'a mut Random, book: &'a CurveBook, mut plan: Plan) -> Course<'a> {
        plan.hours = plan.hours.min(LAST_HOUR + 1);
        // Hours from the first, somewhere, or up to the last.
        let latest_start = LAST_HOUR + 1 - plan.hours;
        let next_hour = match random.between(0, 3) {
            0 => 0,
            1 => latest_start,
            _ => random.between32(0, latest_start),
        };
        Course {
            house: House::new(plan.temper),
            begun: false,
            stage: Stage::AtRest,
            last_closed: None,
            next_hour,
            hours_left: plan.hours,
            seconds: 0,
            feed: Vec::new(),
            handed_on: 0,
            expected: Vec::new(),
            records: Vec::new(),
            random,
            book,
            plan,
        }
    }

    /// The next part of the feed, or none after its end.
    pub fn next_piece(&mut self) -> Option<Piece> {
        if !self.begun {
            self.begun = true;
            self.first_enrolments();
        } else if self.hours_left > 0 {
            self.hour();
            self.hours_left -= 1;
        } else {
            return None;
        }
        let bytes = std::mem::take(&mut self.feed);
        self.handed_on += bytes.len() as u64;
        Some(Piece { bytes, records: std::mem::take(&mut self.records), expected: std::mem::take(&mut self.expected) })
    }

    fn first_enrolments(&mut self) {
        // A few are left to be enrolled later.
        let (mut suppliers, mut customers) = (self.plan.suppliers, self.plan.customers);
        if self.plan.hours > 1 && self.random.one_in(2) {
            suppliers -= self.random.place(suppliers + 1).min(3);
            customers -= self.random.place(customers + 1).min(3);
        }
        while suppliers + customers > 0 {
            self.maybe_faults(16);
            if self.random.place(suppliers + customers) < suppliers {
                suppliers -= 1;
                self.enrol_supplier();
            } else {
                customers -= 1;
                self.enrol_customer();
            }
        }
    }

    fn enrol_supplier(&mut self) {
        let supplier = self.house.new_supplier(self.random);
        self.accepted(&supplier.record());
        self.house.suppliers.push(supplier);
    }

    fn enrol_customer(&mut self) {
        let number = self.house.new_customer(self.random);
        self.accepted(&Record::EnrolCustomer { number });
        self.house.customers.push(number);
    }

    /// One hour from opening to closing, or to voiding where it cannot be closed.
    fn hour(&mut self) {
        while self.house.suppliers.len() < self.plan.suppliers && self.random.one_in(2) {
            self.enrol_supplier();
        }
        while self.house.customers.len() < self.plan.customers && self.random.one_in(2) {
            self.enrol_customer();
        }
        // Hours may be left out, as long as enough remain.
        let spare = LAST_HOUR - self.next_hour - (self.hours_left - 1);
        if spare > 0 && self.random.one_in(4) {
            let most = self.random.pick(&[1, 24, 10_000]).min(spare);
            self.next_hour += self.random.between32(1, most);
        }

        if self.random.one_in(8) {
            self.run_through(true);
        }
        self.run_through(false);
        self.next_hour += 1;
    }

    /// Runs through the hour in hand. It ends by closing, unless that is impossible or it is to be voided.
    fn run_through(&mut self, to_void: bool) {
        self.maybe_faults(2);
        let hour = self.next_hour;
        self.accepted(&Record::Open { hour });
        self.stage = Stage::Opened;
        self.seconds = 0;
        self.maybe_faults(2);
        if self.book.soundness == Soundness::OtherCount || (to_void && self.random.one_in(3)) {
            return self.void();
        }

        let market = self.house.market(self.random, self.book);
        self.accepted(&Record::Clear { market });
        self.stage = Stage::Cleared;
        let leave_early = to_void && self.random.one_in(2);
        for seconds in hour_parts(self.random) {
            self.maybe_faults(3);
            if leave_early && self.random.one_in(2) {
                return self.void();
            }
            let market = self.house.market(self.random, self.book);
            self.accepted(&Record::Interval { seconds, market });
            self.seconds += seconds;
        }
        self.maybe_faults(2);
        if to_void || self.house.customers.is_empty() {
            return self.void();
        }

        let rows = self.house.withdrawals(self.random);
        let numbers = self.house.customers.clone();
        self.accepted(&Record::Close { numbers, rows });
        self.last_closed = Some(hour);
        self.stage = Stage::AtRest;
        self.maybe_faults(4);
    }

    fn void(&mut self) {
        self.accepted(&Record::Void);
        self.stage = Stage::AtRest;
    }

    fn accepted(&mut self, record: &Record) {
        self.records.push(self.handed_on + self.feed.len() as u64);
        record.write(&mut self.feed);
    }

    fn refused(&mut self, record: &Record, number: u32) {
        self.expected.push((number, self.handed_on + self.feed.len() as u64));
        self.accepted(record);
    }

    /// None, one or more faulty records, if the plan has faults: the first with a chance of one in `many`.
    fn maybe_faults(&mut self, many: u64) {
        if !self.plan.faults || !self.random.one_in(many) {
            return;
        }
        loop {
            let (record, number) = self.faulty_record();
            self.refused(&record, number);
            if !self.random.one_in(3) {
                return;
            }
        }
    }

    fn faulty_record(&mut self) -> (Record, u32) {
        loop {
            if self.random.one_in(4) {
                return (self.wrong_stage(), 4);
            }
            let made = match self.stage {
                Stage::AtRest => match self.random.between(0, 2) {
                    0 => self.faulty_supplier(),
                    1 => self.faulty_customer(),
                    _ => self.faulty_open(),
                },
                Stage::Opened => self.faulty_clear(),
                Stage::Cleared => {
                    if self.random.one_in(2) {
                        self.faulty_interval()
                    } else {
                        self.faulty_close()
                    }
                }
            };
            // Not every fault can be made at every time.
            if let Some(made) = made {
                return made;
            }
        }
    }

    /// A record that the stage does not take, else proper or not.
    fn wrong_stage(&mut self) -> Record {
        let kinds: &[u32] = match self.stage {
            Stage::AtRest => &[4, 5, 6, 7],
            Stage::Opened => &[1, 2, 3, 5, 6],
            Stage::Cleared => &[1, 2, 3, 4],
        };
        let kind = self.random.pick(kinds);
        let faulty = self.random.one_in(3);
        match kind {
            1 => match self.faulty_supplier() {
                Some((record, _)) if faulty => record,
                _ => self.house.new_supplier(self.random).record(),
            },
            2 => match self.faulty_customer() {
                Some((record, _)) if faulty => record,
                _ => Record::EnrolCustomer { number: self.house.new_customer(self.random) },
            },
            3 => match self.faulty_open() {
                Some((record, _)) if faulty => record,
                _ => Record::Open { hour: self.next_hour },
            },
            4 => match self.faulty_clear() {
                Some((record, _)) if faulty => record,
                _ => Record::Clear { market: self.house.market(self.random, self.book) },
            },
            5 => match self.faulty_interval() {
                Some((record, _)) if faulty => record,
                _ => Record::Interval { seconds: 300, market: self.house.market(self.random, self.book) },
            },
            6 => match self.faulty_close() {
                Some((record, _)) if faulty => record,
                _ => {
                    let rows = self.house.withdrawals(self.random);
                    Record::Close { numbers: self.house.customers.clone(), rows }
                }
            },
            _ => Record::Void,
        }
    }

    fn faulty_supplier(&mut self) -> Option<(Record, u32)> {
        let Supplier { mut number, mut location, mut kind, mut upper, mut rate } = self.house.new_supplier(self.random);
        let mut faults = Vec::new();
        let enrolled = &self.house.suppliers;
        if !enrolled.is_empty() && self.random.one_in(2) {
            number = enrolled[self.random.place(enrolled.len())].number;
            faults.push(11);
        }
        if enrolled.len() == MOST_SUPPLIERS {
            faults.push(12);
        }
        let fields = if faults.is_empty() { self.random.between(1, 15) } else { self.random.between(0, 15) };
        if fields & 1 > 0 {
            location = self.random.pick(&[5, 6, 255, 256, 0x8000, u16::MAX]);
        }
        if fields & 2 > 0 {
            kind = self.random.pick(&[0, 3, 257, 258, u16::MAX]);
        }
        let too_much = [30_001, 65_536, 0x8000_0000, u32::MAX];
        if fields & 4 > 0 {
            upper = self.random.pick(&too_much);
        }
        if fields & 8 > 0 {
            rate = self.random.pick(&too_much);
        }
        if fields > 0 {
            faults.push(13);
        }
        Some((Record::EnrolSupplier { number, location, kind, upper, rate }, lowest(&faults)?))
    }

    fn faulty_customer(&mut self) -> Option<(Record, u32)> {
        let mut number = self.house.new_customer(self.random);
        let mut faults = Vec::new();
        let enrolled = &self.house.customers;
        if !enrolled.is_empty() && (enrolled.len() < MOST_CUSTOMERS || self.random.one_in(2)) {
            number = enrolled[self.random.place(enrolled.len())];
            faults.push(11);
        }
        if enrolled.len() == MOST_CUSTOMERS {
            faults.push(12);
        }
        Some((Record::EnrolCustomer { number }, lowest(&faults)?))
    }

    fn faulty_open(&mut self) -> Option<(Record, u32)> {
        let hour = match self.last_closed {
            Some(last) if self.random.one_in(2) => match self.random.between(0, 2) {
                0 => 0,
                1 => last,
                _ => self.random.between32(0, last),
            },
            _ => self.random.pick(&[LAST_HOUR + 1, 1_000_000, 0x8000_0000, u32::MAX]),
        };
        Some((Record::Open { hour }, 21))
    }

    fn faulty_clear(&mut self) -> Option<(Record, u32)> {
        let wanted = self.some_of(&[31, 32, 33, 34, 35, 36]);
        let (market, faults) = self.faulty_market(&wanted);
        Some((Record::Clear { market }, lowest(&faults)?))
    }

    fn faulty_interval(&mut self) -> Option<(Record, u32)> {
        let wanted = self.some_of(&[31, 32, 33, 34, 35, 36, 41]);
        let (market, mut faults) = self.faulty_market(&wanted);
        let left = HOUR_SECONDS - self.seconds;
        let seconds = if wanted.contains(&41) || left == 0 {
            faults.push(41);
            // The last of these is 2^32 with the seconds already settled.
            let wrapping = 0_u32.wrapping_sub(self.seconds);
            self.random.pick(&[0, left + 1, 3_601, 65_536, 0x8000_0000, u32::MAX, wrapping])
        } else {
            self.random.between32(1, left)
        };
        Some((Record::Interval { seconds, market }, lowest(&faults)?))
    }

    /// A market with these faults, as far as they can be made; and the faults that it has.
    fn faulty_market(&mut self, wanted: &[u32]) -> (Market, Vec<u32>) {
        let mut market = self.house.market(self.random, self.book);
        let mut faults = Vec::new();
        // What every such record of this book has.
        if self.book.soundness == Soundness::OtherCount {
            faults.push(34);
        }
        // From the highest number down, so that each finds the record still as it needs it.
        if wanted.contains(&36) {
            let quantities = self.house.quantities(&market.rows);
            let first = self.random.place(REQUIREMENTS);
            let places = (0..REQUIREMENTS).map(|i| (first + i) % REQUIREMENTS);
            for requirement in places {
                let value = self.book.value(requirement, market.targets[requirement], quantities[requirement]);
                if value < MOST_PRICE {
                    market.prices[requirement] = match self.random.between(0, 3) {
                        0 | 1 => value + 1,
                        2 => MOST_PRICE,
                        _ => self.random.between32(value + 1, MOST_PRICE),
                    };
                    faults.push(36);
                    break;
                }
            }
        }
        if wanted.contains(&35) {
            let requirement = self.random.place(REQUIREMENTS);
            if self.random.one_in(2) {
                market.prices[requirement] = self.random.pick(&[MOST_PRICE + 1, 0x8000_0000, u32::MAX]);
            } else {
                market.targets[requirement] = self.random.pick(&[MOST_TARGET + 1, 0x8000_0000, u32::MAX]);
            }
            faults.push(35);
        }
        if wanted.contains(&34) {
            let count = other_count(self.random, REQUIREMENTS, 1, 32);
            market.prices.resize(count, 0);
            market.targets.resize(count, 0);
            faults.push(34);
        }
        let count = market.rows.len();
        if wanted.contains(&33) && count > 0 {
            let place = self.random.place(count);
            market.rows[place] = row_beyond(self.random, &self.house.suppliers[place]);
            faults.push(33);
        }
        if wanted.contains(&32) && count > 0 {
            wrong_numbers(self.random, &mut market.numbers);
            faults.push(32);
        }
        if wanted.contains(&31) {
            let other = other_count(self.random, count, 0, MOST_SUPPLIERS);
            market.numbers.resize(other, 0);
            market.rows.resize(other, Row { energy: 0, regulation: 0, spinning: 0, ten: 0, thirty: 0 });
            faults.push(31);
        }
        (market, faults)
    }

    fn faulty_close(&mut self) -> Option<(Record, u32)> {
        let mut wanted = self.some_of(&[31, 32, 43, 44]);
        let mut faults = Vec::new();
        if self.seconds < HOUR_SECONDS {
            faults.push(42);
            if self.random.one_in(2) {
                wanted.clear();
            }
        }
        let mut numbers = self.house.customers.clone();
        let mut rows = self.house.withdrawals(self.random);
        let count = rows.len();
        if count == 0 {
            faults.push(44);
        }
        if wanted.contains(&44) && count > 0 {
            rows = wrong_total(self.random, count);
            faults.push(44);
        }
        if wanted.contains(&43) && count > 0 {
            let place = self.random.place(count);
            let row = &mut rows[place];
            match self.random.between(0, 3) {
                // Over by one.
                0 if row.gross < u32::MAX => (row.station, row.exports) = (row.gross + 1, 0),
                1 if row.gross < u32::MAX => (row.station, row.exports) = (1, row.gross),
                // Over, though not in 32 bits.
                2 => *row = Withdrawal { gross: 50, station: 0x8000_0000, exports: 0x8000_0000 },
                _ => *row = Withdrawal { gross: u32::MAX, station: u32::MAX, exports: 1 },
            }
            faults.push(43);
        }
        if wanted.contains(&32) && count > 0 {
            wrong_numbers(self.random, &mut numbers);
            faults.push(32);
        }
        if wanted.contains(&31) {
            let other = other_count(self.random, count, 0, MOST_CUSTOMERS);
            numbers.resize(other, 0);
            rows.resize(other, Withdrawal { gross: 1, station: 0, exports: 0 });
            faults.push(31);
        }
        Some((Record::Close { numbers, rows }, lowest(&faults)?))
    }

    /// One of these or, more rarely, up to three.
    fn some_of(&mut self, list: &[u32]) -> Vec<u32> {
        let count = self.random.pick(&[1, 1, 1, 2, 3]);
        (0..count).map(|_| self.random.pick(list)).collect()
    }
}

fn lowest(faults: &[u32]) -> Option<u32> {
    faults.iter().copied().min()
}

/// Another count than this, next to it or anywhere.
fn other_count(random: &mut Random, count: usize, least: usize, most: usize) -> usize {
    loop {
        let other = match random.between(0, 3) {
            0 => count + 1,
            1 => count.saturating_sub(1),
            2 => random.pick(&[least, most]),
            _ => random.between(least as u64, most as u64) as usize,
        };
        if other != count && (least..=most).contains(&other) {
            return other;
        }
    }
}

/// Makes at least one of the numbers another.
fn wrong_numbers(random: &mut Random, numbers: &mut [u32]) {
    let place = random.place(numbers.len());
    let other = random.place(numbers.len());
    if place != other && random.one_in(2) {
        // Numbers differ within a book, so after this two rows are wrong.
        numbers.swap(place, other);
    } else {
        numbers[place] ^= 1 << random.between(0, 31);
    }
}

/// A row that breaks at least one rule of capability of this supplier.
fn row_beyond(random: &mut Random, supplier: &Supplier) -> Row {
    let upper = supplier.upper as i32;
    // Nothing scheduled and as much room as there can be, so that mostly one rule alone is broken.
    let mut row = Row { energy: -30_000, regulation: 0, spinning: 0, ten: 0, thirty: 0 };
    let far = random.pick(&[1, 1, 1, 2, 1_000, 0x7fff_0000]);
    match random.between(0, 7) {
        0 => row.spinning = supplier.most_spinning() + far,
        1 => row.thirty = supplier.most_thirty() + far,
        2 => row.ten = supplier.most_ten() + far,
        3 if supplier.kind == 2 => (row.ten, row.thirty) = (1, 1),
        4 => row.energy = random.pick(&[-30_001, 30_001, i32::MIN, i32::MAX]),
        5 => row.regulation = random.pick(&[u32::MAX, 0x8000_0000, u32::MAX - 29_999, u32::MAX - 30_000]),
        // One over U, by regulation or by energy.
        6 if upper < 30_000 => row.energy = upper + 1,
        _ => row.regulation = (upper + 30_001) as u32,
    }
    row
}

/// Withdrawals, none negative, of a total that is not allowed.
fn wrong_total(random: &mut Random, count: usize) -> Vec<Withdrawal> {
    let none = Withdrawal { gross: 0, station: 0, exports: 0 };
    let mut rows = vec![none; count];
    let place = random.place(count);
    match random.between(0, 4) {
        0 => {}
        1 => {
            for row in &mut rows {
                let power = random.between32(0, 1_000);
                *row = Withdrawal { gross: power + 7, station: power, exports: 7 };
            }
        }
        2 => rows[place].gross = MOST_WITHDRAWN + 1,
        3 => rows[place].gross = u32::MAX,
        // 2^32 and a little, where there is more than one customer.
        _ => {
            rows[place].gross = u32::MAX;
            rows[(place + 1) % count].gross = if count > 1 { 51 } else { u32::MAX };
        }
    }
    rows
}
