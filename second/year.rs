//! The benchmark: a year of ordinary hours, written fast.
//!
//! If not asked for otherwise, 92 suppliers and 210 customers; 8,760 hours of an opening, a clearing, twelve intervals
//! of 300 seconds and a closing. All records are accepted.

use crate::books::{CurveBook, REQUIREMENTS};
use crate::house::{count, Quantities, Supplier};
use crate::random::Random;
use crate::record::{header, words, Record, Row, Withdrawal};
use std::io::{self, Write};

const INTERVALS: u32 = 12;
const SECONDS: u32 = 300;

/// Bytes gathered before they are handed on.
const WRITE_AT: usize = 256 * 1024;

/// Tenths of a MW that each requirement asks for.
const TARGETS: [u32; REQUIREMENTS] =
    [26_200, 13_100, 6_550, 12_000, 12_000, 3_300, 13_000, 5_000, 2_500, 10_000, 5_000, 1_000, 5_400, 1_200, 600];

pub struct Size {
    pub suppliers: usize,
    pub customers: usize,
    pub hours: u32,
}

pub const ORDINARY: Size = Size { suppliers: 92, customers: 210, hours: 8_760 };

struct Year<'a> {
    random: &'a mut Random,
    book: &'a CurveBook,
    suppliers: Vec<Supplier>,
    supplier_numbers: Vec<u32>,
    customers: Vec<u32>,
    /// Ordinary net withdrawals.
    bases: Vec<u32>,
    feed: Vec<u8>,
}

pub fn write(random: &mut Random, book: &CurveBook, size: &Size, out: &mut impl Write) -> io::Result<()> {
    let mut year = Year::new(random, book, size);
    year.enrolments();
    for hour in 0..size.hours {
        year.hour(hour);
        if year.feed.len() >= WRITE_AT {
            out.write_all(&year.feed)?;
            year.feed.clear();
        }
    }
    out.write_all(&year.feed)
}

impl<'a> Year<'a> {
    fn new(random: &'a mut Random, book: &'a CurveBook, size: &Size) -> Year<'a> {
        let mut suppliers = Vec::new();
        for i in 0..size.suppliers {
            let kind = if random.one_in(3) { 2 } else { 1 };
            let upper = if kind == 1 { random.between32(500, 6_000) } else { random.between32(150, 1_000) };
            suppliers.push(Supplier {
                number: 10_001 + 7 * i as u32,
                location: random.pick(&[0, 0, 0, 1, 1, 2, 2, 3, 3, 4]),
                kind,
                upper,
                rate: random.between32(5, 40),
            });
        }
        let supplier_numbers = suppliers.iter().map(|supplier| supplier.number).collect();
        let customers = (0..size.customers as u32).map(|i| 500_001 + 3 * i).collect();
        let bases = (0..size.customers).map(|_| random.between32(50, 1_700)).collect();
        Year { random, book, suppliers, supplier_numbers, customers, bases, feed: Vec::with_capacity(2 * WRITE_AT) }
    }

    fn enrolments(&mut self) {
        for supplier in &self.suppliers {
            supplier.record().write(&mut self.feed);
        }
        for number in &self.customers {
            Record::EnrolCustomer { number: *number }.write(&mut self.feed);
        }
    }

    fn hour(&mut self, hour: u32) {
        Record::Open { hour }.write(&mut self.feed);
        // By how much of their reserves suppliers are called, of 256: it swings by the hour of the day and by chance.
        let call = 90 + 5 * (hour % 24).abs_diff(14) + self.random.between32(0, 80);
        header(&mut self.feed, 4, REQUIREMENTS, self.suppliers.len());
        self.market(call);
        for _ in 0..INTERVALS {
            header(&mut self.feed, 5, REQUIREMENTS, self.suppliers.len());
            words(&mut self.feed, &[SECONDS]);
            let drift = self.random.between32(0, 20);
            self.market(call - 10 + drift);
        }
        self.close(hour);
    }

    /// Prices, targets and a sheet. The rows come last in the record but are made first: prices depend on them.
    fn market(&mut self, call: u32) {
        let prices_at = self.feed.len();
        self.feed.resize(prices_at + 4 * REQUIREMENTS, 0);
        words(&mut self.feed, &TARGETS);
        words(&mut self.feed, &self.supplier_numbers);

        let mut at_place = [[0; 3]; 5];
        for supplier in &self.suppliers {
            let row = ordinary_row(supplier, call, self.random.bits());
            let here = &mut at_place[usize::from(supplier.location)];
            here[0] += u64::from(row.thirty);
            here[1] += u64::from(row.ten);
            here[2] += u64::from(row.spinning);
            self.feed.extend_from_slice(&row.bytes());
        }
        let mut quantities: Quantities = [0; REQUIREMENTS];
        for (location, tenths) in at_place.into_iter().enumerate() {
            count(&mut quantities, location, tenths);
        }

        let prices = self.feed[prices_at..prices_at + 4 * REQUIREMENTS].chunks_exact_mut(4);
        for (requirement, place) in prices.enumerate() {
            // Some way up to what the curve allows, mostly not far.
            let value = self.book.value(requirement, TARGETS[requirement], quantities[requirement]);
            let part = self.random.bits();
            let part = (part & 0xff) * (part >> 8 & 0xff);
            let price = (u64::from(value) * part >> 16) as u32;
            place.copy_from_slice(&price.to_le_bytes());
        }
    }

    fn close(&mut self, hour: u32) {
        header(&mut self.feed, 6, 0, self.customers.len());
        words(&mut self.feed, &self.customers);
        let load = 140 + 4 * (12 - (hour % 24).abs_diff(16).min(12)) + self.random.between32(0, 30);
        for base in &self.bases {
            let bits = self.random.bits();
            // At most 1,700 x 256 / 256, for at most 256 customers: below 500,000 together.
            let swing = (bits & 0x1f) as u32;
            let net = base * (load + swing).min(256) >> 8;
            let station = if bits >> 8 & 7 == 0 { (bits >> 16 & 0x3f) as u32 } else { 0 };
            let exports = if bits >> 24 & 7 == 0 { (bits >> 32 & 0xff) as u32 } else { 0 };
            self.feed.extend_from_slice(&Withdrawal { gross: net + station + exports, station, exports }.bytes());
        }
    }
}

/// A row within capability, with about `call` parts of 256 of the reserves that the supplier has.
fn ordinary_row(supplier: &Supplier, call: u32, bits: u64) -> Row {
    let part = |shift: u64| (call * 2 * (bits >> shift & 0xff) as u32 >> 8).min(256);
    let share = |most: u32, shift: u64| most * part(shift) >> 8;
    let (mut spinning, mut ten, mut thirty) = (0, 0, 0);
    if supplier.kind == 1 {
        spinning = share(supplier.most_spinning(), 0);
        thirty = share(supplier.most_thirty().min(supplier.upper - spinning), 8);
    } else if bits >> 63 == 0 {
        ten = share(supplier.upper, 0);
    } else {
        thirty = share(supplier.upper, 0);
    }
    let room = supplier.upper - spinning - ten - thirty;
    let energy = room * (bits >> 16 & 0xff) as u32 >> 8;
    let regulation = if bits >> 24 & 3 == 0 { (room - energy) >> 3 } else { 0 };
    Row { energy: energy as i32, regulation, spinning, ten, thirty }
}
