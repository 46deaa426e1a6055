//! A house of suppliers and customers, and proper sheets, prices and records for it.

use crate::books::{CurveBook, REQUIREMENTS};
use crate::random::Random;
use crate::record::{Market, Record, Row, Withdrawal};

pub const MOST_SUPPLIERS: usize = 128;
pub const MOST_CUSTOMERS: usize = 256;
pub const MOST_WITHDRAWN: u32 = 500_000;
pub const MOST_TARGET: u32 = 1_000_000;
const MOST_POWER: u32 = 30_000;

/// The shadow prices (SP1 is 1) that a product at a location counts toward, as RULES.md, section 3.1, lists them.
/// Written out on its own, not shared with the statement program: so a slip on either side shows.
const COUNTED: [[&[usize]; 3]; 5] = [
    [&[1], &[1, 2], &[1, 2, 3]],
    [&[1, 4], &[1, 2, 4, 5], &[1, 2, 3, 4, 5, 6]],
    [&[1, 4, 7], &[1, 2, 4, 5, 7, 8], &[1, 2, 3, 4, 5, 6, 7, 8, 9]],
    [&[1, 4, 7, 10], &[1, 2, 4, 5, 7, 8, 10, 11], &[1, 2, 3, 4, 5, 6, 7, 8, 9, 10, 11, 12]],
    [&[1, 4, 7, 13], &[1, 2, 4, 5, 7, 8, 13, 14], &[1, 2, 3, 4, 5, 6, 7, 8, 9, 13, 14, 15]],
];

pub type Quantities = [u64; REQUIREMENTS];

/// Adds tenths (thirty, ten, spinning) supplied at a location to the quantities that they count toward.
pub fn count(quantities: &mut Quantities, location: usize, tenths: [u64; 3]) {
    for (product, tenths) in tenths.into_iter().enumerate() {
        for shadow in COUNTED[location][product] {
            quantities[shadow - 1] += tenths;
        }
    }
}

#[derive(Clone, Copy)]
pub struct Supplier {
    pub number: u32,
    pub location: u16,
    pub kind: u16,
    pub upper: u32,
    pub rate: u32,
}

/// From where a house's figures are drawn.
#[derive(Clone, Copy, PartialEq, Eq)]
pub enum Temper {
    /// Ordinary ranges.
    Ordinary,
    /// The whole ranges, with a liking for their ends.
    Extreme,
    /// What makes hours cost as much as they can: the largest suppliers, all where most prices count, called in full
    /// or not at all, at the highest prices.
    Dearest,
}

/// How the rows of one sheet are filled.
#[derive(Clone, Copy)]
enum Fill {
    Nothing,
    Full,
    Any,
}

impl Supplier {
    pub fn record(&self) -> Record {
        let Supplier { number, location, kind, upper, rate } = *self;
        Record::EnrolSupplier { number, location, kind, upper, rate }
    }

    pub fn most_spinning(&self) -> u32 {
        if self.kind == 1 {
            self.upper.min(10 * self.rate)
        } else {
            0
        }
    }

    pub fn most_ten(&self) -> u32 {
        if self.kind == 1 {
            0
        } else {
            self.upper
        }
    }

    pub fn most_thirty(&self) -> u32 {
        if self.kind == 1 {
            self.upper.min(20 * self.rate)
        } else {
            self.upper
        }
    }

    /// A row that keeps all rules of capability.
    fn row(&self, random: &mut Random, fill: Fill) -> Row {
        let upper = self.upper as i32;
        let energy = match random.between(0, 7) {
            0..=2 => 0,
            3 => -(MOST_POWER as i32),
            4 => upper,
            5 => -(random.between32(0, MOST_POWER) as i32),
            _ => random.between32(0, self.upper) as i32,
        };
        let energy = if matches!(fill, Fill::Full) { -(MOST_POWER as i32) } else { energy };
        let mut room = (upper - energy) as u32;
        let mut take = |most: u32, random: &mut Random| {
            let wanted = match fill {
                Fill::Nothing => 0,
                Fill::Full => most,
                Fill::Any => random.edgy(most),
            };
            let taken = wanted.min(room);
            room -= taken;
            taken
        };
        let spinning = take(self.most_spinning(), random);
        // Kind 2 has ten or thirty, kind 1 only thirty.
        let (ten, thirty) = if self.kind == 2 && random.one_in(2) {
            (take(self.most_ten(), random), 0)
        } else {
            (0, take(self.most_thirty(), random))
        };
        let regulation = if random.one_in(2) { 0 } else { random.edgy(room) };
        Row { energy, regulation, spinning, ten, thirty }
    }
}

pub struct House {
    pub suppliers: Vec<Supplier>,
    pub customers: Vec<u32>,
    temper: Temper,
}

impl House {
    pub fn new(temper: Temper) -> House {
        House { suppliers: Vec::new(), customers: Vec::new(), temper }
    }

    /// A supplier that may be enrolled, if the book is not full.
    pub fn new_supplier(&self, random: &mut Random) -> Supplier {
        let taken: Vec<u32> = self.suppliers.iter().map(|supplier| supplier.number).collect();
        let number = new_number(random, &taken);
        if self.temper == Temper::Dearest {
            let location = random.pick(&[3, 4]);
            return Supplier { number, location, kind: 1, upper: MOST_POWER, rate: MOST_POWER };
        }
        let location = random.between(0, 4) as u16;
        let kind = random.between(1, 2) as u16;
        let (upper, rate) = if self.temper == Temper::Extreme {
            // A response rate either so high that U is what binds, or so low that the rate is.
            let most_rate = random.pick(&[60, MOST_POWER]);
            (random.edgy(MOST_POWER), random.edgy(most_rate))
        } else {
            (random.between32(100, 6_000), random.between32(1, 60))
        };
        Supplier { number, location, kind, upper, rate }
    }

    pub fn new_customer(&self, random: &mut Random) -> u32 {
        // Now and then a number that a supplier has: the two books are apart.
        if !self.suppliers.is_empty() && random.one_in(4) {
            let number = self.suppliers[random.place(self.suppliers.len())].number;
            if !self.customers.contains(&number) {
                return number;
            }
        }
        new_number(random, &self.customers)
    }

    /// Prices, targets and a sheet that are accepted for a clearing or interval, given fifteen curves.
    pub fn market(&self, random: &mut Random, book: &CurveBook) -> Market {
        let dearest = self.temper == Temper::Dearest && !random.one_in(4);
        let fill = if dearest {
            random.pick(&[Fill::Nothing, Fill::Full])
        } else {
            random.pick(&[Fill::Nothing, Fill::Full, Fill::Any, Fill::Any, Fill::Any, Fill::Any])
        };
        let rows: Vec<Row> = self.suppliers.iter().map(|supplier| supplier.row(random, fill)).collect();
        let quantities = self.quantities(&rows);

        // The highest targets and prices; one manner for all; or of each requirement another.
        let (aim, greed) = if dearest { (0, 0) } else { (random.between(0, 5), random.between(0, 5)) };
        let mut prices = Vec::with_capacity(REQUIREMENTS);
        let mut targets = Vec::with_capacity(REQUIREMENTS);
        for (requirement, quantity) in quantities.into_iter().enumerate() {
            let aim = if aim > 3 { random.between(0, 3) } else { aim };
            let target = match aim {
                0 => MOST_TARGET,
                1 => random.between32(0, MOST_TARGET),
                // At a step's bound, or next to it.
                _ => {
                    let margin = match book.curves.get(requirement) {
                        Some(steps) if !steps.is_empty() => u64::from(random.pick(steps).0),
                        _ => 0,
                    };
                    let nudge = random.pick(&[0, 1, 1, 1, 2]);
                    (quantity + margin + nudge).saturating_sub(1).clamp(0, u64::from(MOST_TARGET)) as u32
                }
            };
            let value = book.value(requirement, target, quantity);
            let greed = if greed > 2 { random.between(0, 2) } else { greed };
            let price = match greed {
                0 => value,
                1 => random.between32(0, value),
                _ => random.edgy(value),
            };
            prices.push(price);
            targets.push(target);
        }
        let numbers = self.suppliers.iter().map(|supplier| supplier.number).collect();
        Market { prices, targets, numbers, rows }
    }

    pub fn quantities(&self, rows: &[Row]) -> Quantities {
        let mut quantities = [0; REQUIREMENTS];
        for (supplier, row) in self.suppliers.iter().zip(rows) {
            let tenths = [row.thirty, row.ten, row.spinning].map(u64::from);
            count(&mut quantities, usize::from(supplier.location), tenths);
        }
        quantities
    }

    /// Withdrawals of these customers with a total that is allowed; of none, no rows.
    pub fn withdrawals(&self, random: &mut Random) -> Vec<Withdrawal> {
        let count = self.customers.len();
        if count == 0 {
            return Vec::new();
        }
        let total = match random.between(0, 7) {
            0 => 1,
            1 => MOST_WITHDRAWN,
            2 => random.between32(1, 300),
            _ => random.between32(1, MOST_WITHDRAWN),
        };
        let nets = match random.between(0, 3) {
            // All with one customer.
            0 => {
                let mut nets = vec![0; count];
                nets[random.place(count)] = total;
                nets
            }
            _ => parts(random, total, count),
        };
        nets.into_iter().map(|net| withdrawal(random, net)).collect()
    }
}

fn new_number(random: &mut Random, taken: &[u32]) -> u32 {
    loop {
        let number = match random.between(0, 9) {
            0 => random.pick(&[0, 1, 9, 10, 99_999_999, 100_000_000, u32::MAX - 1, u32::MAX]),
            1..=3 => random.between32(0, u32::MAX),
            _ => random.between32(0, 9_999),
        };
        if !taken.contains(&number) {
            return number;
        }
    }
}

/// A row of this net withdrawal.
fn withdrawal(random: &mut Random, net: u32) -> Withdrawal {
    let room = u32::MAX - net;
    let (station, exports) = match random.between(0, 5) {
        0..=2 => (0, 0),
        3 => (random.between32(0, 500), random.between32(0, 500)),
        4 => (random.edgy(room), 0),
        _ => {
            let station = random.between32(0, room);
            (station, random.edgy(room - station))
        }
    };
    Withdrawal { gross: net + station + exports, station, exports }
}

/// This many numbers of 0 and more with this total.
pub fn parts(random: &mut Random, total: u32, count: usize) -> Vec<u32> {
    let mut cuts: Vec<u32> = (1..count).map(|_| random.between32(0, total)).collect();
    cuts.push(total);
    cuts.sort_unstable();
    let mut before = 0;
    cuts.into_iter()
        .map(|cut| {
            let part = cut - before;
            before = cut;
            part
        })
        .collect()
}

/// Lengths of intervals that make up an hour.
pub fn hour_parts(random: &mut Random) -> Vec<u32> {
    match random.between(0, 7) {
        0 | 1 => vec![3_600],
        2 => vec![300; 12],
        3 => vec![1, 3_599],
        4 => vec![3_300, 300],
        _ => {
            let count = random.between(2, 6) as usize;
            parts(random, 3_600, count).into_iter().filter(|seconds| *seconds > 0).collect()
        }
    }
}
