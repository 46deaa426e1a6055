//! The ledger: books, the course of an hour, sharing the cost (RULES.md, sections 5 to 8; REFUSALS.md, section 3).
//!
//! Why 64 bits are enough everywhere, so that plain arithmetic is exact (`selftest.sh` also runs a build in which an
//! overflow would abort):
//!
//! - A schedule row that is accepted has products of at most 30,000 tenths each (U is at most 30,000), of which at most
//!   two are above 0. A clearing price is a sum of at most 12 shadow prices: at most 1,200,000 cents.
//! - So a supplier's clearing is worth at most 1,200,000 x 60,000 x 3,600 < 2.6 x 10^14 grains, and its intervals,
//!   which last 3,600 seconds together, move no more than that either way. Its grains of the hour stay below
//!   5.2 x 10^14 on both sides of 0.
//! - N is the same money for at most 128 suppliers: below 6.7 x 10^16. Its parts by requirement are below that too,
//!   because a quantity is at most 128 x 60,000 tenths and shadow prices at most 100,000: each part of one record is at
//!   most 100,000 x 7,680,000 x 3,600 < 2.8 x 10^15, and there are 15.
//! - T = floor((N + K) / 36,000) is below 1.9 x 10^12 on both sides of 0, inside the range of a sharing rule, and
//!   T x (B + w) with B + w at most 500,000 is below 9.5 x 10^17.
//! - Cents of an account: an hour adds less than 2 x 10^12, and no more than 500,000 hours can be closed, since hours
//!   only grow: below 10^18, inside the account's range.
//!
//! By the same figures refusal 45 cannot be met here: only these calls write accounts, held grains are a rest of
//! 36,000, day-ahead products passed the capability check, and U and E were tested at enrolment. So nothing tests 45.

use crate::curves::CurveBook;
use crate::feed::{u32_at, Market, Record, Sheet, SCHEDULE_ROW, WITHDRAWAL_ROW};
use crate::map::{self, ByPlace, ByRequirement, LOCATIONS, PRODUCTS, REQUIREMENTS, SPINNING, TEN, THIRTY};

pub const MOST_SUPPLIERS: usize = 128;
pub const MOST_CUSTOMERS: usize = 256;
const MOST_UPPER: u32 = 30_000;
const MOST_RATE: u32 = 30_000;
const MOST_ENERGY: i64 = 30_000;
const MOST_PRICE: u32 = 100_000;
const MOST_TARGET: u32 = 1_000_000;
const LAST_HOUR: u32 = 499_999;
const MOST_WITHDRAWN: u64 = 500_000;
const HOUR_SECONDS: u32 = 3_600;
const GRAINS_PER_CENT: i64 = 36_000;

/// Why a record was refused, with the value that REFUSALS.md, section 2, says is told. The statement writes only the
/// number (of refusal 4 the offset is the feed's to know).
#[derive(Clone, Copy, Debug, PartialEq, Eq)]
pub enum Refusal {
    WrongStage,
    NumberTaken { place: usize },
    BookFull { count: usize },
    FieldOutOfRange { field: u32 },
    HourOutOfOrder { last_closed: Option<u32> },
    SheetLength { count: usize },
    SheetNumber { row: usize },
    BeyondCapability { row: usize },
    RequirementCount { requirements: usize },
    PriceOrTargetOutOfRange { requirement: usize },
    AboveDemandCurve { requirement: usize },
    IntervalLength { left: u32 },
    HourIncomplete { missing: u32 },
    NegativeNet { row: usize },
    WithdrawalTotal { total: u64 },
}

impl Refusal {
    pub fn number(self) -> u32 {
        match self {
            Refusal::WrongStage => 4,
            Refusal::NumberTaken { .. } => 11,
            Refusal::BookFull { .. } => 12,
            Refusal::FieldOutOfRange { .. } => 13,
            Refusal::HourOutOfOrder { .. } => 21,
            Refusal::SheetLength { .. } => 31,
            Refusal::SheetNumber { .. } => 32,
            Refusal::BeyondCapability { .. } => 33,
            Refusal::RequirementCount { .. } => 34,
            Refusal::PriceOrTargetOutOfRange { .. } => 35,
            Refusal::AboveDemandCurve { .. } => 36,
            Refusal::IntervalLength { .. } => 41,
            Refusal::HourIncomplete { .. } => 42,
            Refusal::NegativeNet { .. } => 43,
            Refusal::WithdrawalTotal { .. } => 44,
        }
    }
}

#[derive(Clone, Copy, Debug, PartialEq, Eq)]
enum Stage {
    AtRest,
    Opened,
    Cleared,
}

/// A supplier's account, with its capability worked out in the form in which rows are tested.
#[derive(Clone, Debug, PartialEq, Eq)]
pub struct Supplier {
    pub number: u32,
    pub location: usize,
    /// Most tenths of each product that its kind, U and E allow.
    most: [u32; PRODUCTS],
    upper: i64,
    pub cents: i64,
    pub held: i64,
    pub grains_of_hour: i64,
    day_ahead: [i64; PRODUCTS],
    /// What the last closing added to `cents`.
    pub paid: i64,
}

/// A customer's account.
#[derive(Clone, Debug, PartialEq, Eq)]
pub struct Customer {
    pub number: u32,
    pub cents: i64,
    /// What the last closing added to `cents`.
    pub charged: i64,
}

/// A book: accounts in the order of enrolment, and their numbers once more as the bytes that a sheet's numbers must be,
/// so that the numbers of a sheet are compared in one go.
#[derive(Clone, Debug, PartialEq, Eq)]
struct Book<A> {
    accounts: Vec<A>,
    numbers: Vec<u8>,
    most: usize,
}

impl<A> Book<A> {
    fn new(most: usize) -> Book<A> {
        Book { accounts: Vec::with_capacity(most), numbers: Vec::with_capacity(4 * most), most }
    }

    /// 11 and 12, for an account that is to be enrolled.
    fn check_new(&self, number: u32) -> Result<(), Refusal> {
        if let Some(place) = self.numbers.chunks_exact(4).position(|taken| u32_at(taken, 0) == number) {
            return Err(Refusal::NumberTaken { place });
        }
        if self.accounts.len() >= self.most {
            return Err(Refusal::BookFull { count: self.accounts.len() });
        }
        Ok(())
    }

    fn enrol(&mut self, number: u32, account: A) {
        self.accounts.push(account);
        self.numbers.extend_from_slice(&number.to_le_bytes());
    }

    /// 31 and 32, for a sheet of this book.
    fn check_sheet(&self, sheet: &Sheet) -> Result<(), Refusal> {
        if sheet.numbers.len() != self.numbers.len() {
            return Err(Refusal::SheetLength { count: self.accounts.len() });
        }
        if sheet.numbers != self.numbers {
            let pairs = sheet.numbers.chunks_exact(4).zip(self.numbers.chunks_exact(4));
            let row = pairs.take_while(|(given, due)| given == due).count();
            return Err(Refusal::SheetNumber { row });
        }
        Ok(())
    }
}

/// What a checked clearing or interval is settled with.
struct Checked {
    shadow: ByRequirement,
    quantities: ByRequirement,
    clearing: ByPlace,
}

#[derive(Clone, Debug, PartialEq, Eq)]
pub struct Ledger {
    suppliers: Book<Supplier>,
    customers: Book<Customer>,
    stage: Stage,
    last_closed: Option<u32>,
    carry: i64,
    // Of the open hour:
    hour: u32,
    seconds: u32,
    cost: i64,
    /// Quantities of the day-ahead sheet. The suppliers' day-ahead schedules are that sheet's rows for as long as the
    /// hour is cleared, so the sums need not be taken again at each interval.
    day_ahead: ByRequirement,
}

impl Ledger {
    pub fn new() -> Ledger {
        Ledger {
            suppliers: Book::new(MOST_SUPPLIERS),
            customers: Book::new(MOST_CUSTOMERS),
            stage: Stage::AtRest,
            last_closed: None,
            carry: 0,
            hour: 0,
            seconds: 0,
            cost: 0,
            day_ahead: [0; REQUIREMENTS],
        }
    }

    pub fn suppliers(&self) -> &[Supplier] {
        &self.suppliers.accounts
    }

    pub fn customers(&self) -> &[Customer] {
        &self.customers.accounts
    }

    pub fn carry(&self) -> i64 {
        self.carry
    }

    /// Does what a record asks for, or refuses it and changes nothing. The hour is answered if this closed one.
    pub fn take(&mut self, record: &Record, curves: &CurveBook) -> Result<Option<u32>, Refusal> {
        let fits = match record {
            Record::EnrolSupplier { .. } | Record::EnrolCustomer { .. } | Record::Open { .. } => {
                self.stage == Stage::AtRest
            }
            Record::Clear { .. } => self.stage == Stage::Opened,
            Record::Interval { .. } | Record::Close { .. } => self.stage == Stage::Cleared,
            Record::Void => self.stage != Stage::AtRest,
        };
        if !fits {
            return Err(Refusal::WrongStage);
        }
        match *record {
            Record::EnrolSupplier { number, location, kind, upper, rate } => {
                self.enrol_supplier(number, location, kind, upper, rate)?
            }
            Record::EnrolCustomer { number } => self.enrol_customer(number)?,
            Record::Open { hour } => self.open(hour)?,
            Record::Clear { ref market } => self.clear(market, curves)?,
            Record::Interval { seconds, ref market } => self.interval(seconds, market, curves)?,
            Record::Close { ref sheet } => {
                self.close(sheet)?;
                return Ok(Some(self.hour));
            }
            Record::Void => self.void(),
        }
        Ok(None)
    }

    fn enrol_supplier(&mut self, number: u32, location: u16, kind: u16, upper: u32, rate: u32) -> Result<(), Refusal> {
        self.suppliers.check_new(number)?;
        let location = usize::from(location);
        let wrong_field = if location >= LOCATIONS {
            Some(1)
        } else if kind != 1 && kind != 2 {
            Some(2)
        } else if upper > MOST_UPPER {
            Some(3)
        } else if rate > MOST_RATE {
            Some(4)
        } else {
            None
        };
        if let Some(field) = wrong_field {
            return Err(Refusal::FieldOutOfRange { field });
        }

        let mut most = [0; PRODUCTS];
        if kind == 1 {
            most[SPINNING] = upper.min(10 * rate);
            most[THIRTY] = upper.min(20 * rate);
        } else {
            most[TEN] = upper;
            most[THIRTY] = upper;
        }
        let account = Supplier {
            number,
            location,
            most,
            upper: i64::from(upper),
            cents: 0,
            held: 0,
            grains_of_hour: 0,
            day_ahead: [0; PRODUCTS],
            paid: 0,
        };
        self.suppliers.enrol(number, account);
        Ok(())
    }

    fn enrol_customer(&mut self, number: u32) -> Result<(), Refusal> {
        self.customers.check_new(number)?;
        self.customers.enrol(number, Customer { number, cents: 0, charged: 0 });
        Ok(())
    }

    fn open(&mut self, hour: u32) -> Result<(), Refusal> {
        let in_order = self.last_closed.is_none_or(|last| hour > last);
        if hour > LAST_HOUR || !in_order {
            return Err(Refusal::HourOutOfOrder { last_closed: self.last_closed });
        }
        self.hour = hour;
        self.seconds = 0;
        self.cost = 0;
        self.stage = Stage::Opened;
        Ok(())
    }

    fn clear(&mut self, market: &Market, curves: &CurveBook) -> Result<(), Refusal> {
        let checked = self.check_market(market, curves)?;

        let seconds = i64::from(HOUR_SECONDS);
        let rows = market.sheet.rows.chunks_exact(SCHEDULE_ROW);
        for (supplier, row) in self.suppliers.accounts.iter_mut().zip(rows) {
            let prices = &checked.clearing[supplier.location];
            let tenths = products(row);
            supplier.grains_of_hour += worth(prices, &tenths) * seconds;
            supplier.day_ahead = tenths;
        }
        self.cost += worth(&checked.shadow, &checked.quantities) * seconds;
        self.day_ahead = checked.quantities;
        self.stage = Stage::Cleared;
        Ok(())
    }

    fn interval(&mut self, seconds: u32, market: &Market, curves: &CurveBook) -> Result<(), Refusal> {
        let checked = self.check_market(market, curves)?;
        let left = HOUR_SECONDS - self.seconds;
        if seconds == 0 || seconds > left {
            return Err(Refusal::IntervalLength { left });
        }

        self.seconds += seconds;
        let seconds = i64::from(seconds);
        let rows = market.sheet.rows.chunks_exact(SCHEDULE_ROW);
        for (supplier, row) in self.suppliers.accounts.iter_mut().zip(rows) {
            let prices = &checked.clearing[supplier.location];
            let moved = difference(&products(row), &supplier.day_ahead);
            supplier.grains_of_hour += worth(prices, &moved) * seconds;
        }
        let moved = difference(&checked.quantities, &self.day_ahead);
        self.cost += worth(&checked.shadow, &moved) * seconds;
        Ok(())
    }

    /// The checks 31 to 36 that clearings and intervals have alike.
    fn check_market(&self, market: &Market, curves: &CurveBook) -> Result<Checked, Refusal> {
        self.suppliers.check_sheet(&market.sheet)?;
        let tenths = self.check_capability(market.sheet.rows)?;

        let curves = curves.curves();
        if market.prices.len() != 4 * REQUIREMENTS || curves.len() != REQUIREMENTS {
            return Err(Refusal::RequirementCount { requirements: REQUIREMENTS });
        }

        let mut shadow = [0; REQUIREMENTS];
        let mut targets = [0; REQUIREMENTS];
        for requirement in 0..REQUIREMENTS {
            let price = u32_at(market.prices, 4 * requirement);
            let target = u32_at(market.targets, 4 * requirement);
            if price > MOST_PRICE || target > MOST_TARGET {
                return Err(Refusal::PriceOrTargetOutOfRange { requirement });
            }
            shadow[requirement] = i64::from(price);
            targets[requirement] = i64::from(target);
        }

        let quantities = map::quantities(&tenths);
        for requirement in 0..REQUIREMENTS {
            // A price of 0 is above no curve.
            let price = shadow[requirement];
            if price > 0 && price > curves[requirement].value(targets[requirement], quantities[requirement]) {
                return Err(Refusal::AboveDemandCurve { requirement });
            }
        }
        Ok(Checked { shadow, quantities, clearing: map::clearing_prices(&shadow) })
    }

    /// 33, for rows whose numbers are checked. Answers the tenths of each product at each location: the one pass over
    /// a sheet finds both.
    fn check_capability(&self, rows: &[u8]) -> Result<ByPlace, Refusal> {
        let mut tenths = [[0; PRODUCTS]; LOCATIONS];
        for (row, (supplier, bytes)) in self.suppliers.accounts.iter().zip(rows.chunks_exact(SCHEDULE_ROW)).enumerate()
        {
            if !supplier.can(bytes) {
                return Err(Refusal::BeyondCapability { row });
            }
            let scheduled = products(bytes);
            let here = &mut tenths[supplier.location];
            for product in 0..PRODUCTS {
                here[product] += scheduled[product];
            }
        }
        Ok(tenths)
    }

    fn close(&mut self, sheet: &Sheet) -> Result<(), Refusal> {
        self.customers.check_sheet(sheet)?;
        if self.seconds < HOUR_SECONDS {
            return Err(Refusal::HourIncomplete { missing: HOUR_SECONDS - self.seconds });
        }
        let mut nets = [0; MOST_CUSTOMERS];
        let mut total = 0;
        for (row, (net, bytes)) in nets.iter_mut().zip(sheet.rows.chunks_exact(WITHDRAWAL_ROW)).enumerate() {
            // Taken in 64 bits: station power and exports together may exceed 32.
            let gross = u64::from(u32_at(bytes, 0));
            let taken_off = u64::from(u32_at(bytes, 4)) + u64::from(u32_at(bytes, 8));
            *net = gross.checked_sub(taken_off).ok_or(Refusal::NegativeNet { row })?;
            total += *net;
        }
        if total == 0 || total > MOST_WITHDRAWN {
            return Err(Refusal::WithdrawalTotal { total });
        }

        // The cost was counted by requirement, the earnings by supplier: they are the same money.
        debug_assert_eq!(self.cost, self.suppliers.accounts.iter().map(|s| s.grains_of_hour).sum::<i64>());

        for supplier in &mut self.suppliers.accounts {
            let grains = supplier.held + supplier.grains_of_hour;
            supplier.paid = grains.div_euclid(GRAINS_PER_CENT);
            supplier.held = grains.rem_euclid(GRAINS_PER_CENT);
            supplier.cents += supplier.paid;
        }
        self.forget_hour();

        let due = self.cost + self.carry;
        let cents = due.div_euclid(GRAINS_PER_CENT);
        let mut sharing = RunningRule::new(cents, total);
        for (customer, net) in self.customers.accounts.iter_mut().zip(&nets) {
            customer.charged = sharing.share(*net);
            customer.cents += customer.charged;
        }
        // The running rule's shares sum to the hour's cents, so only the rest is carried on.
        self.carry = due.rem_euclid(GRAINS_PER_CENT);

        debug_assert!(self.balances());
        self.last_closed = Some(self.hour);
        self.stage = Stage::AtRest;
        Ok(())
    }

    /// All that suppliers earned is charged or carried (RULES.md, section 9, 1). In 128 bits: a total in grains may
    /// exceed 64.
    fn balances(&self) -> bool {
        let grains = |cents: i64| i128::from(GRAINS_PER_CENT) * i128::from(cents);
        let earned: i128 = self.suppliers.accounts.iter().map(|s| grains(s.cents) + i128::from(s.held)).sum();
        let charged: i128 = self.customers.accounts.iter().map(|c| grains(c.cents)).sum();
        earned == charged + i128::from(self.carry)
    }

    fn void(&mut self) {
        self.forget_hour();
        self.stage = Stage::AtRest;
    }

    fn forget_hour(&mut self) {
        for supplier in &mut self.suppliers.accounts {
            supplier.grains_of_hour = 0;
            supplier.day_ahead = [0; PRODUCTS];
        }
    }
}

impl Supplier {
    /// Whether a schedule row keeps all rules of capability.
    fn can(&self, row: &[u8]) -> bool {
        let energy = i64::from(u32_at(row, 0) as i32);
        let regulation = i64::from(u32_at(row, 4));
        let spinning = u32_at(row, 8);
        let ten = u32_at(row, 12);
        let thirty = u32_at(row, 16);
        let sum = energy + regulation + i64::from(spinning) + i64::from(ten) + i64::from(thirty);
        // That ten or thirty is 0 is asked of kind 2 only; of kind 1 it follows, as ten must be 0. The tests are joined
        // without short cuts: nearly all rows pass all of them.
        (spinning <= self.most[SPINNING])
            & (ten <= self.most[TEN])
            & (thirty <= self.most[THIRTY])
            & ((ten == 0) | (thirty == 0))
            & (energy >= -MOST_ENERGY)
            & (energy <= MOST_ENERGY)
            & (sum <= self.upper)
    }
}

/// The running rule (RULES.md, section 8), asked for one customer after the other in the order of the book.
pub struct RunningRule {
    cents: i64,
    total: i64,
    /// B, the sum of the nets before the next customer, and floor(T x B / W).
    before: i64,
    charged_before: i64,
}

impl RunningRule {
    /// `cents` are T, `total` is W: 1 to 500,000.
    pub fn new(cents: i64, total: u64) -> RunningRule {
        RunningRule { cents, total: total as i64, before: 0, charged_before: 0 }
    }

    pub fn share(&mut self, net: u64) -> i64 {
        self.before += net as i64;
        let charged = (self.cents * self.before).div_euclid(self.total);
        let share = charged - self.charged_before;
        self.charged_before = charged;
        share
    }
}

/// The tenths of each product in a schedule row.
fn products(row: &[u8]) -> [i64; PRODUCTS] {
    let mut tenths = [0; PRODUCTS];
    tenths[SPINNING] = i64::from(u32_at(row, 8));
    tenths[TEN] = i64::from(u32_at(row, 12));
    tenths[THIRTY] = i64::from(u32_at(row, 16));
    tenths
}

/// Sum of price x amount.
fn worth<const N: usize>(prices: &[i64; N], amounts: &[i64; N]) -> i64 {
    prices.iter().zip(amounts).map(|(price, amount)| price * amount).sum()
}

fn difference<const N: usize>(now: &[i64; N], before: &[i64; N]) -> [i64; N] {
    std::array::from_fn(|i| now[i] - before[i])
}
