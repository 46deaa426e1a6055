//! The figures that the documents print, and the edges of the checks.

use crate::curves::{CurveBook, WrongStep};
use crate::feed::{first_record, Next};
use crate::ledger::{Ledger, Refusal, RunningRule};
use crate::map::{clearing_prices, quantities, ByPlace, LOCATIONS, PRODUCTS, REQUIREMENTS, SPINNING, TEN, THIRTY};
use crate::statement::put_decimal;

// Curves.

type Steps<'a> = &'a [(u32, u32)];

const NO_STEPS: Steps = &[];
const TOTAL_THIRTY: Steps = &[(9_550, 75_000), (6_550, 20_000), (3_000, 10_000), (0, 2_500)];

fn curve_file(curves: &[Steps]) -> Vec<u8> {
    let mut file = (curves.len() as u16).to_le_bytes().to_vec();
    for curve in curves {
        file.extend((curve.len() as u16).to_le_bytes());
    }
    for (margin, _) in curves.iter().copied().flatten() {
        file.extend(margin.to_le_bytes());
    }
    for (_, price) in curves.iter().copied().flatten() {
        file.extend(price.to_le_bytes());
    }
    file
}

fn told(file: &[u8]) -> Option<(usize, usize)> {
    CurveBook::load(file).err().map(|WrongStep { curve, step }| (curve, step))
}

#[test]
fn curve_values() {
    let book = CurveBook::load(&curve_file(&[TOTAL_THIRTY, &[]])).ok().unwrap();
    let value = |target, quantity| book.curves()[0].value(target, quantity);
    assert_eq!(value(26_200, 16_650), 75_000);
    assert_eq!(value(26_200, 16_651), 20_000);
    assert_eq!(value(26_200, 26_200), 2_500);
    assert_eq!(value(26_200, 26_201), 0);
    assert_eq!(value(0, 0), 2_500);
    assert_eq!(book.curves()[1].value(1_000_000, 0), 0);
}

#[test]
fn wrong_steps() {
    let of = |margins: &[u32], prices: &[u32]| {
        let steps: Vec<(u32, u32)> = margins.iter().copied().zip(prices.iter().copied()).collect();
        told(&curve_file(&[&steps]))
    };
    assert_eq!(of(&[], &[]), None);
    assert_eq!(of(&[0], &[1]), None);
    assert_eq!(of(&[5], &[10]), Some((0, 0)));
    assert_eq!(of(&[10, 5], &[20, 10]), Some((0, 1)));
    assert_eq!(of(&[10, 10, 0], &[30, 20, 10]), Some((0, 1)));
    assert_eq!(of(&[10, 0], &[20, 20]), Some((0, 1)));
    assert_eq!(of(&[0, 0], &[20, 10]), Some((0, 1)));
    assert_eq!(of(&[10, 0], &[100_001, 0]), Some((0, 0)));
    assert_eq!(of(&[8, 7, 6, 5, 4, 3, 2, 1, 0], &[9, 8, 7, 6, 5, 4, 3, 2, 1]), Some((0, 8)));
    assert_eq!(of(&[8, 7, 6, 5, 4, 3, 2, 2, 0], &[9, 8, 7, 6, 5, 4, 3, 2, 1]), Some((0, 7)));
    // The bounds themselves, and the next number.
    assert_eq!(of(&[1_000_000, 0], &[100_000, 1]), None);
    assert_eq!(of(&[1_000_001, 0], &[100_000, 1]), Some((0, 0)));
    assert_eq!(of(&[1_000_000, 0], &[100_000, 0]), Some((0, 1)));
    assert_eq!(of(&[7, 6, 5, 4, 3, 2, 1, 0], &[8, 7, 6, 5, 4, 3, 2, 1]), None);
}

#[test]
fn wrong_curve_files() {
    assert_eq!(told(&[]), Some((0, 0)));
    assert_eq!(told(&[15]), Some((0, 0)));
    assert_eq!(told(&[0, 0]), Some((0, 0)));
    assert_eq!(told(&curve_file(&[NO_STEPS; 33])), Some((33, 0)));
    assert_eq!(told(&[33, 0]), Some((33, 0)));
    assert_eq!(told(&[15, 0]), Some((15, 0)));
    assert_eq!(told(&[1, 0, 1, 0, 0, 0, 0, 0, 1, 0, 0]), Some((1, 0)));
    assert_eq!(told(&[1, 0, 1, 0, 0, 0, 0, 0, 1, 0, 0, 0]), None);
    assert_eq!(told(&[1, 0, 1, 0, 0, 0, 0, 0, 1, 0, 0, 0, 0]), Some((1, 0)));
    assert_eq!(told(&curve_file(&[&[], &[(5, 10)]])), Some((1, 0)));
    let nine: Vec<(u32, u32)> = (0..9).map(|i| (8 - i, 9 - i)).collect();
    assert_eq!(told(&curve_file(&[&nine])), Some((0, 8)));
    assert_eq!(told(&curve_file(&[NO_STEPS; 32])), None);
    let eight: Vec<(u32, u32)> = (0..8).map(|i| (7 - i, 8 - i)).collect();
    let longest = curve_file(&[&eight[..]; 32]);
    assert_eq!(longest.len(), crate::curves::LONGEST_FILE);
    assert_eq!(told(&longest), None);
}

// The map.

/// The shadow prices (SP1 is 1) of each clearing price, as RULES.md, section 3.1, lists them.
const COUNTED: [[&[usize]; PRODUCTS]; LOCATIONS] = [
    [&[1], &[1, 2], &[1, 2, 3]],
    [&[1, 4], &[1, 2, 4, 5], &[1, 2, 3, 4, 5, 6]],
    [&[1, 4, 7], &[1, 2, 4, 5, 7, 8], &[1, 2, 3, 4, 5, 6, 7, 8, 9]],
    [&[1, 4, 7, 10], &[1, 2, 4, 5, 7, 8, 10, 11], &[1, 2, 3, 4, 5, 6, 7, 8, 9, 10, 11, 12]],
    [&[1, 4, 7, 13], &[1, 2, 4, 5, 7, 8, 13, 14], &[1, 2, 3, 4, 5, 6, 7, 8, 9, 13, 14, 15]],
];

#[test]
fn each_requirement_is_in_its_prices_and_quantities() {
    for requirement in 0..REQUIREMENTS {
        let mut shadow = [0; REQUIREMENTS];
        shadow[requirement] = 1;
        let prices = clearing_prices(&shadow);
        for location in 0..LOCATIONS {
            for product in 0..PRODUCTS {
                let counts = i64::from(COUNTED[location][product].contains(&(requirement + 1)));
                assert_eq!(prices[location][product], counts);
                let mut tenths: ByPlace = Default::default();
                tenths[location][product] = 1;
                assert_eq!(quantities(&tenths)[requirement], counts);
            }
        }
    }
}

#[test]
fn clearing_price_example() {
    let mut shadow = [0; REQUIREMENTS];
    shadow[..4].copy_from_slice(&[300, 200, 100, 50]);
    let prices = clearing_prices(&shadow);
    assert_eq!(prices[1][SPINNING], 650);
    assert_eq!(prices[0][SPINNING], 600);
    assert_eq!(prices[1][THIRTY], 350);
    assert_eq!(prices[1][TEN], 550);
}

// Sharing.

fn shares(cents: i64, nets: &[u64]) -> Vec<i64> {
    let mut rule = RunningRule::new(cents, nets.iter().sum());
    nets.iter().map(|net| rule.share(*net)).collect()
}

#[test]
fn running_rule() {
    assert_eq!(shares(100, &[1, 1, 1]), [33, 33, 34]);
    assert_eq!(shares(-1, &[1, 1]), [-1, 0]);
    assert_eq!(shares(100, &[0, 1, 0, 1, 1, 0]), [0, 33, 0, 33, 34, 0]);
    // The most that a rule is asked: as the formula gives it in 128 bits.
    for cents in [9_000_000_000_000, -9_000_000_000_000, 8_999_999_999_999, -1_900_000_000_001] {
        let nets = [1, 499_997, 1, 1];
        let mut before = 0;
        for (share, net) in shares(cents, &nets).iter().zip(nets) {
            let up_to = |b: u64| (i128::from(cents) * i128::from(b)).div_euclid(500_000);
            assert_eq!(i128::from(*share), up_to(before + net) - up_to(before));
            before += net;
        }
    }
}

// The ledger, by records.

fn words(list: &[u32]) -> Vec<u8> {
    list.iter().flat_map(|word| word.to_le_bytes()).collect()
}

fn header(kind: u8, n: usize, m: usize) -> Vec<u8> {
    let mut bytes = vec![kind];
    bytes.extend((n as u16).to_le_bytes());
    bytes.extend((m as u16).to_le_bytes());
    bytes
}

fn enrol_supplier(number: u32, location: u16, kind: u16, upper: u32, rate: u32) -> Vec<u8> {
    let place = [location.to_le_bytes(), kind.to_le_bytes()].concat();
    [header(1, 0, 0), words(&[number]), place, words(&[upper, rate])].concat()
}

fn enrol_customer(number: u32) -> Vec<u8> {
    [header(2, 0, 0), words(&[number])].concat()
}

fn open(hour: u32) -> Vec<u8> {
    [header(3, 0, 0), words(&[hour])].concat()
}

/// A row: energy, regulation, spinning, ten, thirty.
type Row = [u32; 5];

fn market(prices: &[u32], targets: &[u32], rows: &[(u32, Row)]) -> Vec<u8> {
    let numbers: Vec<u32> = rows.iter().map(|(number, _)| *number).collect();
    let rows: Vec<u32> = rows.iter().flat_map(|(_, row)| *row).collect();
    [words(prices), words(targets), words(&numbers), words(&rows)].concat()
}

fn clear(prices: &[u32], targets: &[u32], rows: &[(u32, Row)]) -> Vec<u8> {
    [header(4, prices.len(), rows.len()), market(prices, targets, rows)].concat()
}

fn interval(seconds: u32, prices: &[u32], targets: &[u32], rows: &[(u32, Row)]) -> Vec<u8> {
    [header(5, prices.len(), rows.len()), words(&[seconds]), market(prices, targets, rows)].concat()
}

fn close(rows: &[(u32, [u32; 3])]) -> Vec<u8> {
    let numbers: Vec<u32> = rows.iter().map(|(number, _)| *number).collect();
    let rows: Vec<u32> = rows.iter().flat_map(|(_, row)| *row).collect();
    [header(6, 0, numbers.len()), words(&numbers), words(&rows)].concat()
}

fn void() -> Vec<u8> {
    header(7, 0, 0)
}

fn sp1(price: u32) -> [u32; REQUIREMENTS] {
    let mut list = [0; REQUIREMENTS];
    list[0] = price;
    list
}

fn thirty(tenths: u32) -> Row {
    [0, 0, 0, 0, tenths]
}

struct Desk {
    ledger: Ledger,
    curves: CurveBook,
}

impl Desk {
    /// A new ledger, and the total thirty-minute curve for SP1.
    fn new() -> Desk {
        let mut curves: [Steps; REQUIREMENTS] = [&[]; REQUIREMENTS];
        curves[0] = TOTAL_THIRTY;
        Desk { ledger: Ledger::new(), curves: CurveBook::load(&curve_file(&curves)).ok().unwrap() }
    }

    fn with_curves(curves: &[Steps]) -> Desk {
        Desk { ledger: Ledger::new(), curves: CurveBook::load(&curve_file(curves)).ok().unwrap() }
    }

    /// Gives a record to the ledger; if that refuses it, makes sure that nothing has changed and that it does so again.
    fn take(&mut self, bytes: &[u8]) -> Result<Option<u32>, Refusal> {
        let Next::Record(record, length) = first_record(bytes) else { panic!("no record") };
        assert_eq!(length, bytes.len());
        let before = self.ledger.clone();
        let answer = self.ledger.take(&record, &self.curves);
        if answer.is_err() {
            assert_eq!(self.ledger, before);
            assert_eq!(self.ledger.take(&record, &self.curves), answer);
        }
        answer
    }

    fn accept(&mut self, bytes: &[u8]) {
        self.take(bytes).unwrap();
    }

    fn refused(&mut self, bytes: &[u8]) -> Refusal {
        self.take(bytes).unwrap_err()
    }
}

/// Supplier 7 and customer 9 of FORMATS.md, section 6, with hour 5 open.
fn case() -> Desk {
    let mut desk = Desk::new();
    desk.accept(&enrol_supplier(7, 0, 1, 1_000, 10));
    desk.accept(&enrol_customer(9));
    desk.accept(&open(5));
    desk
}

#[test]
fn worked_case_and_its_two_hours() {
    let mut desk = case();
    desk.accept(&clear(&sp1(300), &sp1(100), &[(7, thirty(100))]));
    assert_eq!(desk.ledger.suppliers()[0].grains_of_hour, 108_000_000);
    desk.accept(&interval(3_600, &sp1(400), &sp1(100), &[(7, thirty(90))]));
    assert_eq!(desk.ledger.suppliers()[0].grains_of_hour, 93_600_000);
    assert_eq!(desk.take(&close(&[(9, [50, 0, 0])])), Ok(Some(5)));
    assert_eq!((desk.ledger.suppliers()[0].paid, desk.ledger.customers()[0].charged), (2_600, 2_600));

    desk.accept(&open(6));
    desk.accept(&clear(&sp1(0), &sp1(120), &[(7, thirty(120))]));
    desk.accept(&interval(300, &sp1(650), &sp1(120), &[(7, thirty(100))]));
    assert_eq!(desk.ledger.suppliers()[0].grains_of_hour, -3_900_000);
    desk.accept(&interval(3_300, &sp1(0), &sp1(120), &[(7, thirty(100))]));
    desk.accept(&close(&[(9, [50, 0, 0])]));
    let supplier = &desk.ledger.suppliers()[0];
    assert_eq!((supplier.paid, supplier.held, supplier.cents), (-109, 24_000, 2_491));
    assert_eq!(desk.ledger.carry(), 24_000);

    desk.accept(&open(7));
    desk.accept(&clear(&sp1(0), &sp1(120), &[(7, thirty(100))]));
    desk.accept(&interval(1_200, &sp1(10), &sp1(120), &[(7, thirty(101))]));
    desk.accept(&interval(2_400, &sp1(0), &sp1(120), &[(7, thirty(100))]));
    desk.accept(&close(&[(9, [60, 4, 6])]));
    let supplier = &desk.ledger.suppliers()[0];
    assert_eq!((supplier.paid, supplier.held, supplier.cents), (1, 0, 2_492));
    assert_eq!((desk.ledger.customers()[0].charged, desk.ledger.carry()), (1, 0));
}

#[test]
fn sharing_example_through_a_closing() {
    // N = 3,618,000 grains: price 1,005 on 1 tenth for an hour. Three customers withdraw the same.
    let mut desk = Desk::new();
    desk.accept(&enrol_supplier(1, 0, 1, 1_000, 10));
    for number in 1..=3 {
        desk.accept(&enrol_customer(number));
    }
    desk.accept(&open(0));
    desk.accept(&clear(&sp1(1_005), &sp1(1), &[(1, thirty(1))]));
    desk.accept(&interval(3_600, &sp1(0), &sp1(1), &[(1, thirty(1))]));
    desk.accept(&close(&[(1, [1, 0, 0]), (2, [1, 0, 0]), (3, [1, 0, 0])]));
    let charged: Vec<i64> = desk.ledger.customers().iter().map(|customer| customer.charged).collect();
    assert_eq!(charged, [33, 33, 34]);
    assert_eq!(desk.ledger.carry(), 18_000);
    assert_eq!((desk.ledger.suppliers()[0].paid, desk.ledger.suppliers()[0].held), (100, 18_000));
}

#[test]
fn interval_length_is_told_by_seconds_left() {
    let mut desk = case();
    desk.accept(&clear(&sp1(0), &sp1(0), &[(7, thirty(0))]));
    let of = |seconds| interval(seconds, &sp1(0), &sp1(0), &[(7, thirty(0))]);
    assert_eq!(desk.refused(&of(0)), Refusal::IntervalLength { left: 3_600 });
    assert_eq!(desk.refused(&of(3_601)), Refusal::IntervalLength { left: 3_600 });
    assert_eq!(desk.refused(&close(&[(9, [50, 0, 0])])), Refusal::HourIncomplete { missing: 3_600 });
    desk.accept(&of(3_300));
    assert_eq!(desk.refused(&of(301)), Refusal::IntervalLength { left: 300 });
    // With 3,300 this is 2^32: 0 in 32 bits.
    assert_eq!(desk.refused(&of(u32::MAX - 3_299)), Refusal::IntervalLength { left: 300 });
    assert_eq!(desk.refused(&close(&[(9, [50, 0, 0])])), Refusal::HourIncomplete { missing: 300 });
    desk.accept(&of(300));
    assert_eq!(desk.refused(&of(1)), Refusal::IntervalLength { left: 0 });
    assert_eq!(desk.refused(&of(0)), Refusal::IntervalLength { left: 0 });
    assert_eq!(desk.take(&close(&[(9, [50, 0, 0])])), Ok(Some(5)));
}

#[test]
fn capability() {
    // Whether a row passes for a supplier of this kind, U and E.
    let passes = |kind: u16, upper: u32, rate: u32, row: [i64; 5]| {
        let mut desk = Desk::new();
        desk.accept(&enrol_supplier(1, 0, kind, upper, rate));
        desk.accept(&open(0));
        match desk.take(&clear(&sp1(0), &sp1(0), &[(1, row.map(|field| field as u32))])) {
            Ok(_) => true,
            Err(refusal) => {
                assert_eq!(refusal, Refusal::BeyondCapability { row: 0 });
                false
            }
        }
    };
    // Columns: energy, regulation, spinning, ten, thirty. First the two examples of RULES.md, section 6.
    assert!(passes(1, 1_000, 5, [0, 0, 50, 0, 0]));
    assert!(!passes(1, 1_000, 5, [0, 0, 51, 0, 0]));
    assert!(!passes(2, 30_000, 30_000, [0, 0, 0, 10, 10]));
    assert!(passes(2, 10, 0, [0, 0, 0, 10, 0]));
    assert!(passes(2, 10, 0, [0, 0, 0, 0, 10]));
    assert!(!passes(2, 10, 0, [-1, 0, 0, 11, 0]));
    assert!(!passes(2, 10, 0, [-1, 0, 0, 0, 11]));
    assert!(!passes(2, 10, 30_000, [0, 0, 1, 0, 0]));
    assert!(!passes(1, 1_000, 5, [0, 0, 0, 1, 0]));
    assert!(passes(1, 1_000, 5, [0, 0, 0, 0, 100]));
    assert!(!passes(1, 1_000, 5, [0, 0, 0, 0, 101]));
    assert!(passes(1, 40, 5, [0, 0, 40, 0, 0]));
    assert!(!passes(1, 40, 5, [-1, 0, 41, 0, 0]));
    assert!(passes(1, 100, 30_000, [-100, 0, 100, 0, 100]));
    assert!(!passes(1, 100, 30_000, [-99, 0, 100, 0, 100]));
    assert!(passes(1, 30_000, 30_000, [-30_000, 0, 30_000, 0, 30_000]));
    assert!(passes(1, 0, 0, [-30_000, 30_000, 0, 0, 0]));
    assert!(!passes(1, 0, 0, [-30_000, 30_001, 0, 0, 0]));
    assert!(!passes(1, 30_000, 0, [-30_001, 0, 0, 0, 0]));
    assert!(passes(1, 30_000, 0, [30_000, 0, 0, 0, 0]));
    assert!(!passes(1, 29_999, 0, [30_000, 0, 0, 0, 0]));
    assert!(!passes(1, 30_000, 0, [30_001, 0, 0, 0, 0]));
    assert!(!passes(1, 30_000, 0, [i64::from(i32::MIN), 0, 0, 0, 0]));
    assert!(!passes(1, 30_000, 0, [i64::from(i32::MAX), 0, 0, 0, 0]));
    // A sum that is small in 32 bits only.
    assert!(!passes(1, 30_000, 0, [0, 0xffff_ffff, 0, 0, 0]));
    assert!(!passes(1, 30_000, 0, [-30_000, 0x8000_0000, 0, 0, 0]));
    assert!(!passes(1, 30_000, 30_000, [1, 0xffff_ffff, 0, 0, 0]));
    assert!(!passes(1, 30_000, 30_000, [0, 0xffff_fff0, 0x10, 0, 0]));
}

#[test]
fn enrolment() {
    let mut desk = Desk::new();
    desk.accept(&enrol_supplier(0, 4, 2, 30_000, 30_000));
    desk.accept(&enrol_customer(0));
    assert_eq!(desk.refused(&enrol_supplier(1, 5, 3, 30_001, 30_001)), Refusal::FieldOutOfRange { field: 1 });
    assert_eq!(desk.refused(&enrol_supplier(1, 4, 3, 30_001, 30_001)), Refusal::FieldOutOfRange { field: 2 });
    assert_eq!(desk.refused(&enrol_supplier(1, 4, 0, 30_000, 30_000)), Refusal::FieldOutOfRange { field: 2 });
    assert_eq!(desk.refused(&enrol_supplier(1, 4, 2, 30_001, 30_001)), Refusal::FieldOutOfRange { field: 3 });
    assert_eq!(desk.refused(&enrol_supplier(1, 4, 2, 30_000, 30_001)), Refusal::FieldOutOfRange { field: 4 });
    for number in 1..128 {
        desk.accept(&enrol_supplier(number, 0, 1, 0, 0));
    }
    assert_eq!(desk.refused(&enrol_supplier(128, 9, 9, 0, 0)), Refusal::BookFull { count: 128 });
    assert_eq!(desk.refused(&enrol_supplier(127, 9, 9, 0, 0)), Refusal::NumberTaken { place: 127 });
    for number in 1..256 {
        desk.accept(&enrol_customer(number));
    }
    assert_eq!(desk.refused(&enrol_customer(u32::MAX)), Refusal::BookFull { count: 256 });
    assert_eq!(desk.refused(&enrol_customer(0)), Refusal::NumberTaken { place: 0 });
}

#[test]
fn hours_grow() {
    let mut desk = Desk::new();
    assert_eq!(desk.refused(&open(500_000)), Refusal::HourOutOfOrder { last_closed: None });
    desk.accept(&enrol_customer(1));
    let close_it = |desk: &mut Desk, hour| {
        desk.accept(&open(hour));
        desk.accept(&clear(&sp1(0), &sp1(0), &[]));
        desk.accept(&interval(3_600, &sp1(0), &sp1(0), &[]));
        assert_eq!(desk.take(&close(&[(1, [1, 0, 0])])), Ok(Some(hour)));
    };
    close_it(&mut desk, 0);
    assert_eq!(desk.refused(&open(0)), Refusal::HourOutOfOrder { last_closed: Some(0) });
    desk.accept(&open(499_999));
    desk.accept(&void());
    close_it(&mut desk, 7);
    assert_eq!(desk.refused(&open(6)), Refusal::HourOutOfOrder { last_closed: Some(7) });
    close_it(&mut desk, 499_999);
    assert_eq!(desk.refused(&open(499_999)), Refusal::HourOutOfOrder { last_closed: Some(499_999) });
    assert_eq!(desk.refused(&open(500_000)), Refusal::HourOutOfOrder { last_closed: Some(499_999) });
}

#[test]
fn stages() {
    let records = |desk: &mut Desk| -> Vec<bool> {
        let all = [
            enrol_supplier(1_000, 0, 1, 0, 0),
            enrol_customer(1_000),
            open(6),
            clear(&sp1(0), &sp1(0), &[]),
            interval(1, &sp1(0), &sp1(0), &[]),
            close(&[]),
            void(),
        ];
        // Tried on copies, so that each meets the same ledger.
        let kept = desk.ledger.clone();
        all.iter()
            .map(|bytes| {
                let refused = desk.take(bytes) == Err(Refusal::WrongStage);
                desk.ledger = kept.clone();
                !refused
            })
            .collect()
    };
    let mut desk = Desk::new();
    assert_eq!(records(&mut desk), [true, true, true, false, false, false, false]);
    desk.accept(&open(5));
    assert_eq!(records(&mut desk), [false, false, false, true, false, false, true]);
    desk.accept(&clear(&sp1(0), &sp1(0), &[]));
    assert_eq!(records(&mut desk), [false, false, false, false, true, true, true]);
    desk.accept(&void());
    assert_eq!(records(&mut desk), [true, true, true, false, false, false, false]);
}

#[test]
fn checks_run_by_number() {
    let mut desk = case();
    let wide = [0; 16];
    let high = sp1(100_001);
    let rich = sp1(100_000);
    let over = (7, thirty(201));
    let other = (8, thirty(201));
    desk.accept(&void());
    desk.accept(&enrol_supplier(8, 0, 1, 1_000, 10));
    desk.accept(&open(5));
    let fine = (8, thirty(0));
    assert_eq!(desk.refused(&clear(&wide, &wide, &[other])), Refusal::SheetLength { count: 2 });
    assert_eq!(desk.refused(&clear(&wide, &wide, &[over, over])), Refusal::SheetNumber { row: 1 });
    assert_eq!(desk.refused(&clear(&wide, &wide, &[other, over])), Refusal::SheetNumber { row: 0 });
    assert_eq!(desk.refused(&clear(&wide, &wide, &[over, fine])), Refusal::BeyondCapability { row: 0 });
    assert_eq!(desk.refused(&clear(&wide, &wide, &[(7, thirty(200)), other])), Refusal::BeyondCapability { row: 1 });
    let sheet = [(7, thirty(200)), fine];
    let wrong_count = Refusal::RequirementCount { requirements: 15 };
    assert_eq!(desk.refused(&clear(&wide, &wide, &sheet)), wrong_count);
    assert_eq!(desk.refused(&clear(&wide[..14], &wide[..14], &sheet)), wrong_count);
    let mut last_target = rich;
    last_target[14] = 1_000_001;
    let out = |requirement| Refusal::PriceOrTargetOutOfRange { requirement };
    assert_eq!(desk.refused(&clear(&high, &last_target, &sheet)), out(0));
    assert_eq!(desk.refused(&clear(&rich, &last_target, &sheet)), out(14));
    let above = |requirement| Refusal::AboveDemandCurve { requirement };
    assert_eq!(desk.refused(&clear(&sp1(2_501), &sp1(200), &sheet)), above(0));
    assert_eq!(desk.refused(&clear(&sp1(1), &sp1(199), &sheet)), above(0));
    let mut second = sp1(2_500);
    second[14] = 1;
    assert_eq!(desk.refused(&clear(&second, &sp1(200), &sheet)), above(14));
    let mut highest_target = sp1(200);
    highest_target[14] = 1_000_000;
    desk.accept(&clear(&sp1(2_500), &highest_target, &sheet));
    // Of an interval, 36 comes before 41.
    assert_eq!(desk.refused(&interval(0, &sp1(2_501), &sp1(200), &sheet)), above(0));
    assert_eq!(desk.refused(&interval(0, &sp1(2_500), &sp1(200), &sheet)), Refusal::IntervalLength { left: 3_600 });
}

#[test]
fn curve_book_of_another_count() {
    for count in [1, 14, 16, 32] {
        let mut desk = Desk::with_curves(&vec![TOTAL_THIRTY; count]);
        desk.accept(&open(0));
        let wrong = Refusal::RequirementCount { requirements: 15 };
        assert_eq!(desk.refused(&clear(&vec![0; count], &vec![0; count], &[])), wrong);
        assert_eq!(desk.refused(&clear(&sp1(0), &sp1(0), &[])), wrong);
    }
}

#[test]
fn closing_checks() {
    let mut desk = Desk::new();
    desk.accept(&enrol_customer(1));
    desk.accept(&enrol_customer(2));
    desk.accept(&open(0));
    desk.accept(&clear(&sp1(0), &sp1(0), &[]));
    let minus = [0, 1, 0];
    assert_eq!(desk.refused(&close(&[(2, minus)])), Refusal::SheetLength { count: 2 });
    assert_eq!(desk.refused(&close(&[(1, minus), (1, minus)])), Refusal::SheetNumber { row: 1 });
    assert_eq!(desk.refused(&close(&[(1, minus), (2, minus)])), Refusal::HourIncomplete { missing: 3_600 });
    desk.accept(&interval(3_600, &sp1(0), &sp1(0), &[]));
    assert_eq!(desk.refused(&close(&[(1, [500_001, 0, 0]), (2, minus)])), Refusal::NegativeNet { row: 1 });
    let both = [5, 0x8000_0000, 0x8000_0000];
    assert_eq!(desk.refused(&close(&[(1, both), (2, minus)])), Refusal::NegativeNet { row: 0 });
    let total = |total| Refusal::WithdrawalTotal { total };
    assert_eq!(desk.refused(&close(&[(1, [0, 0, 0]), (2, [7, 3, 4])])), total(0));
    assert_eq!(desk.refused(&close(&[(1, [1, 0, 0]), (2, [500_000, 0, 0])])), total(500_001));
    let half = [0x8000_0000, 0, 0];
    assert_eq!(desk.refused(&close(&[(1, half), (2, half)])), total(0x1_0000_0000));
    desk.accept(&close(&[(1, [1, 0, 0]), (2, [u32::MAX, u32::MAX - 500_000, 1])]));
}

#[test]
fn no_customers_no_closing() {
    let mut desk = Desk::new();
    desk.accept(&open(0));
    desk.accept(&clear(&sp1(0), &sp1(0), &[]));
    desk.accept(&interval(3_600, &sp1(0), &sp1(0), &[]));
    assert_eq!(desk.refused(&close(&[])), Refusal::WithdrawalTotal { total: 0 });
}

#[test]
fn voiding_keeps_all_but_the_hour() {
    let mut desk = case();
    desk.accept(&clear(&sp1(0), &sp1(120), &[(7, thirty(120))]));
    desk.accept(&interval(3_600, &sp1(7), &sp1(120), &[(7, thirty(100))]));
    desk.accept(&close(&[(9, [1, 0, 0])]));
    desk.accept(&open(6));
    let opened = desk.ledger.clone();
    desk.accept(&clear(&sp1(300), &sp1(100), &[(7, thirty(100))]));
    desk.accept(&interval(600, &sp1(400), &sp1(100), &[(7, thirty(90))]));
    desk.accept(&void());
    let (before, after) = (&opened.suppliers()[0], &desk.ledger.suppliers()[0]);
    assert_eq!(before, after);
    assert_eq!(opened.customers(), desk.ledger.customers());
    assert_eq!(opened.carry(), desk.ledger.carry());
    desk.accept(&open(6));
    desk.accept(&clear(&sp1(0), &sp1(100), &[(7, thirty(100))]));
    assert_eq!(desk.ledger.suppliers()[0].grains_of_hour, 0);
}

/// The dearest hour there can be: full day-ahead schedules at price 0, then nothing in real time at the highest price.
#[test]
fn dearest_hour() {
    let curves: [Steps; REQUIREMENTS] = [&[(0, 100_000)]; REQUIREMENTS];
    let mut desk = Desk::with_curves(&curves);
    for number in 0..128 {
        desk.accept(&enrol_supplier(number, 3, 1, 30_000, 30_000));
    }
    desk.accept(&enrol_customer(0));
    desk.accept(&enrol_customer(1));
    let sheet = |row: Row| -> Vec<(u32, Row)> { (0..128).map(|number| (number, row)).collect() };
    let full = sheet([(-30_000_i32) as u32, 0, 30_000, 0, 30_000]);
    let nothing = sheet([0; 5]);
    for hour in 0..3 {
        desk.accept(&open(hour));
        desk.accept(&clear(&[0; 15], &[0; 15], &full));
        desk.accept(&interval(3_600, &[100_000; 15], &[0; 15], &nothing));
        desk.accept(&close(&[(0, [1, 0, 0]), (1, [499_999, 0, 0])]));
        // Spinning earns 12 prices, thirty-minute 4: -100,000 x 16 x 30,000 tenths for an hour.
        let cents = -100_000_i64 * 16 * 30_000 / 10;
        assert!(desk.ledger.suppliers().iter().all(|supplier| supplier.paid == cents && supplier.held == 0));
        let all = 128 * cents;
        assert_eq!(desk.ledger.customers()[0].charged, all.div_euclid(500_000));
        assert_eq!(desk.ledger.customers()[1].charged, all - all.div_euclid(500_000));
    }
}

// Reading.

#[test]
fn sizes_allowed() {
    let answer = |kind: u8, n: usize, m: usize| match first_record(&header(kind, n, m)) {
        Next::Record(_, length) => length as i64,
        Next::Short => 0,
        Next::Refused(number) => -i64::from(number),
    };
    for kind in [0, 8, 255] {
        assert_eq!(answer(kind, 0, 0), -2);
        assert_eq!(answer(kind, 99, 999), -2);
    }
    for kind in [1, 2, 3, 7] {
        assert_eq!(answer(kind, 0, 0), if kind == 7 { 5 } else { 0 });
        assert_eq!(answer(kind, 1, 0), -3);
        assert_eq!(answer(kind, 0, 1), -3);
        assert_eq!(answer(kind, 256, 0), -3);
        assert_eq!(answer(kind, 0, 256), -3);
    }
    for kind in [4, 5] {
        assert_eq!(answer(kind, 0, 0), -3);
        assert_eq!(answer(kind, 1, 0), 0);
        assert_eq!(answer(kind, 32, 128), 0);
        assert_eq!(answer(kind, 33, 0), -3);
        assert_eq!(answer(kind, 257, 0), -3);
        assert_eq!(answer(kind, 1, 129), -3);
    }
    assert_eq!(answer(6, 0, 0), 5);
    assert_eq!(answer(6, 0, 256), 0);
    assert_eq!(answer(6, 0, 257), -3);
    assert_eq!(answer(6, 1, 0), -3);
    for length in 0..5 {
        assert!(matches!(first_record(&[8; 5][..length]), Next::Short));
    }
    assert_eq!(clear(&[0; 32], &[0; 32], &[(0, [0; 5]); 128]).len(), 3_333);
    assert_eq!(interval(0, &[0; 32], &[0; 32], &[(0, [0; 5]); 128]).len(), 3_337);
    assert_eq!(close(&[(0, [0; 3]); 256]).len(), 4_101);
    for whole in [clear(&[0; 32], &[0; 32], &[(0, [0; 5]); 128]), close(&[(0, [0; 3]); 256]), open(0)] {
        assert!(matches!(first_record(&whole), Next::Record(_, length) if length == whole.len()));
        assert!(matches!(first_record(&whole[..whole.len() - 1]), Next::Short));
        assert!(matches!(first_record(&[whole.clone(), vec![9; 9]].concat()),
            Next::Record(_, length) if length == whole.len()));
    }
}

// Lines.

#[test]
fn decimals() {
    let of = |value: u64| {
        let mut text = [b'x'; 32];
        let length = put_decimal(&mut text, value);
        String::from_utf8(text[..length].to_vec()).unwrap()
    };
    for value in 0..100_000 {
        assert_eq!(of(value), value.to_string());
    }
    // All four-digit halves beside each other, and every length.
    for value in 0..10_000 {
        assert_eq!(of(value * 10_000 + 9_999 - value), (value * 10_000 + 9_999 - value).to_string());
    }
    let mut power: u64 = 1;
    for _ in 0..20 {
        for value in [power - 1, power, power + 1, power.wrapping_mul(7), u64::MAX / power] {
            assert_eq!(of(value), value.to_string());
        }
        power = power.wrapping_mul(10).max(1);
    }
}
