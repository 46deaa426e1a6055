//! Writes a feed made from a seed to standard output, and its curve book file to a folder. README.md has the options.

mod books;
mod course;
mod house;
mod random;
mod record;
mod year;

use books::{CurveBook, Soundness};
use course::{Course, Expected, Piece, Plan};
use house::{Temper, MOST_CUSTOMERS, MOST_SUPPLIERS};
use random::Random;
use std::fs::File;
use std::io::{self, BufWriter, Write};
use std::os::fd::AsFd;
use std::path::PathBuf;
use std::process::ExitCode;

const USAGE: &str = "usage: generate SEED [--kind valid|mixed|cut|noise|year] [--curves DIR]
    [--book any|sound|count|damaged] [--suppliers N] [--customers N] [--hours N] [--expect FILE]";

#[derive(Clone, Copy, PartialEq, Eq)]
enum Kind {
    Valid,
    Mixed,
    Cut,
    Noise,
    Year,
}

struct Options {
    seed: u64,
    kind: Kind,
    curves: Option<PathBuf>,
    /// None: whatever the kind and the seed give.
    book: Option<Soundness>,
    suppliers: Option<usize>,
    customers: Option<usize>,
    hours: Option<u32>,
    expect: Option<PathBuf>,
}

fn main() -> ExitCode {
    let options = match options(std::env::args().skip(1)) {
        Ok(options) => options,
        Err(fault) => {
            let _ = writeln!(io::stderr(), "generate: {fault}\n{USAGE}");
            return ExitCode::from(2);
        }
    };
    match run(&options) {
        Ok(()) => ExitCode::SUCCESS,
        Err(error) => {
            let _ = writeln!(io::stderr(), "generate: {error}");
            ExitCode::FAILURE
        }
    }
}

fn options(arguments: impl Iterator<Item = String>) -> Result<Options, String> {
    let mut arguments = arguments;
    let seed = arguments.next().ok_or("no seed")?;
    let mut options = Options {
        seed: seed.parse().map_err(|_| format!("{seed} is no seed (0 to 2^64 - 1)"))?,
        kind: Kind::Valid,
        curves: None,
        book: None,
        suppliers: None,
        customers: None,
        hours: None,
        expect: None,
    };
    while let Some(name) = arguments.next() {
        let value = arguments.next().ok_or(format!("{name} without a value"))?;
        let number = |most: u64| match value.parse::<u64>() {
            Ok(number) if number <= most => Ok(number),
            _ => Err(format!("{name} takes 0 to {most}, not {value}")),
        };
        match name.as_str() {
            "--kind" => {
                options.kind = match value.as_str() {
                    "valid" => Kind::Valid,
                    "mixed" => Kind::Mixed,
                    "cut" => Kind::Cut,
                    "noise" => Kind::Noise,
                    "year" => Kind::Year,
                    _ => return Err(format!("no kind {value}")),
                }
            }
            "--book" => {
                options.book = match value.as_str() {
                    "any" => None,
                    "sound" => Some(Soundness::Sound),
                    "count" => Some(Soundness::OtherCount),
                    "damaged" => Some(Soundness::Damaged),
                    _ => return Err(format!("no book {value}")),
                }
            }
            "--curves" => options.curves = Some(value.into()),
            "--expect" => options.expect = Some(value.into()),
            "--suppliers" => options.suppliers = Some(number(MOST_SUPPLIERS as u64)? as usize),
            "--customers" => options.customers = Some(number(MOST_CUSTOMERS as u64)? as usize),
            "--hours" => options.hours = Some(number(500_000)? as u32),
            _ => return Err(format!("no option {name}")),
        }
    }
    let always_accepted = matches!(options.kind, Kind::Valid | Kind::Year);
    if always_accepted && options.book.is_some_and(|book| book != Soundness::Sound) {
        return Err("this kind has a sound book only".to_string());
    }
    if options.kind == Kind::Year && options.customers == Some(0) {
        return Err("an hour of a year closes, which takes a customer".to_string());
    }
    if options.kind == Kind::Noise && options.expect.is_some() {
        return Err("of noise nobody knows what to expect".to_string());
    }
    Ok(options)
}

fn run(options: &Options) -> io::Result<()> {
    let random = &mut Random::new(options.seed);
    let temper = match random.between(0, 7) {
        0 => Temper::Dearest,
        1..=3 => Temper::Extreme,
        _ => Temper::Ordinary,
    };
    let dear = temper == Temper::Dearest;
    let book = match options.kind {
        Kind::Year => CurveBook::ordinary(),
        Kind::Valid => CurveBook::any(random, Soundness::Sound, dear),
        _ => {
            let drawn = match random.between(1, 32) {
                1 => Soundness::Damaged,
                2 | 3 => Soundness::OtherCount,
                _ => Soundness::Sound,
            };
            CurveBook::any(random, options.book.unwrap_or(drawn), dear)
        }
    };
    if let Some(folder) = &options.curves {
        std::fs::write(folder.join("curves.bin"), &book.file)?;
    }
    let expectations = match &options.expect {
        Some(path) => Some(BufWriter::new(File::create(path)?)),
        None => None,
    };
    let mut output = Output { feed: File::from(io::stdout().as_fd().try_clone_to_owned()?), expectations };

    // A damaged book has one refusal and no record is read, whatever the feed.
    let unread = book.soundness == Soundness::Damaged;
    if unread {
        output.expect(&[(51, 0)])?;
    }
    match options.kind {
        Kind::Year => year::write(random, &book, &year_size(options), &mut output.feed)?,
        Kind::Valid | Kind::Mixed => {
            let plan = plan(random, options, temper);
            let mut course = Course::new(random, &book, plan);
            while let Some(piece) = course.next_piece() {
                output.feed.write_all(&piece.bytes)?;
                if !unread {
                    output.expect(&piece.expected)?;
                }
            }
        }
        Kind::Cut => {
            let mut whole = whole_course(random, &book, options, temper);
            cut(random, &mut whole);
            output.feed.write_all(&whole.bytes)?;
            if !unread {
                output.expect(&whole.expected)?;
            }
        }
        Kind::Noise => {
            let bytes = match random.between(0, 9) {
                0 => random_bytes(random),
                1 | 2 => random_records(random),
                _ => {
                    let mut whole = whole_course(random, &book, options, temper);
                    disturb(random, &mut whole);
                    whole.bytes
                }
            };
            output.feed.write_all(&bytes)?;
        }
    }
    output.finish()
}

/// Where a feed goes, and the refusals that it is to meet.
struct Output {
    feed: File,
    expectations: Option<BufWriter<File>>,
}

impl Output {
    fn expect(&mut self, list: &[Expected]) -> io::Result<()> {
        if let Some(file) = &mut self.expectations {
            for (number, offset) in list {
                writeln!(file, "R {number} {offset}")?;
            }
        }
        Ok(())
    }

    fn finish(&mut self) -> io::Result<()> {
        match &mut self.expectations {
            Some(file) => file.flush(),
            None => Ok(()),
        }
    }
}

fn year_size(options: &Options) -> year::Size {
    year::Size {
        suppliers: options.suppliers.unwrap_or(year::ORDINARY.suppliers),
        customers: options.customers.unwrap_or(year::ORDINARY.customers),
        hours: options.hours.unwrap_or(year::ORDINARY.hours),
    }
}

/// The size of a house and its hours, where the options leave them open.
fn plan(random: &mut Random, options: &Options, temper: Temper) -> Plan {
    let mut size = |most: usize| match random.between(0, 7) {
        0 => most,
        1 => random.place(2),
        2..=4 => 1 + random.place(8),
        _ => 1 + random.place(most),
    };
    let (suppliers, customers) = (size(MOST_SUPPLIERS), size(MOST_CUSTOMERS));
    let hours = random.between32(1, 6);
    Plan {
        suppliers: options.suppliers.unwrap_or(suppliers),
        customers: options.customers.unwrap_or(customers),
        hours: options.hours.unwrap_or(hours),
        temper,
        faults: options.kind != Kind::Valid,
    }
}

fn whole_course(random: &mut Random, book: &CurveBook, options: &Options, temper: Temper) -> Piece {
    let plan = plan(random, options, temper);
    let mut course = Course::new(random, book, plan);
    let mut whole = Piece { bytes: Vec::new(), records: Vec::new(), expected: Vec::new() };
    while let Some(mut piece) = course.next_piece() {
        whole.bytes.append(&mut piece.bytes);
        whole.records.append(&mut piece.records);
        whole.expected.append(&mut piece.expected);
    }
    whole
}

/// Cuts a feed at any byte. The record cut through is refused by 1, and nothing after it is read.
fn cut(random: &mut Random, feed: &mut Piece) {
    let length = random.between(0, feed.bytes.len() as u64);
    feed.bytes.truncate(length as usize);
    feed.records.retain(|start| *start < length);
    // The end of a record is the start of the next; only the last one can be cut through.
    let whole = |start: u64, bytes: &[u8]| record_length(&bytes[start as usize..]).is_some_and(|l| start + l <= length);
    let last_is_whole = feed.records.last().is_none_or(|start| whole(*start, &feed.bytes));
    feed.expected.retain(|(_, start)| *start < length);
    if !last_is_whole {
        let start = *feed.records.last().unwrap_or(&0);
        feed.expected.retain(|(_, refused)| *refused < start);
        feed.expected.push((1, start));
    }
}

/// Length of a record of allowed sizes, from its header.
fn record_length(bytes: &[u8]) -> Option<u64> {
    let header = bytes.first_chunk::<5>()?;
    let n = u64::from(u16::from_le_bytes([header[1], header[2]]));
    let m = u64::from(u16::from_le_bytes([header[3], header[4]]));
    Some(match header[0] {
        1 => 21,
        2 | 3 => 9,
        4 => 5 + 8 * n + 24 * m,
        5 => 9 + 8 * n + 24 * m,
        6 => 5 + 16 * m,
        _ => 5,
    })
}

fn random_bytes(random: &mut Random) -> Vec<u8> {
    let length = random.between(0, 6_000);
    (0..length).map(|_| random.bits() as u8).collect()
}

/// Records of allowed sizes, mostly, with anything in them.
fn random_records(random: &mut Random) -> Vec<u8> {
    let mut feed = Vec::new();
    for _ in 0..random.between(1, 40) {
        let start = feed.len();
        let kind = random.between(1, 7) as u8;
        let few = random.one_in(2);
        let (n, m) = match kind {
            4 | 5 => (if few { 15 } else { random.between(1, 32) }, if few { 0 } else { random.between(0, 128) }),
            6 => (0, if few { 0 } else { random.between(0, 256) }),
            _ => (0, 0),
        };
        let odd = u64::from(random.one_in(60));
        record::header(&mut feed, kind, (n + odd) as usize, m as usize);
        let length = record_length(&feed[start..]).unwrap_or(5) as usize;
        let small = random.one_in(2);
        while feed.len() < start + length {
            let word = if small { random.between32(0, 5) } else { random.bits() as u32 };
            feed.extend_from_slice(&word.to_le_bytes());
        }
        feed.truncate(start + length);
    }
    feed
}

/// Alters bytes of a feed here and there.
fn disturb(random: &mut Random, feed: &mut Piece) {
    if feed.bytes.is_empty() {
        return;
    }
    match random.between(0, 7) {
        // One header made wrong.
        0 => {
            let start = feed.records[random.place(feed.records.len())] as usize;
            match random.between(0, 2) {
                0 => feed.bytes[start] = random.pick(&[0, 8, 9, 127, 128, 255]),
                1 => feed.bytes[start + 2] = random.between(1, 255) as u8,
                _ => feed.bytes[start + 4] = random.between(2, 255) as u8,
            }
        }
        // Bytes put in or taken out: all after them is out of place.
        1 => {
            let place = random.place(feed.bytes.len());
            if random.one_in(2) {
                feed.bytes.insert(place, random.bits() as u8);
            } else {
                feed.bytes.remove(place);
            }
        }
        // Whole words, so that figures change and headers rarely.
        2 | 3 => {
            for _ in 0..random.between(1, 60) {
                let place = random.place(feed.bytes.len());
                let word = (random.bits() as u32 >> random.between(0, 31)).to_le_bytes();
                for (byte, new) in feed.bytes[place..].iter_mut().zip(word) {
                    *byte = new;
                }
            }
        }
        // Single bits, few or many.
        _ => {
            let most = random.pick(&[3, 30, 300]);
            for _ in 0..random.between(1, most) {
                let place = random.place(feed.bytes.len());
                feed.bytes[place] ^= 1 << random.between(0, 7);
            }
        }
    }
}
