//! Adds up the statement outside the engine while two statement programs settle the same feed.
//!
//! usage: soak STATEMENT SECOND HELD HOURS
//!
//! STATEMENT and SECOND are the two statements as they come, HELD the lines `H hour grains` of the second program,
//! HOURS the hours that are to be closed, from 0 on. At every closing it checks that the two statements are equal, and
//! that what suppliers have earned beyond their payments (36,000 x all charges + carry - 36,000 x all payments, in
//! grains) is 0 to 35,999 for each supplier and exactly what the second program holds for them. Any breach ends it with
//! status 1.

use std::fs::File;
use std::io::{self, BufRead, BufReader};
use std::process::ExitCode;

const GRAINS_PER_CENT: i128 = 36_000;
const MOST_HELD: i128 = 35_999;
const HOURS_OF_YEAR: u64 = 8_760;

fn main() -> ExitCode {
    match run() {
        Ok(summary) => {
            println!("{summary}");
            ExitCode::SUCCESS
        }
        Err(breach) => {
            eprintln!("soak: {breach}");
            ExitCode::FAILURE
        }
    }
}

fn run() -> Result<String, String> {
    let arguments: Vec<String> = std::env::args().skip(1).collect();
    let [statement, second, held, hours] = arguments.as_slice() else {
        return Err("usage: soak STATEMENT SECOND HELD HOURS".to_string());
    };
    let hours: u64 = hours.parse().map_err(|_| format!("{hours} is no number of hours"))?;
    let mut statement = Lines::open(statement)?;
    let mut second = Lines::open(second)?;
    let mut held = Lines::open(held)?;
    let mut sums = Sums::default();
    for hour in 0..hours {
        sums.closing(hour, &mut statement, &mut second)?;
        sums.check(hour, &mut held)?;
        if (hour + 1) % HOURS_OF_YEAR == 0 {
            eprintln!("year {}: in balance", (hour + 1) / HOURS_OF_YEAR);
        }
    }
    for lines in [&mut statement, &mut second, &mut held] {
        lines.end()?;
    }
    Ok(sums.summary(hours))
}

/// A stream of lines, read as they come.
struct Lines {
    name: String,
    source: BufReader<File>,
    line: Vec<u8>,
}

impl Lines {
    fn open(name: &str) -> Result<Lines, String> {
        let file = File::open(name).map_err(|error| format!("{name}: {error}"))?;
        Ok(Lines { name: name.to_string(), source: BufReader::with_capacity(64 * 1024, file), line: Vec::new() })
    }

    /// The next line, without its end.
    fn next(&mut self) -> Result<&[u8], String> {
        self.line.clear();
        let read: io::Result<usize> = self.source.read_until(b'\n', &mut self.line);
        read.map_err(|error| format!("{}: {error}", self.name))?;
        self.line.strip_suffix(b"\n").ok_or(format!("{} ended early, or within a line", self.name))
    }

    fn end(&mut self) -> Result<(), String> {
        match self.source.fill_buf() {
            Ok([]) => Ok(()),
            Ok(_) => Err(format!("{} goes on after the last hour", self.name)),
            Err(error) => Err(format!("{}: {error}", self.name)),
        }
    }
}

#[derive(Default)]
struct Sums {
    paid: i128,
    charged: i128,
    carry: i128,
    held: i128,
    suppliers: i128,
    lines: u64,
}

impl Sums {
    /// Adds the lines of one closing: payments, then charges, then the carry.
    fn closing(&mut self, hour: u64, statement: &mut Lines, second: &mut Lines) -> Result<(), String> {
        let mut before = b'P';
        self.suppliers = 0;
        loop {
            let line = statement.next()?;
            let other = second.next()?;
            let shown = || String::from_utf8_lossy(line).into_owned();
            if line != other {
                let other = String::from_utf8_lossy(other);
                return Err(format!("hour {hour}: '{}', but the second has '{other}'", shown()));
            }
            self.lines += 1;
            let letter = line.first().copied().unwrap_or(b' ');
            let fields = fields(line).ok_or_else(|| format!("hour {hour}: no line of a closing: '{}'", shown()))?;
            let in_order = letter == before || (before == b'P' && letter == b'C') || letter == b'K';
            match (letter, fields.as_slice()) {
                (b'P', [h, _, cents]) if in_order && *h == i128::from(hour) => {
                    self.paid += cents;
                    self.suppliers += 1;
                }
                (b'C', [h, _, cents]) if in_order && *h == i128::from(hour) => self.charged += cents,
                (b'K', [h, carry]) if *h == i128::from(hour) => {
                    self.carry = *carry;
                    return Ok(());
                }
                _ => return Err(format!("hour {hour}: out of place: '{}'", shown())),
            }
            before = letter;
        }
    }

    fn check(&mut self, hour: u64, held: &mut Lines) -> Result<(), String> {
        self.held = GRAINS_PER_CENT * self.charged + self.carry - GRAINS_PER_CENT * self.paid;
        if self.held < 0 || self.held > MOST_HELD * self.suppliers {
            return Err(format!("hour {hour}: {} grains held by {} suppliers", self.held, self.suppliers));
        }
        let due = format!("H {hour} {}", self.held);
        let told = String::from_utf8_lossy(held.next()?);
        if told != due {
            return Err(format!("hour {hour}: added up '{due}', but the second has '{told}'"));
        }
        Ok(())
    }

    fn summary(&self, hours: u64) -> String {
        format!(
            "{hours} closings, {} lines: the two statements are equal. After every closing, 36,000 x charges +\n\
             carry - 36,000 x payments was 0 to 35,999 grains for each supplier, and to the grain what the second\n\
             program holds for them.\n\
             In all: {} cents paid, {} cents charged, carry {} grains, held {} grains by {} suppliers.",
            self.lines, self.paid, self.charged, self.carry, self.held, self.suppliers
        )
    }
}

/// The numbers after a line's letter, with one blank before each.
fn fields(line: &[u8]) -> Option<Vec<i128>> {
    let text = std::str::from_utf8(line.get(1..)?).ok()?;
    text.strip_prefix(' ')?.split(' ').map(|field| field.parse().ok()).collect()
}
