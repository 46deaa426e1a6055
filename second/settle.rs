//! The statement program of FORMATS.md, section 5: settles the feed on standard input with the curve book file
//! `curves.bin` of the working folder, and writes the statement to standard output.
//!
//! It ends with status 0 unless reading or writing fails; then with a message on standard error and status 1.
//!
//! `settle --held FILE` also tells, in a file beside the statement, how many grains all suppliers hold together after
//! each closing. README.md has its lines.

mod curves;
mod feed;
mod held;
mod ledger;
mod map;
mod statement;
#[cfg(test)]
mod tests;

use curves::CurveBook;
use feed::{Next, Reader};
use held::Held;
use ledger::Ledger;
use statement::Statement;
use std::fmt;
use std::fs::File;
use std::io::{self, Read, Write};
use std::os::fd::AsFd;
use std::process::ExitCode;

const CURVE_FILE: &str = "curves.bin";
const CURVES_REFUSED: u32 = 51;
const UNTOLD: &str = "cannot write the held grains";

/// A failure of a file or stream: not a refusal, and without a line in the statement.
struct Failure {
    what: &'static str,
    error: io::Error,
}

impl fmt::Display for Failure {
    fn fmt(&self, f: &mut fmt::Formatter) -> fmt::Result {
        write!(f, "{}: {}", self.what, self.error)
    }
}

fn failure(what: &'static str) -> impl Fn(io::Error) -> Failure {
    move |error| Failure { what, error }
}

fn main() -> ExitCode {
    let arguments: Vec<String> = std::env::args().skip(1).collect();
    let held = match arguments.as_slice() {
        [] => None,
        [option, path] if option == "--held" => Some(path.as_str()),
        _ => {
            let _ = writeln!(io::stderr(), "usage: settle [--held FILE]");
            return ExitCode::from(2);
        }
    };
    match run(held) {
        Ok(()) => ExitCode::SUCCESS,
        Err(failure) => {
            // If even this cannot be written, the status still tells.
            let _ = writeln!(io::stderr(), "settle: {failure}");
            ExitCode::FAILURE
        }
    }
}

fn run(held: Option<&str>) -> Result<(), Failure> {
    let mut held = Held::new(held).map_err(failure(UNTOLD))?;
    let file = read_curve_file().map_err(failure("cannot read curves.bin"))?;
    // The streams are used as plain files: they have buffers here already, fit for whole records and whole lines.
    let output = io::stdout().as_fd().try_clone_to_owned().map_err(failure("cannot write the statement"))?;
    let mut statement = Statement::new(File::from(output));
    match CurveBook::load(&file) {
        Ok(curves) => {
            let input = io::stdin().as_fd().try_clone_to_owned().map_err(failure("cannot read the feed"))?;
            settle(Reader::new(File::from(input)), &curves, &mut statement, &mut held)
        }
        Err(_) => {
            let written = statement.refusal(CURVES_REFUSED, 0).and_then(|()| statement.flush());
            written.map_err(failure("cannot write the statement"))
        }
    }
}

/// The bytes of the curve book file, or of one that is too long to be accepted, enough to have it refused.
fn read_curve_file() -> io::Result<Vec<u8>> {
    let mut bytes = Vec::with_capacity(curves::LONGEST_FILE + 1);
    File::open(CURVE_FILE)?.take(curves::LONGEST_FILE as u64 + 1).read_to_end(&mut bytes)?;
    Ok(bytes)
}

/// Settles a feed to its end, or to the first record that cannot be read. What has arrived is settled and its lines
/// handed on before more is waited for. An hour that is open at the end needs no voiding: the ledger is let go.
fn settle<R: Read, W: Write>(
    mut reader: Reader<R>,
    curves: &CurveBook,
    statement: &mut Statement<W>,
    held: &mut Held,
) -> Result<(), Failure> {
    let mut ledger = Ledger::new();
    let unwritten = failure("cannot write the statement");
    loop {
        match reader.next() {
            Next::Record(record, length) => {
                match ledger.take(&record, curves) {
                    Ok(None) => {}
                    Ok(Some(hour)) => {
                        held.closing(hour, &ledger).map_err(failure(UNTOLD))?;
                        statement.closing(hour, &ledger).map_err(&unwritten)?;
                    }
                    Err(refusal) => statement.refusal(refusal.number(), reader.offset()).map_err(&unwritten)?,
                }
                reader.pass(length);
            }
            Next::Short => {
                statement.flush().map_err(&unwritten)?;
                if !reader.fill().map_err(failure("cannot read the feed"))? {
                    if reader.has_bytes() {
                        statement.refusal(feed::TRUNCATED, reader.offset()).map_err(&unwritten)?;
                    }
                    break;
                }
            }
            Next::Refused(number) => {
                statement.refusal(number, reader.offset()).map_err(&unwritten)?;
                break;
            }
        }
    }
    statement.flush().map_err(&unwritten)
}
