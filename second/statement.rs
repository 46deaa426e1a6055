//! The statement's lines (FORMATS.md, section 5).
//!
//! Lines are gathered in a buffer of fixed size and handed on only whole: the buffer is written out between lines,
//! never within one.

use crate::ledger::Ledger;
use std::io::{self, Write};

const BUFFER: usize = 64 * 1024;

/// Room kept free before a line is begun. The longest line is `C 499999 4294967295 ` and 20 characters of cents, and a
/// number is put down eight bytes at a time, which may reach a little past its end.
const LINE_ROOM: usize = 80;

/// A line's beginning, the same for all accounts of a book at one closing: `P 499999 `.
struct Head {
    bytes: [u8; 16],
    length: usize,
}

pub struct Statement<W> {
    out: W,
    text: Box<[u8]>,
    used: usize,
}

impl<W: Write> Statement<W> {
    pub fn new(out: W) -> Statement<W> {
        Statement { out, text: vec![0; BUFFER].into_boxed_slice(), used: 0 }
    }

    /// The lines of a closing that the ledger has just accepted.
    pub fn closing(&mut self, hour: u32, ledger: &Ledger) -> io::Result<()> {
        let head = Head::new(b'P', hour);
        for supplier in ledger.suppliers() {
            self.account_line(&head, supplier.number, supplier.paid)?;
        }
        let head = Head::new(b'C', hour);
        for customer in ledger.customers() {
            self.account_line(&head, customer.number, customer.charged)?;
        }
        self.make_room()?;
        self.put_head(&Head::new(b'K', hour));
        self.put_signed(ledger.carry());
        self.put_byte(b'\n');
        Ok(())
    }

    pub fn refusal(&mut self, number: u32, offset: u64) -> io::Result<()> {
        self.make_room()?;
        self.put_byte(b'R');
        self.put_byte(b' ');
        self.put_unsigned(u64::from(number));
        self.put_byte(b' ');
        self.put_unsigned(offset);
        self.put_byte(b'\n');
        Ok(())
    }

    /// Hands on all lines written so far.
    pub fn flush(&mut self) -> io::Result<()> {
        if self.used > 0 {
            self.out.write_all(&self.text[..self.used])?;
            self.used = 0;
        }
        self.out.flush()
    }

    fn account_line(&mut self, head: &Head, number: u32, cents: i64) -> io::Result<()> {
        self.make_room()?;
        self.put_head(head);
        self.put_unsigned(u64::from(number));
        self.put_byte(b' ');
        self.put_signed(cents);
        self.put_byte(b'\n');
        Ok(())
    }

    fn make_room(&mut self) -> io::Result<()> {
        if self.text.len() - self.used < LINE_ROOM {
            self.flush()?;
        }
        Ok(())
    }

    fn put_head(&mut self, head: &Head) {
        self.text[self.used..self.used + 16].copy_from_slice(&head.bytes);
        self.used += head.length;
    }

    fn put_byte(&mut self, byte: u8) {
        self.text[self.used] = byte;
        self.used += 1;
    }

    fn put_signed(&mut self, value: i64) {
        // Written always, kept only if negative.
        self.text[self.used] = b'-';
        self.used += usize::from(value < 0);
        self.put_unsigned(value.unsigned_abs());
    }

    fn put_unsigned(&mut self, value: u64) {
        self.used += put_decimal(&mut self.text[self.used..], value);
    }
}

impl Head {
    fn new(letter: u8, hour: u32) -> Head {
        let mut bytes = [b' '; 16];
        bytes[0] = letter;
        let digits = put_decimal(&mut bytes[2..], u64::from(hour));
        bytes[2 + digits] = b' ';
        Head { bytes, length: 3 + digits }
    }
}

const EIGHT_DIGITS: u64 = 100_000_000;

/// Puts a number's digits at the front of the text and answers how many they are. Bytes after them may be overwritten
/// up to the next multiple of eight.
pub fn put_decimal(text: &mut [u8], value: u64) -> usize {
    if value < EIGHT_DIGITS {
        let digits = eight_digits(value);
        // The first digit is the lowest byte, so leading zeros are low zero bytes; the last digit always stays.
        let zeros = (digits | 1 << 56).trailing_zeros() / 8;
        put_eight(text, (digits | ASCII_ZEROS) >> (8 * zeros));
        8 - zeros as usize
    } else {
        let front = put_decimal(text, value / EIGHT_DIGITS);
        put_eight(&mut text[front..], eight_digits(value % EIGHT_DIGITS) | ASCII_ZEROS);
        front + 8
    }
}

const ASCII_ZEROS: u64 = 0x3030_3030_3030_3030;

fn put_eight(text: &mut [u8], digits: u64) {
    text[..8].copy_from_slice(&digits.to_le_bytes());
}

/// The eight decimal digits of a number below 10^8, one to a byte, the first in the lowest byte.
///
/// All digits are found at once, by halves: two numbers of four digits, four of two, eight of one, each lying in its
/// own part of the 64 bits. A division by 100 or 10 is a multiplication and a shift, exact for numbers so small.
fn eight_digits(value: u64) -> u64 {
    let fours = (value / 10_000) | (value % 10_000) << 32;
    let hundreds = (fours * 10_486 >> 20) & 0x0000_007f_0000_007f;
    let twos = hundreds | (fours - 100 * hundreds) << 16;
    let tens = (twos * 103 >> 10) & 0x000f_000f_000f_000f;
    tens | (twos - 10 * tens) << 8
}
