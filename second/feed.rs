//! The feed: records out of a stream of bytes (FORMATS.md, sections 1 and 2; REFUSALS.md, section 4).
//!
//! A record is handed out as parts of the read buffer; nothing is copied. The buffer is of one fixed size, so memory
//! does not grow with the feed.

use std::io::{self, Read};

const HEADER: usize = 5;
pub const SCHEDULE_ROW: usize = 20;
pub const WITHDRAWAL_ROW: usize = 12;

const MOST_PRICES: usize = 32;
const MOST_SCHEDULES: usize = 128;
const MOST_WITHDRAWALS: usize = 256;

/// Much larger than the longest record (4,101 bytes), so that few bytes have to be moved when it is refilled, and
/// small enough to stay in the processor's nearer caches.
const BUFFER: usize = 256 * 1024;

/// What clearings and intervals have alike: prices and targets (u32 each), and a schedule sheet.
pub struct Market<'a> {
    pub prices: &'a [u8],
    pub targets: &'a [u8],
    pub sheet: Sheet<'a>,
}

/// A sheet's rows: m numbers (u32 each) and m rows of the sheet's kind.
pub struct Sheet<'a> {
    pub numbers: &'a [u8],
    pub rows: &'a [u8],
}

pub enum Record<'a> {
    EnrolSupplier { number: u32, location: u16, kind: u16, upper: u32, rate: u32 },
    EnrolCustomer { number: u32 },
    Open { hour: u32 },
    Clear { market: Market<'a> },
    Interval { seconds: u32, market: Market<'a> },
    Close { sheet: Sheet<'a> },
    Void,
}

/// What a list of bytes begins with.
pub enum Next<'a> {
    /// A whole record and its length.
    Record(Record<'a>, usize),
    /// No record yet, and none refused: more bytes must tell. At the feed's end this is refusal 1, unless no byte is
    /// left at all.
    Short,
    /// A record that is refused whatever follows: by 2 or 3.
    Refused(u32),
}

pub const TRUNCATED: u32 = 1;
const UNKNOWN_KIND: u32 = 2;
const SIZE_NOT_ALLOWED: u32 = 3;

/// The record at the front of these bytes.
pub fn first_record(bytes: &[u8]) -> Next<'_> {
    let Some(header) = bytes.first_chunk::<HEADER>() else {
        return Next::Short;
    };
    let kind = header[0];
    let n = usize::from(u16::from_le_bytes([header[1], header[2]]));
    let m = usize::from(u16::from_le_bytes([header[3], header[4]]));

    let (allowed, length) = match kind {
        1 => (n == 0 && m == 0, 21),
        2 | 3 => (n == 0 && m == 0, 9),
        4 => ((1..=MOST_PRICES).contains(&n) && m <= MOST_SCHEDULES, 5 + 8 * n + 24 * m),
        5 => ((1..=MOST_PRICES).contains(&n) && m <= MOST_SCHEDULES, 9 + 8 * n + 24 * m),
        6 => (n == 0 && m <= MOST_WITHDRAWALS, 5 + 16 * m),
        7 => (n == 0 && m == 0, 5),
        _ => return Next::Refused(UNKNOWN_KIND),
    };
    if !allowed {
        return Next::Refused(SIZE_NOT_ALLOWED);
    }
    if bytes.len() < length {
        return Next::Short;
    }

    let body = &bytes[HEADER..length];
    let record = match kind {
        1 => Record::EnrolSupplier {
            number: u32_at(body, 0),
            location: u16_at(body, 4),
            kind: u16_at(body, 6),
            upper: u32_at(body, 8),
            rate: u32_at(body, 12),
        },
        2 => Record::EnrolCustomer { number: u32_at(body, 0) },
        3 => Record::Open { hour: u32_at(body, 0) },
        4 => Record::Clear { market: market(body, n, m) },
        5 => Record::Interval { seconds: u32_at(body, 0), market: market(&body[4..], n, m) },
        6 => Record::Close { sheet: sheet(body, m) },
        _ => Record::Void,
    };
    Next::Record(record, length)
}

fn market(bytes: &[u8], n: usize, m: usize) -> Market<'_> {
    let (prices, rest) = bytes.split_at(4 * n);
    let (targets, rest) = rest.split_at(4 * n);
    Market { prices, targets, sheet: sheet(rest, m) }
}

fn sheet(bytes: &[u8], m: usize) -> Sheet<'_> {
    let (numbers, rows) = bytes.split_at(4 * m);
    Sheet { numbers, rows }
}

pub fn u16_at(bytes: &[u8], at: usize) -> u16 {
    u16::from_le_bytes([bytes[at], bytes[at + 1]])
}

pub fn u32_at(bytes: &[u8], at: usize) -> u32 {
    u32::from_le_bytes([bytes[at], bytes[at + 1], bytes[at + 2], bytes[at + 3]])
}

/// A feed that is being read. It stands at the first byte that was not passed over yet.
pub struct Reader<R> {
    source: R,
    buffer: Box<[u8]>,
    start: usize,
    end: usize,
    /// Place of `buffer[start]` in the whole feed.
    offset: u64,
}

impl<R: Read> Reader<R> {
    pub fn new(source: R) -> Reader<R> {
        Reader { source, buffer: vec![0; BUFFER].into_boxed_slice(), start: 0, end: 0, offset: 0 }
    }

    /// What stands next among the bytes that have arrived. Waits for nothing.
    pub fn next(&self) -> Next<'_> {
        first_record(&self.buffer[self.start..self.end])
    }

    pub fn offset(&self) -> u64 {
        self.offset
    }

    /// Whether bytes have arrived that are not passed over.
    pub fn has_bytes(&self) -> bool {
        self.start < self.end
    }

    /// Passes over a record of this length.
    pub fn pass(&mut self, length: usize) {
        self.start += length;
        self.offset += length as u64;
    }

    /// Waits until more bytes arrive, and takes what there is. False at the end of the feed.
    ///
    /// To be called after `Next::Short`, when less than the longest record is left: so there is always room.
    pub fn fill(&mut self) -> io::Result<bool> {
        self.buffer.copy_within(self.start..self.end, 0);
        self.end -= self.start;
        self.start = 0;
        loop {
            match self.source.read(&mut self.buffer[self.end..]) {
                Ok(got) => {
                    self.end += got;
                    return Ok(got > 0);
                }
                Err(error) if error.kind() == io::ErrorKind::Interrupted => {}
                Err(error) => return Err(error),
            }
        }
    }
}
