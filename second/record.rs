//! Records of a feed, and their bytes (FORMATS.md, section 1).

#[derive(Clone, Copy)]
pub struct Row {
    pub energy: i32,
    pub regulation: u32,
    pub spinning: u32,
    pub ten: u32,
    pub thirty: u32,
}

#[derive(Clone)]
pub struct Market {
    pub prices: Vec<u32>,
    pub targets: Vec<u32>,
    pub numbers: Vec<u32>,
    pub rows: Vec<Row>,
}

#[derive(Clone, Copy)]
pub struct Withdrawal {
    pub gross: u32,
    pub station: u32,
    pub exports: u32,
}

pub enum Record {
    EnrolSupplier { number: u32, location: u16, kind: u16, upper: u32, rate: u32 },
    EnrolCustomer { number: u32 },
    Open { hour: u32 },
    Clear { market: Market },
    Interval { seconds: u32, market: Market },
    Close { numbers: Vec<u32>, rows: Vec<Withdrawal> },
    Void,
}

impl Row {
    pub fn bytes(&self) -> [u8; 20] {
        let fields = [self.energy as u32, self.regulation, self.spinning, self.ten, self.thirty];
        let mut bytes = [0; 20];
        for (place, field) in bytes.chunks_exact_mut(4).zip(fields) {
            place.copy_from_slice(&field.to_le_bytes());
        }
        bytes
    }
}

impl Withdrawal {
    pub fn bytes(&self) -> [u8; 12] {
        let mut bytes = [0; 12];
        for (place, field) in bytes.chunks_exact_mut(4).zip([self.gross, self.station, self.exports]) {
            place.copy_from_slice(&field.to_le_bytes());
        }
        bytes
    }
}

impl Record {
    /// Puts the record's bytes at the end of a feed.
    pub fn write(&self, feed: &mut Vec<u8>) {
        match self {
            Record::EnrolSupplier { number, location, kind, upper, rate } => {
                header(feed, 1, 0, 0);
                words(feed, &[*number]);
                feed.extend_from_slice(&location.to_le_bytes());
                feed.extend_from_slice(&kind.to_le_bytes());
                words(feed, &[*upper, *rate]);
            }
            Record::EnrolCustomer { number } => {
                header(feed, 2, 0, 0);
                words(feed, &[*number]);
            }
            Record::Open { hour } => {
                header(feed, 3, 0, 0);
                words(feed, &[*hour]);
            }
            Record::Clear { market } => {
                header(feed, 4, market.prices.len(), market.rows.len());
                market.write(feed);
            }
            Record::Interval { seconds, market } => {
                header(feed, 5, market.prices.len(), market.rows.len());
                words(feed, &[*seconds]);
                market.write(feed);
            }
            Record::Close { numbers, rows } => {
                header(feed, 6, 0, rows.len());
                words(feed, numbers);
                for row in rows {
                    feed.extend_from_slice(&row.bytes());
                }
            }
            Record::Void => header(feed, 7, 0, 0),
        }
    }
}

impl Market {
    fn write(&self, feed: &mut Vec<u8>) {
        words(feed, &self.prices);
        words(feed, &self.targets);
        words(feed, &self.numbers);
        for row in &self.rows {
            feed.extend_from_slice(&row.bytes());
        }
    }
}

pub fn header(feed: &mut Vec<u8>, kind: u8, n: usize, m: usize) {
    feed.push(kind);
    feed.extend_from_slice(&(n as u16).to_le_bytes());
    feed.extend_from_slice(&(m as u16).to_le_bytes());
}

pub fn words(feed: &mut Vec<u8>, list: &[u32]) {
    for word in list {
        feed.extend_from_slice(&word.to_le_bytes());
    }
}
