//! The grains that suppliers hold, told beside the statement for a reckoning outside.

use crate::ledger::Ledger;
use std::fs::File;
use std::io::{self, Write};

/// Where to tell them, if anywhere.
pub struct Held {
    file: Option<File>,
}

impl Held {
    pub fn new(path: Option<&str>) -> io::Result<Held> {
        Ok(Held { file: path.map(File::create).transpose()? })
    }

    /// One line for a closing that the ledger has just accepted. It is out before the closing's own lines: whoever
    /// reads both as they come waits for neither.
    pub fn closing(&mut self, hour: u32, ledger: &Ledger) -> io::Result<()> {
        let Some(file) = &mut self.file else {
            return Ok(());
        };
        let grains: i64 = ledger.suppliers().iter().map(|supplier| supplier.held).sum();
        file.write_all(format!("H {hour} {grains}\n").as_bytes())
    }
}
