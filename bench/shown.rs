//! What a reader was shown of a database: the same four numbers as in bench/shown.h.

// Each program takes what it needs of these.
#![allow(dead_code)]

use std::fmt;

#[derive(Default)]
pub struct Shown {
    rows: u64,
    pub values: u64,
    sum: u64,
    bits: u64,
}

impl Shown {
    pub fn row(&mut self, number: u64) {
        self.rows += 1;
        self.sum = self.sum.wrapping_add(number);
    }

    /// Where values are shown by themselves, how many rows they are of.
    pub fn set_rows(&mut self, rows: usize) {
        self.rows = rows as u64;
    }

    pub fn integer(&mut self, number: i64) {
        self.sum = self.sum.wrapping_add(number as u64);
    }

    pub fn real(&mut self, bits: u64) {
        self.bits ^= bits;
    }

    pub fn bytes(&mut self, bytes: &[u8]) {
        let first = bytes.first().map_or(0, |b| u64::from(*b));
        self.sum = self.sum.wrapping_add(bytes.len() as u64 + first);
    }
}

impl fmt::Display for Shown {
    fn fmt(&self, f: &mut fmt::Formatter<'_>) -> fmt::Result {
        write!(
            f,
            "{} rows, {} values, sum {:x}, bits {:x}",
            self.rows, self.values, self.sum, self.bits
        )
    }
}
