//! What was measured of a row, or of several together.

use crate::row::Row;

/// Times and counts: first of the library, then of plain Rust.
#[derive(Clone, Copy, Default)]
pub struct Measured {
    pub inputs: usize,
    pub bytes: usize,
    nanoseconds: [f64; 2],
    /// Instructions; 0 where they were not counted.
    counts: [u64; 2],
}

impl Measured {
    /// A row's times and counts.
    pub fn new(row: &Row, nanoseconds: [f64; 2], counts: Option<[u64; 2]>) -> Measured {
        Measured {
            inputs: row.inputs.len(),
            bytes: row.bytes(),
            nanoseconds,
            counts: counts.unwrap_or_default(),
        }
    }

    /// Both together.
    pub fn plus(self, other: Measured) -> Measured {
        Measured {
            inputs: self.inputs + other.inputs,
            bytes: self.bytes + other.bytes,
            nanoseconds: [0, 1].map(|side| self.nanoseconds[side] + other.nanoseconds[side]),
            counts: [0, 1].map(|side| self.counts[side] + other.counts[side]),
        }
    }

    /// Nanoseconds for a byte.
    pub fn times_per_byte(self) -> [f64; 2] {
        self.nanoseconds.map(|time| time / self.bytes as f64)
    }

    /// Instructions for a byte, where they were counted.
    pub fn counts_per_byte(self) -> Option<[f64; 2]> {
        let counted = self.counts[1] > 0;
        counted.then(|| self.counts.map(|count| count as f64 / self.bytes as f64))
    }

    /// The library's time over that of plain Rust.
    pub fn over_plain(self) -> f64 {
        self.nanoseconds[0] / self.nanoseconds[1]
    }

    /// The library's time for a byte over the one that it takes there.
    pub fn over(self, other: Measured) -> f64 {
        self.times_per_byte()[0] / other.times_per_byte()[0]
    }
}
