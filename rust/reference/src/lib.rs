//! The rules of document 01 (a settings-file library) in plain Rust.
//!
//! Nothing here allocates. Every call writes into the lent buffers only once nothing
//! can be refused any more, so that a refused call leaves each buffer as it was:
//! reader, splitter and writer work in local arrays first.
#![no_std]
#![forbid(unsafe_code)]

mod bytes;
mod items;
mod lines;
mod lookup;
mod normal;
mod table;
mod values;
mod writer;

pub use bytes::{check_file, well_formed_length};
pub use items::split;
pub use lookup::{find, value, value_check};
pub use normal::normal_text;
pub use table::read;
pub use values::{boolean, span};
pub use writer::write;

/// Smallest text buffer of the reader, in bytes.
pub const TEXT_BYTES: usize = 65535;
/// Smallest section buffer of the reader, in numbers: 64 records of two.
pub const SECTION_NUMBERS: usize = 128;
/// Smallest entry buffer of the reader, in numbers: 512 records of five.
pub const ENTRY_NUMBERS: usize = 2560;
/// Smallest output buffer of the normal text.
pub const NORMAL_BYTES: usize = 65535;
/// Smallest buffer for the bytes of split items.
pub const ITEM_BYTES: usize = 4096;
/// Smallest buffer for the ends of split items, and the most items there may be.
pub const ITEM_ENDS: usize = 256;
/// Smallest output buffer of the item writer.
pub const WRITE_BYTES: usize = 4096;

/// Why a call was refused: the number of the rules' table, and a line or an offset.
#[derive(Debug, Clone, Copy, PartialEq, Eq)]
pub struct Refusal {
    pub number: usize,
    pub place: usize,
}

/// How much of the reader's three buffers a table takes up.
#[derive(Debug, Clone, Copy, PartialEq, Eq)]
pub struct Counts {
    pub text: usize,
    pub sections: usize,
    pub entries: usize,
}

/// The length of a normal text, and the counts of the table it was made from.
#[derive(Debug, Clone, Copy, PartialEq, Eq)]
pub struct Sizes {
    pub length: usize,
    pub table: Counts,
}

/// A part of the text buffer.
#[derive(Debug, Clone, Copy, PartialEq, Eq)]
pub struct Part {
    pub start: usize,
    pub length: usize,
}

/// How many items were split off, and how many bytes they have together.
#[derive(Debug, Clone, Copy, PartialEq, Eq)]
pub struct Items {
    pub count: usize,
    pub length: usize,
}

/// Which of several entries with the same section and key is asked for.
#[derive(Debug, Clone, Copy, PartialEq, Eq)]
pub enum Which {
    First,
    Last,
}

/// Shorthand for a refused answer.
pub(crate) fn refuse<T>(number: usize, place: usize) -> Result<T, Refusal> {
    Err(Refusal { number, place })
}
