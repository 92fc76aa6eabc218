//! What the calls answer, and the sizes of the buffers that they ask for.

/// Bytes of the longest file; one that is not empty and does not end in LF counts one byte more.
pub const FILE_BYTES: usize = 65535;
/// Bytes of the text buffer of [`read`](crate::read) and [`normal_text`](crate::normal_text).
pub const TEXT_BYTES: usize = 65535;
/// Numbers of their buffer of sections: two for each of 64.
pub const SECTION_NUMBERS: usize = 128;
/// Numbers of their buffer of entries: five for each of 512.
pub const ENTRY_NUMBERS: usize = 2560;
/// Bytes of the output buffer of [`normal_text`](crate::normal_text).
pub const NORMAL_BYTES: usize = 65535;
/// Bytes of the buffer of item bytes of [`split`](crate::split).
pub const ITEM_BYTES: usize = 4096;
/// Numbers of its buffer of ends: one for each of 256 items.
pub const ITEM_ENDS: usize = 256;
/// Bytes of the output buffer of [`write`](crate::write).
pub const WRITE_BYTES: usize = 4096;
/// Numbers of the report of each call of [`raw`](crate::raw).
pub const REPORT_NUMBERS: usize = 4;
/// Bytes of stack that a call needs at most.
pub const STACK_BYTES: usize = 131072;

/// How much of its buffers a table takes.
#[derive(Debug, Clone, Copy, PartialEq, Eq)]
pub struct Counts {
    /// Bytes of names, keys and values.
    pub text: usize,
    /// Sections, of two numbers each.
    pub sections: usize,
    /// Entries, of five numbers each.
    pub entries: usize,
}

/// The length of a normal text, and the counts of the table that was made with it.
#[derive(Debug, Clone, Copy, PartialEq, Eq)]
pub struct Sizes {
    /// Bytes of the normal text.
    pub length: usize,
    /// The table in the reader's three buffers.
    pub table: Counts,
}

/// A part of a text buffer.
#[derive(Debug, Clone, Copy, PartialEq, Eq)]
pub struct Part {
    /// The offset of its first byte.
    pub start: usize,
    /// Its bytes.
    pub length: usize,
}

/// How much of its buffers a list of items takes.
#[derive(Debug, Clone, Copy, PartialEq, Eq)]
pub struct Items {
    /// How many items there are.
    pub count: usize,
    /// How many bytes they have together.
    pub length: usize,
}

/// Which of several entries with one section and one key is meant.
#[derive(Debug, Clone, Copy, PartialEq, Eq)]
pub enum Which {
    /// The first in the file.
    First = 0,
    /// The last in the file.
    Last = 1,
}
