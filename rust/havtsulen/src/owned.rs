//! The calls for everyday use, with buffers of their own on the heap.

use std::time::Duration;

use crate::calls::{find, normal_text, read, span, split, value, write};
use crate::{Error, Which, ENTRY_NUMBERS, ITEM_BYTES, ITEM_ENDS, NORMAL_BYTES, SECTION_NUMBERS};
use crate::{TEXT_BYTES, WRITE_BYTES};

/// The sections and entries of a file.
///
/// ```
/// let table = havtsulen::Table::read(b"[Cell]\nWait=1s\nZero=\n[Link]\n[Cell]\nWait=2s\n")?;
/// assert!(table.sections().eq([b"Cell", b"Link"]));
/// assert_eq!(table.entries().count(), 3);
/// assert_eq!(table.first(b"Cell", b"Wait"), Ok(&b"1s"[..]));
/// assert_eq!(table.last(b"Cell", b"Wait"), Ok(&b"2s"[..]));
/// assert_eq!(table.last(b"Cell", b"Zero"), Ok(&b""[..]));
/// assert_eq!(table.last(b"Link", b"Wait"), Err(havtsulen::Error::NoEntry));
/// # Ok::<(), havtsulen::Error>(())
/// ```
///
/// Tables have no `==`: two files that hold the same may have their entries in another order. Compare
/// their [`normal`] texts instead.
#[derive(Debug, Clone)]
pub struct Table {
    text: Box<[u8]>,
    sections: Box<[usize]>,
    entries: Box<[usize]>,
}

/// An entry of a [`Table`].
#[derive(Debug, Clone, Copy, PartialEq, Eq)]
pub struct Entry<'a> {
    /// The name of its section.
    pub section: &'a [u8],
    /// Its key.
    pub key: &'a [u8],
    /// Its value, the lines that continue it joined.
    pub value: &'a [u8],
}

const SECTION_RECORD: usize = 2;
const ENTRY_RECORD: usize = 5;

impl Table {
    /// Reads a file, given as its bytes.
    pub fn read(file: &[u8]) -> Result<Table, Error> {
        let (mut text, mut sections, mut entries) = table_buffers();
        let counts = read(file, &mut text, &mut sections, &mut entries)?;
        text.truncate(counts.text);
        sections.truncate(counts.sections * SECTION_RECORD);
        entries.truncate(counts.entries * ENTRY_RECORD);
        Ok(Table {
            text: text.into_boxed_slice(),
            sections: sections.into_boxed_slice(),
            entries: entries.into_boxed_slice(),
        })
    }

    /// The names of the sections, each once, in order of first appearance.
    pub fn sections(&self) -> impl Iterator<Item = &[u8]> {
        self.sections
            .chunks_exact(SECTION_RECORD)
            .map(|record| self.part(record))
    }

    /// The entries in the order of the file.
    pub fn entries(&self) -> impl Iterator<Item = Entry<'_>> {
        self.entries.chunks_exact(ENTRY_RECORD).map(|record| Entry {
            section: self.part(&self.sections[record[0] * SECTION_RECORD..]),
            key: self.part(&record[1..]),
            value: self.part(&record[3..]),
        })
    }

    /// The value of the first entry with this section name and this key.
    pub fn first(&self, section: &[u8], key: &[u8]) -> Result<&[u8], Error> {
        self.look_up(section, key, Which::First)
    }

    /// The value of the last entry with this section name and this key.
    pub fn last(&self, section: &[u8], key: &[u8]) -> Result<&[u8], Error> {
        self.look_up(section, key, Which::Last)
    }

    fn look_up(&self, section: &[u8], key: &[u8], which: Which) -> Result<&[u8], Error> {
        let (text, sections, entries) = (&self.text, &self.sections, &self.entries);
        let section_count = sections.len() / SECTION_RECORD;
        let entry_count = entries.len() / ENTRY_RECORD;
        let index = find(
            section,
            key,
            which,
            text,
            sections,
            section_count,
            entries,
            entry_count,
        )?;
        Ok(value(
            index,
            text,
            sections,
            section_count,
            entries,
            entry_count,
        ))
    }

    /// The part of the text whose start and length come first in `record`.
    fn part(&self, record: &[usize]) -> &[u8] {
        &self.text[record[0]..][..record[1]]
    }
}

fn table_buffers() -> (Vec<u8>, Vec<usize>, Vec<usize>) {
    (
        vec![0; TEXT_BYTES],
        vec![0; SECTION_NUMBERS],
        vec![0; ENTRY_NUMBERS],
    )
}

/// The normal text of a file: the same for two files exactly when they hold the same.
///
/// ```
/// let file = b"[A]\nK = 1 \\\n# note\n 2\n[B]\n[A]\nJ=\n";
/// assert_eq!(havtsulen::normal(file)?, b"[A]\nK=1   2\nJ=\n[B]\n");
/// # Ok::<(), havtsulen::Error>(())
/// ```
pub fn normal(file: &[u8]) -> Result<Vec<u8>, Error> {
    let (mut text, mut sections, mut entries) = table_buffers();
    let mut out = vec![0; NORMAL_BYTES];
    let sizes = normal_text(file, &mut text, &mut sections, &mut entries, &mut out)?;
    out.truncate(sizes.length);
    Ok(out)
}

/// The items of a text, quotes and escapes undone.
///
/// ```
/// assert_eq!(havtsulen::items(br#""a b" \x41\102 """#)?, [&b"a b"[..], b"AB", b""]);
/// # Ok::<(), havtsulen::Error>(())
/// ```
pub fn items(text: &[u8]) -> Result<Vec<Vec<u8>>, Error> {
    let (mut bytes, mut ends) = (vec![0; ITEM_BYTES], vec![0; ITEM_ENDS]);
    let items = split(text, &mut bytes, &mut ends)?;
    let mut start = 0;
    let item = |&end: &usize| bytes[std::mem::replace(&mut start, end)..end].to_vec();
    Ok(ends[..items.count].iter().map(item).collect())
}

/// The text of a list of items; [`items`] gives them back.
///
/// ```
/// assert_eq!(havtsulen::list(&["a b", "c", ""])?, br#""a b" c """#);
/// # Ok::<(), havtsulen::Error>(())
/// ```
pub fn list<T: AsRef<[u8]>>(items: &[T]) -> Result<Vec<u8>, Error> {
    let mut bytes = Vec::new();
    let mut ends = Vec::with_capacity(items.len());
    for item in items {
        bytes.extend_from_slice(item.as_ref());
        ends.push(bytes.len());
    }
    let mut out = vec![0; WRITE_BYTES];
    let length = write(&bytes, &ends, &mut out)?;
    out.truncate(length);
    Ok(out)
}

/// A time span.
///
/// ```
/// assert_eq!(havtsulen::duration(b"1min 30s")?, std::time::Duration::from_secs(90));
/// # Ok::<(), havtsulen::Error>(())
/// ```
pub fn duration(text: &[u8]) -> Result<Duration, Error> {
    span(text).map(Duration::from_micros)
}
