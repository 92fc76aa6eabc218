//! Look-up in a table whose buffers, counts and records may be anything.

use crate::table::{ENTRY_RECORD, SECTION_RECORD};
use crate::{refuse, Part, Refusal, Which};

/// A table all of whose records lie inside its buffers.
struct Table<'a> {
    text: &'a [u8],
    /// Section records, as many as counted.
    sections: &'a [usize],
    /// Entry records, as many as counted.
    entries: &'a [usize],
}

impl<'a> Table<'a> {
    /// Judges "any record among the stated counts (also counts past the rooms)":
    /// refusal 41 if one points outside.
    fn checked(
        text: &'a [u8],
        sections: &'a [usize],
        section_count: usize,
        entries: &'a [usize],
        entry_count: usize,
    ) -> Result<Self, Refusal> {
        let (Some(sections), Some(entries)) = (
            records(sections, section_count, SECTION_RECORD),
            records(entries, entry_count, ENTRY_RECORD),
        ) else {
            return refuse(41, 0);
        };
        let inside = |start: usize, length: usize| {
            start
                .checked_add(length)
                .is_some_and(|end| end <= text.len())
        };
        let sound = sections
            .chunks_exact(SECTION_RECORD)
            .all(|s| inside(s[0], s[1]))
            && entries
                .chunks_exact(ENTRY_RECORD)
                .all(|e| e[0] < section_count && inside(e[1], e[2]) && inside(e[3], e[4]));
        if !sound {
            return refuse(41, 0);
        }
        Ok(Table {
            text,
            sections,
            entries,
        })
    }

    /// The name of the section with this index.
    fn name(&self, index: usize) -> &'a [u8] {
        let record = &self.sections[index * SECTION_RECORD..][..SECTION_RECORD];
        &self.text[record[0]..][..record[1]]
    }
}

/// The numbers of the first `count` records, if the buffer holds as many.
fn records(numbers: &[usize], count: usize, size: usize) -> Option<&[usize]> {
    numbers.get(..count.checked_mul(size)?)
}

/// "Look-up by section name and key gives the index of the first or of the last
/// such entry": 41 for any faulty record, then 40 if there is none.
#[allow(clippy::too_many_arguments)]
pub fn find(
    section: &[u8],
    key: &[u8],
    which: Which,
    text: &[u8],
    sections: &[usize],
    section_count: usize,
    entries: &[usize],
    entry_count: usize,
) -> Result<usize, Refusal> {
    let table = Table::checked(text, sections, section_count, entries, entry_count)?;
    let mut entries = table.entries.chunks_exact(ENTRY_RECORD);
    let is_match = |e: &[usize]| text[e[1]..][..e[2]] == *key && table.name(e[0]) == section;
    let index = match which {
        Which::First => entries.position(is_match),
        Which::Last => entries.rposition(is_match),
    };
    index.map_or_else(|| refuse(40, 0), Ok)
}

/// An entry's value "as a part of the text room itself"; "the part of length 0 at
/// the start" where `value_check` refuses.
pub fn value<'a>(
    index: usize,
    text: &'a [u8],
    sections: &[usize],
    section_count: usize,
    entries: &[usize],
    entry_count: usize,
) -> &'a [u8] {
    match value_check(index, text, sections, section_count, entries, entry_count) {
        Ok(part) => &text[part.start..][..part.length],
        Err(_) => &text[..0],
    }
}

/// Where an entry's value lies: 41 for any faulty record, then 40 for an index
/// that is not below the count.
pub fn value_check(
    index: usize,
    text: &[u8],
    sections: &[usize],
    section_count: usize,
    entries: &[usize],
    entry_count: usize,
) -> Result<Part, Refusal> {
    let table = Table::checked(text, sections, section_count, entries, entry_count)?;
    match table.entries.chunks_exact(ENTRY_RECORD).nth(index) {
        Some(entry) => Ok(Part {
            start: entry[3],
            length: entry[4],
        }),
        None => refuse(40, 0),
    }
}
