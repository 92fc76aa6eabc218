//! The table: headers and entries of the logical lines.

use crate::bytes::{check_file, trim, trim_end, trim_start};
use crate::lines::Joiner;
use crate::{refuse, Counts, Refusal, ENTRY_NUMBERS, SECTION_NUMBERS, TEXT_BYTES};

/// Numbers of a section record: start and length of its name.
pub const SECTION_RECORD: usize = 2;
/// Numbers of an entry record: section index, key start, key length, value start,
/// value length.
pub const ENTRY_RECORD: usize = 5;
/// The most sections of a file.
pub const MAX_SECTIONS: usize = SECTION_NUMBERS / SECTION_RECORD;
/// The most entries of a file.
const MAX_ENTRIES: usize = ENTRY_NUMBERS / ENTRY_RECORD;

/// Reads a file into the three buffers. The table is drafted in local arrays, so
/// that a late faulty line finds the buffers untouched.
pub fn read(
    file: &[u8],
    text: &mut [u8],
    sections: &mut [usize],
    entries: &mut [usize],
) -> Result<Counts, Refusal> {
    if text.len() < TEXT_BYTES || sections.len() < SECTION_NUMBERS || entries.len() < ENTRY_NUMBERS
    {
        return refuse(1, 0);
    }
    check_file(file)?;
    let mut draft = Draft {
        text: [0; TEXT_BYTES],
        sections: [0; SECTION_NUMBERS],
        entries: [0; ENTRY_NUMBERS],
        counts: Counts {
            text: 0,
            sections: 0,
            entries: 0,
        },
        current: None,
    };
    let mut joiner = Joiner::new(file);
    while let Some(line) = joiner.next_logical()? {
        let place = line.place;
        draft
            .add_line(trim(line.bytes))
            .map_err(|number| Refusal { number, place })?;
    }
    draft.copy_to(text, sections, entries);
    Ok(draft.counts)
}

/// A table in the making. Its text has room for every file: each name and each
/// entry takes fewer bytes than the line it stands in.
struct Draft {
    text: [u8; TEXT_BYTES],
    sections: [usize; SECTION_NUMBERS],
    entries: [usize; ENTRY_NUMBERS],
    counts: Counts,
    /// Index of the section that the last header opened.
    current: Option<usize>,
}

impl Draft {
    /// Takes in a trimmed logical line, or says the number of its refusal.
    fn add_line(&mut self, line: &[u8]) -> Result<(), usize> {
        match line.first() {
            None => Ok(()),
            Some(b'[') => self.open_section(header_name(line)?),
            Some(_) => {
                let (key, value) = key_and_value(line)?;
                self.add_entry(key, value)
            }
        }
    }

    /// "A heading seen before continues its earlier section", another one is new.
    fn open_section(&mut self, name: &[u8]) -> Result<(), usize> {
        let known = self.sections[..self.counts.sections * SECTION_RECORD]
            .chunks_exact(SECTION_RECORD)
            .position(|record| self.text[record[0]..][..record[1]] == *name);
        let index = match known {
            Some(index) => index,
            None => self.add_section(name)?,
        };
        self.current = Some(index);
        Ok(())
    }

    /// Adds a new section; the 65th is refusal 10.
    fn add_section(&mut self, name: &[u8]) -> Result<usize, usize> {
        let index = self.counts.sections;
        if index == MAX_SECTIONS {
            return Err(10);
        }
        let start = self.add_text(name);
        self.sections[index * SECTION_RECORD..][..SECTION_RECORD]
            .copy_from_slice(&[start, name.len()]);
        self.counts.sections += 1;
        Ok(index)
    }

    /// Adds an entry: refusal 9 before any header, 10 for the 513th.
    fn add_entry(&mut self, key: &[u8], value: &[u8]) -> Result<(), usize> {
        let section = self.current.ok_or(9_usize)?;
        let index = self.counts.entries;
        if index == MAX_ENTRIES {
            return Err(10);
        }
        let key_start = self.add_text(key);
        let value_start = self.add_text(value);
        self.entries[index * ENTRY_RECORD..][..ENTRY_RECORD].copy_from_slice(&[
            section,
            key_start,
            key.len(),
            value_start,
            value.len(),
        ]);
        self.counts.entries += 1;
        Ok(())
    }

    /// Puts bytes at the end of the text and says where they start.
    fn add_text(&mut self, bytes: &[u8]) -> usize {
        let start = self.counts.text;
        self.text[start..][..bytes.len()].copy_from_slice(bytes);
        self.counts.text += bytes.len();
        start
    }

    /// Hands the finished table over; "all else in the rooms stays".
    fn copy_to(&self, text: &mut [u8], sections: &mut [usize], entries: &mut [usize]) {
        let bytes = self.counts.text;
        text[..bytes].copy_from_slice(&self.text[..bytes]);
        let numbers = self.counts.sections * SECTION_RECORD;
        sections[..numbers].copy_from_slice(&self.sections[..numbers]);
        let numbers = self.counts.entries * ENTRY_RECORD;
        entries[..numbers].copy_from_slice(&self.entries[..numbers]);
    }
}

/// The name of a header: "it ends with ], and the name between has one or more
/// bytes 20 to 7E, none of them [ or ]"; otherwise refusal 6.
fn header_name(line: &[u8]) -> Result<&[u8], usize> {
    let name = line
        .strip_prefix(b"[")
        .and_then(|rest| rest.strip_suffix(b"]"))
        .ok_or(6_usize)?;
    let is_name_byte = |&b: &u8| matches!(b, 0x20..=0x7e) && b != b'[' && b != b']';
    if name.is_empty() || !name.iter().all(is_name_byte) {
        return Err(6);
    }
    Ok(name)
}

/// Key and value of an entry, "split at the first =. Blanks next to that = are
/// dropped"; refusal 7 without a =, 8 for a bad key.
fn key_and_value(line: &[u8]) -> Result<(&[u8], &[u8]), usize> {
    let equals = line.iter().position(|&b| b == b'=').ok_or(7_usize)?;
    let key = trim_end(&line[..equals]);
    let is_key_byte = |&b: &u8| b.is_ascii_alphanumeric() || matches!(b, b'-' | b'_' | b'.');
    if key.is_empty() || !key.iter().all(is_key_byte) {
        return Err(8);
    }
    Ok((key, trim_start(&line[equals + 1..])))
}
