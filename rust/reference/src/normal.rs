//! The normal text of a file.

use crate::bytes::ends_in_odd_run;
use crate::table::{read, ENTRY_RECORD, MAX_SECTIONS, SECTION_RECORD};
use crate::{refuse, Refusal, Sizes, NORMAL_BYTES};

/// Reads a file into the reader's buffers and writes its normal text; refuses as
/// the reader does.
pub fn normal_text(
    file: &[u8],
    text: &mut [u8],
    sections: &mut [usize],
    entries: &mut [usize],
    out: &mut [u8],
) -> Result<Sizes, Refusal> {
    if out.len() < NORMAL_BYTES {
        return refuse(1, 0);
    }
    let table = read(file, text, sections, entries)?;
    let length = write_table(
        &text[..table.text],
        &sections[..table.sections * SECTION_RECORD],
        &entries[..table.entries * ENTRY_RECORD],
        out,
    );
    Ok(Sizes { length, table })
}

/// Writes "[", name, "]", LF for each section, then its entries as key, "=", value,
/// LF, and says how long all is. The sections are measured first; then each entry,
/// in one pass, goes to where its own section has got to. The text always fits:
/// no line is longer than the one in the file it comes from, its LF included.
fn write_table(text: &[u8], sections: &[usize], entries: &[usize], out: &mut [u8]) -> usize {
    let mut cursors = [0; MAX_SECTIONS];
    let length = section_starts(text, sections, entries, &mut cursors);
    for (cursor, section) in cursors
        .iter_mut()
        .zip(sections.chunks_exact(SECTION_RECORD))
    {
        put(out, cursor, b"[");
        put(out, cursor, part(text, section));
        put(out, cursor, b"]\n");
    }
    for entry in entries.chunks_exact(ENTRY_RECORD) {
        let cursor = &mut cursors[entry[0]];
        let value = part(text, &entry[3..]);
        put(out, cursor, part(text, &entry[1..]));
        put(out, cursor, b"=");
        put(out, cursor, value);
        put(out, cursor, line_end(value));
    }
    length
}

/// Finds where each section starts in the normal text, and the length of it all.
fn section_starts(
    text: &[u8],
    sections: &[usize],
    entries: &[usize],
    starts: &mut [usize; MAX_SECTIONS],
) -> usize {
    for (size, section) in starts.iter_mut().zip(sections.chunks_exact(SECTION_RECORD)) {
        *size = section[1] + "[]\n".len();
    }
    for entry in entries.chunks_exact(ENTRY_RECORD) {
        let value = part(text, &entry[3..]);
        starts[entry[0]] += entry[2] + "=".len() + value.len() + line_end(value).len();
    }
    let mut length = 0;
    for start in starts {
        let size = *start;
        *start = length;
        length += size;
    }
    length
}

/// "A joined text that ends in an odd run of backslashes gets one space before LF."
fn line_end(value: &[u8]) -> &'static [u8] {
    if ends_in_odd_run(value) {
        b" \n"
    } else {
        b"\n"
    }
}

/// The part of the text that two numbers of a record, start and length, name.
fn part<'a>(text: &'a [u8], numbers: &[usize]) -> &'a [u8] {
    &text[numbers[0]..][..numbers[1]]
}

/// Puts bytes at the cursor and moves it behind them.
fn put(out: &mut [u8], cursor: &mut usize, bytes: &[u8]) {
    out[*cursor..][..bytes.len()].copy_from_slice(bytes);
    *cursor += bytes.len();
}
