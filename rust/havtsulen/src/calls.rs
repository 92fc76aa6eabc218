//! The calls with lent buffers. All `unsafe` of the crate is here: one block for each shape of call.

use crate::raw;
use crate::{Counts, Error, Items, Part, Sizes, Which, REPORT_NUMBERS};

type Report = [usize; REPORT_NUMBERS];

/// What a call has answered: its report, or the refusal with this number.
fn answer(number: usize, report: Report) -> Result<Report, Error> {
    match number {
        0 => Ok(report),
        _ => {
            Err(Error::new(number, report[0]).expect("the library gives the refusals of its list"))
        }
    }
}

/// A call that lends one text, and the report.
#[derive(Clone, Copy)]
enum TextCall {
    WellFormedLength,
    CheckFile,
    Boolean,
    Span,
}

fn on_text(call: TextCall, text: &[u8]) -> Result<Report, Error> {
    let call = match call {
        TextCall::WellFormedLength => raw::havtsulen_well_formed_length,
        TextCall::CheckFile => raw::havtsulen_check_file,
        TextCall::Boolean => raw::havtsulen_boolean,
        TextCall::Span => raw::havtsulen_span,
    };
    let mut report = [0; REPORT_NUMBERS];
    // SAFETY: pointers and lengths are those of live slices, and only the report, a local, is written.
    let number = unsafe { call(text.as_ptr(), text.len(), report.as_mut_ptr(), report.len()) };
    answer(number, report)
}

/// The length of the longest start of `text` that is well-formed UTF-8.
///
/// ```
/// assert_eq!(havtsulen::well_formed_length("né".as_bytes()), 3);
/// assert_eq!(havtsulen::well_formed_length(b"n\xc3"), 1);
/// ```
pub fn well_formed_length(text: &[u8]) -> usize {
    on_text(TextCall::WellFormedLength, text).expect("never refused")[0]
}

/// Judges the refusals 2, 3 and 4 over a whole file.
///
/// ```
/// assert_eq!(havtsulen::check_file(b"[A]\nK=1\n"), Ok(()));
/// assert_eq!(havtsulen::check_file(b"[A]\r\n").unwrap_err().number(), 4);
/// ```
pub fn check_file(file: &[u8]) -> Result<(), Error> {
    on_text(TextCall::CheckFile, file).map(|_| ())
}

/// A boolean: `1`, `yes`, `true`, `on`, or `0`, `no`, `false`, `off`, exactly.
///
/// ```
/// assert_eq!(havtsulen::boolean(b"on"), Ok(true));
/// assert_eq!(havtsulen::boolean(b"On"), Err(havtsulen::Error::NoBoolean));
/// ```
pub fn boolean(text: &[u8]) -> Result<bool, Error> {
    on_text(TextCall::Boolean, text).map(|report| report[0] != 0)
}

/// A time span, in microseconds.
///
/// ```
/// assert_eq!(havtsulen::span(b"2min 200ms"), Ok(120_200_000));
/// assert_eq!(havtsulen::span(b"5 20"), Err(havtsulen::Error::SpanForm));
/// ```
pub fn span(text: &[u8]) -> Result<u64, Error> {
    on_text(TextCall::Span, text).map(|report| report[0] as u64)
}

/// Reads a file into a table: `text` of at least [`TEXT_BYTES`](crate::TEXT_BYTES), `sections` of
/// [`SECTION_NUMBERS`](crate::SECTION_NUMBERS) and `entries` of [`ENTRY_NUMBERS`](crate::ENTRY_NUMBERS).
///
/// A section has two numbers: start and length of its name in `text`. An entry has five: the index of
/// its section, start and length of its key, start and length of its value. What the counts do not
/// cover stays as it was.
///
/// ```
/// use havtsulen::{ENTRY_NUMBERS, SECTION_NUMBERS, TEXT_BYTES};
///
/// let mut text = vec![0; TEXT_BYTES];
/// let (mut sections, mut entries) = (vec![0; SECTION_NUMBERS], vec![0; ENTRY_NUMBERS]);
/// let counts = havtsulen::read(b"[A]\n K = a=b ", &mut text, &mut sections, &mut entries)?;
/// assert_eq!((counts.text, counts.sections, counts.entries), (5, 1, 1));
/// assert_eq!(&text[..5], b"AKa=b");
/// assert_eq!((&sections[..2], &entries[..5]), (&[0, 1][..], &[0, 1, 1, 2, 3][..]));
/// # Ok::<(), havtsulen::Error>(())
/// ```
pub fn read(
    file: &[u8],
    text: &mut [u8],
    sections: &mut [usize],
    entries: &mut [usize],
) -> Result<Counts, Error> {
    let mut report = [0; REPORT_NUMBERS];
    // SAFETY: pointers and lengths are those of live slices; the ones written to are borrowed alone.
    let number = unsafe {
        raw::havtsulen_read(
            file.as_ptr(),
            file.len(),
            text.as_mut_ptr(),
            text.len(),
            sections.as_mut_ptr(),
            sections.len(),
            entries.as_mut_ptr(),
            entries.len(),
            report.as_mut_ptr(),
            report.len(),
        )
    };
    answer(number, report).map(|[text, sections, entries, _]| Counts {
        text,
        sections,
        entries,
    })
}

/// Writes the normal text of a file into `out`, of at least [`NORMAL_BYTES`](crate::NORMAL_BYTES). The other
/// three buffers are those of [`read`] and then hold the file's table.
///
/// [`normal`](crate::normal) does the same with buffers of its own.
///
/// ```
/// use havtsulen::{ENTRY_NUMBERS, NORMAL_BYTES, SECTION_NUMBERS, TEXT_BYTES};
///
/// let (mut text, mut out) = (vec![0; TEXT_BYTES], vec![0; NORMAL_BYTES]);
/// let (mut sections, mut entries) = (vec![0; SECTION_NUMBERS], vec![0; ENTRY_NUMBERS]);
/// let file = b"[A]\n K = 1\n";
/// let sizes = havtsulen::normal_text(file, &mut text, &mut sections, &mut entries, &mut out)?;
/// assert_eq!(&out[..sizes.length], b"[A]\nK=1\n");
/// assert_eq!(sizes.table.entries, 1);
/// # Ok::<(), havtsulen::Error>(())
/// ```
pub fn normal_text(
    file: &[u8],
    text: &mut [u8],
    sections: &mut [usize],
    entries: &mut [usize],
    out: &mut [u8],
) -> Result<Sizes, Error> {
    let mut report = [0; REPORT_NUMBERS];
    // SAFETY: pointers and lengths are those of live slices; the ones written to are borrowed alone.
    let number = unsafe {
        raw::havtsulen_normal_text(
            file.as_ptr(),
            file.len(),
            text.as_mut_ptr(),
            text.len(),
            sections.as_mut_ptr(),
            sections.len(),
            entries.as_mut_ptr(),
            entries.len(),
            out.as_mut_ptr(),
            out.len(),
            report.as_mut_ptr(),
            report.len(),
        )
    };
    let [length, text, sections, entries] = answer(number, report)?;
    Ok(Sizes {
        length,
        table: Counts {
            text,
            sections,
            entries,
        },
    })
}

/// The index of the first or the last entry with this section name and this key. The table's buffers
/// may have any size and any contents; a count or a record that points outside is
/// [`Error::FaultyRecord`].
///
/// ```
/// use havtsulen::{find, value, value_check, Error, Which};
///
/// let (text, sections, entries) = (b"AK1K2", [0, 1], [0, 1, 1, 2, 1, 0, 3, 1, 4, 1]);
/// let last = find(b"A", b"K", Which::Last, text, &sections, 1, &entries, 2)?;
/// assert_eq!((last, value(last, text, &sections, 1, &entries, 2)), (1, &b"2"[..]));
/// assert_eq!(value_check(2, text, &sections, 1, &entries, 2), Err(Error::NoEntry));
/// assert_eq!(value_check(0, text, &sections, 1, &entries, 3), Err(Error::FaultyRecord));
/// # Ok::<(), Error>(())
/// ```
#[allow(clippy::too_many_arguments)]
pub fn find(
    section: &[u8],
    key: &[u8],
    which: Which,
    text: &[u8],
    sections: &[usize],
    section_count: usize,
    entries: &[usize],
    entry_count: usize,
) -> Result<usize, Error> {
    let mut report = [0; REPORT_NUMBERS];
    // SAFETY: pointers and lengths are those of live slices, and only the report, a local, is written.
    let number = unsafe {
        raw::havtsulen_find(
            section.as_ptr(),
            section.len(),
            key.as_ptr(),
            key.len(),
            which as usize,
            text.as_ptr(),
            text.len(),
            sections.as_ptr(),
            sections.len(),
            section_count,
            entries.as_ptr(),
            entries.len(),
            entry_count,
            report.as_mut_ptr(),
            report.len(),
        )
    };
    answer(number, report).map(|report| report[0])
}

/// A call that asks for the value of an entry.
#[derive(Clone, Copy)]
enum ValueCall {
    Value,
    ValueCheck,
}

fn on_value(
    call: ValueCall,
    index: usize,
    text: &[u8],
    (sections, section_count): (&[usize], usize),
    (entries, entry_count): (&[usize], usize),
) -> Result<Part, Error> {
    let call = match call {
        ValueCall::Value => raw::havtsulen_value,
        ValueCall::ValueCheck => raw::havtsulen_value_check,
    };
    let mut report = [0; REPORT_NUMBERS];
    // SAFETY: pointers and lengths are those of live slices, and only the report, a local, is written.
    let number = unsafe {
        call(
            index,
            text.as_ptr(),
            text.len(),
            sections.as_ptr(),
            sections.len(),
            section_count,
            entries.as_ptr(),
            entries.len(),
            entry_count,
            report.as_mut_ptr(),
            report.len(),
        )
    };
    answer(number, report).map(|[start, length, ..]| Part { start, length })
}

/// The value of the entry with this index, as a part of `text` itself. Where a record or a count is
/// faulty, or the index is not below the count, it is the empty part at the start;
/// [`value_check`] tells these apart from an empty value.
pub fn value<'a>(
    index: usize,
    text: &'a [u8],
    sections: &[usize],
    section_count: usize,
    entries: &[usize],
    entry_count: usize,
) -> &'a [u8] {
    let sections = (sections, section_count);
    let entries = (entries, entry_count);
    let part = on_value(ValueCall::Value, index, text, sections, entries).expect("never refused");
    &text[part.start..][..part.length]
}

/// Where the value of the entry with this index stands in `text`, or why it has none.
pub fn value_check(
    index: usize,
    text: &[u8],
    sections: &[usize],
    section_count: usize,
    entries: &[usize],
    entry_count: usize,
) -> Result<Part, Error> {
    let sections = (sections, section_count);
    let entries = (entries, entry_count);
    on_value(ValueCall::ValueCheck, index, text, sections, entries)
}

/// Splits a text into items: their bytes one after another in `bytes`, of at least
/// [`ITEM_BYTES`](crate::ITEM_BYTES), and the end of each in `ends`, of [`ITEM_ENDS`](crate::ITEM_ENDS).
///
/// ```
/// let (mut bytes, mut ends) = ([0; havtsulen::ITEM_BYTES], [0; havtsulen::ITEM_ENDS]);
/// let items = havtsulen::split(br#""a b" c """#, &mut bytes, &mut ends)?;
/// assert_eq!((items.count, &bytes[..items.length]), (3, &b"a bc"[..]));
/// assert_eq!(ends[..3], [3, 4, 4]);
/// # Ok::<(), havtsulen::Error>(())
/// ```
pub fn split(text: &[u8], bytes: &mut [u8], ends: &mut [usize]) -> Result<Items, Error> {
    let mut report = [0; REPORT_NUMBERS];
    // SAFETY: pointers and lengths are those of live slices; the ones written to are borrowed alone.
    let number = unsafe {
        raw::havtsulen_split(
            text.as_ptr(),
            text.len(),
            bytes.as_mut_ptr(),
            bytes.len(),
            ends.as_mut_ptr(),
            ends.len(),
            report.as_mut_ptr(),
            report.len(),
        )
    };
    answer(number, report).map(|[count, length, ..]| Items { count, length })
}

/// Writes items as a text into `out`, of at least [`WRITE_BYTES`](crate::WRITE_BYTES), and answers its
/// length. There is one item for each end; bytes past the last end are no item.
///
/// ```
/// let mut out = [0; havtsulen::WRITE_BYTES];
/// let length = havtsulen::write(b"a bc", &[3, 4, 4], &mut out)?;
/// assert_eq!(&out[..length], br#""a b" c """#);
/// # Ok::<(), havtsulen::Error>(())
/// ```
pub fn write(bytes: &[u8], ends: &[usize], out: &mut [u8]) -> Result<usize, Error> {
    let mut report = [0; REPORT_NUMBERS];
    // SAFETY: pointers and lengths are those of live slices; the ones written to are borrowed alone.
    let number = unsafe {
        raw::havtsulen_write(
            bytes.as_ptr(),
            bytes.len(),
            ends.as_ptr(),
            ends.len(),
            out.as_mut_ptr(),
            out.len(),
            report.as_mut_ptr(),
            report.len(),
        )
    };
    answer(number, report).map(|report| report[0])
}
