//! Properties of accepted calls that need no second implementation.

use havtsulen::Table;

use crate::case::{Call, Lent};

/// What holds of an accepted call; otherwise what does not, in words.
type Property = fn(&Lent) -> Result<(), &'static str>;

fn property_of(call: Call) -> Option<Property> {
    match call {
        Call::WellFormedLength => Some(as_std_decodes),
        Call::Read => Some(entries_are_found),
        Call::NormalText => Some(normal_of_normal),
        Call::Split => Some(written_and_split),
        Call::Write => Some(items_come_back),
        _ => None,
    }
}

/// Whether there is a property for this call.
pub fn judged(call: Call) -> bool {
    property_of(call).is_some()
}

/// The property that an accepted call of the library breaks; the case is as the call has left it.
pub fn broken(after: &Lent) -> Option<String> {
    let property = property_of(after.call)?;
    property(after).err().map(str::to_string)
}

fn hold(holds: bool, property: &'static str) -> Result<(), &'static str> {
    if holds {
        Ok(())
    } else {
        Err(property)
    }
}

/// The standard library finds the same well-formed start.
fn as_std_decodes(after: &Lent) -> Result<(), &'static str> {
    let length = match std::str::from_utf8(&after.input) {
        Ok(text) => text.len(),
        Err(error) => error.valid_up_to(),
    };
    hold(
        after.report[0] == length,
        "std::str::from_utf8 has another length",
    )
}

/// Entries that a table has are found: the first and the last of their section and key.
fn entries_are_found(after: &Lent) -> Result<(), &'static str> {
    let table = Table::read(&after.input).map_err(|_| "the file is not read again")?;
    let all: Vec<_> = table.entries().collect();
    for entry in all.iter().take(4) {
        let (section, key) = (entry.section, entry.key);
        let mut same = all
            .iter()
            .filter(|other| (other.section, other.key) == (section, key));
        let first = same.next().map(|other| other.value);
        let last = same.next_back().map(|other| other.value).or(first);
        hold(
            table.first(section, key).ok() == first,
            "the first entry is not found",
        )?;
        hold(
            table.last(section, key).ok() == last,
            "the last entry is not found",
        )?;
    }
    Ok(())
}

/// The name of a section, and its pairs of key and value.
type Section<'a> = (&'a [u8], Vec<(&'a [u8], &'a [u8])>);

/// The entries of a table, section by section.
fn by_section(table: &Table) -> Vec<Section<'_>> {
    let of = |name| table.entries().filter(move |entry| entry.section == name);
    let pairs = |name| of(name).map(|entry| (entry.key, entry.value)).collect();
    table.sections().map(|name| (name, pairs(name))).collect()
}

/// The normal text of a normal text is itself, and it holds what the file holds.
fn normal_of_normal(after: &Lent) -> Result<(), &'static str> {
    let normal = &after.out[..after.report[0]];
    let again = havtsulen::normal(normal);
    hold(
        again.as_deref() == Ok(normal),
        "the normal text of the normal text is not itself",
    )?;
    let tables = (Table::read(&after.input), Table::read(normal));
    let (Ok(file), Ok(text)) = tables else {
        return Err("the file, or its normal text, is not read");
    };
    hold(
        by_section(&file) == by_section(&text),
        "the normal text holds other entries",
    )
}

/// The items of a case, by their ends.
fn items_of(case: &Lent, count: usize) -> Vec<Vec<u8>> {
    let starts = [0].into_iter().chain(case.ends.iter().copied());
    let parts = starts.zip(&case.ends[..count]);
    parts
        .map(|(start, &end)| case.bytes[start..end].to_vec())
        .collect()
}

/// What was written is printable, is split into the items that were to be written, and is the value of
/// an entry, if its line is not too long.
fn items_come_back(after: &Lent) -> Result<(), &'static str> {
    let items = items_of(after, after.ends.len());
    let text = &after.out[..after.report[0]];
    let printable = |byte: &u8| (0x20..=0x7e).contains(byte);
    hold(
        text.iter().all(printable),
        "the written text is not printable",
    )?;
    let split = havtsulen::items(text);
    hold(split == Ok(items), "the written items do not come back")?;
    let fits = text.len() + b"K=".len() <= 4096;
    match Table::read(&[b"[A]\nK=", text, b"\n"].concat()) {
        Ok(table) => hold(
            fits && table.last(b"A", b"K") == Ok(text),
            "the written text is not the value of its entry",
        ),
        Err(error) => hold(
            !fits && error == havtsulen::Error::LineTooLong { line: 2 },
            "the written text does not stand in a file",
        ),
    }
}

/// Items that were split, written again and split again, are the same, if their text is not too long.
fn written_and_split(after: &Lent) -> Result<(), &'static str> {
    let items = items_of(after, after.report[0]);
    match havtsulen::list(&items) {
        Ok(text) => hold(
            havtsulen::items(&text) == Ok(items),
            "the split items do not come back",
        ),
        Err(error) => hold(
            error == havtsulen::Error::TextTooLong,
            "split items are not written",
        ),
    }
}
