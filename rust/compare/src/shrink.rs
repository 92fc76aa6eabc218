//! Shortens a case for which two sides differ, as long as they still do.

use crate::case::{Call, Case};

/// How many shorter inputs are tried at most.
const TRIALS: usize = 20_000;

/// Drops halves, quarters, .. and single elements for which `differs` stays true.
pub fn shorten<T: Clone>(input: &[T], mut differs: impl FnMut(&[T]) -> bool) -> Vec<T> {
    let mut trials = TRIALS;
    let mut differs = |part: &[T]| {
        trials = trials.saturating_sub(1);
        trials > 0 && differs(part)
    };
    let mut kept = input.to_vec();
    let mut size = kept.len().div_ceil(2);
    while size > 0 {
        let before = kept.len();
        drop_parts(&mut kept, size, &mut differs);
        let again = size == 1 && kept.len() < before;
        if !again {
            size /= 2;
        }
    }
    kept
}

/// Drops each part of this size that is not needed, from the left.
fn drop_parts<T: Clone>(kept: &mut Vec<T>, size: usize, differs: &mut impl FnMut(&[T]) -> bool) {
    let mut start = 0;
    while start < kept.len() {
        let end = kept.len().min(start + size);
        let without = [&kept[..start], &kept[end..]].concat();
        if differs(&without) {
            *kept = without;
        } else {
            start = end;
        }
    }
}

/// Shortens all that is lent to a case.
pub fn shorten_case(case: &Case, differs: impl Fn(&Case) -> bool) -> Case {
    let mut kept = match case.call {
        Call::Find | Call::Value | Call::ValueCheck => shorten_table(case, &differs),
        Call::Write => shorten_list(case, &differs),
        _ => case.clone(),
    };
    for (_, of, change) in case.lent_numbers() {
        let numbers = of(&kept).clone();
        let short = shorten(&numbers, |part| differs(&changed(&kept, *change, part)));
        *change(&mut kept) = short;
    }
    for (_, of, change) in case.lent_bytes() {
        let bytes = of(&kept).clone();
        let short = shorten(&bytes, |part| differs(&changed(&kept, *change, part)));
        *change(&mut kept) = short;
    }
    kept
}

/// A copy of the case with another vector in one field.
fn changed<T: Clone>(case: &Case, field: fn(&mut Case) -> &mut Vec<T>, part: &[T]) -> Case {
    let mut case = case.clone();
    *field(&mut case) = part.to_vec();
    case
}

/// A list as a sequence, in which a byte and an end can be dropped each by itself.
#[derive(Clone, Copy)]
enum Token {
    Byte(u8),
    End,
}

/// Drops bytes and items of a list. One whose ends fall or pass the bytes stays.
fn shorten_list(case: &Case, differs: &impl Fn(&Case) -> bool) -> Case {
    if !case.ends.is_sorted()
        || case
            .ends
            .last()
            .is_some_and(|&last| last > case.bytes.len())
    {
        return case.clone();
    }
    let mut tokens = Vec::new();
    for offset in 0..=case.bytes.len() {
        let ends = case.ends.iter().filter(|&&end| end == offset);
        tokens.extend(ends.map(|_| Token::End));
        tokens.extend(case.bytes.get(offset).copied().map(Token::Byte));
    }
    with_list(
        case,
        &shorten(&tokens, |part| differs(&with_list(case, part))),
    )
}

/// The case with the list of these tokens.
fn with_list(case: &Case, tokens: &[Token]) -> Case {
    let (mut bytes, mut ends) = (Vec::new(), Vec::new());
    for &token in tokens {
        match token {
            Token::Byte(byte) => bytes.push(byte),
            Token::End => ends.push(bytes.len()),
        }
    }
    Case {
        bytes,
        ends,
        ..case.clone()
    }
}

/// Drops records of a table whose counts do not pass its buffers, and lowers the counts with them.
fn shorten_table(case: &Case, differs: &impl Fn(&Case) -> bool) -> Case {
    let with_entries = |case: &Case, records: &[Vec<usize>]| Case {
        entries: records.concat(),
        entry_count: records.len(),
        ..case.clone()
    };
    let with_sections = |case: &Case, records: &[Vec<usize>]| Case {
        sections: records.concat(),
        section_count: records.len(),
        ..case.clone()
    };
    let mut kept = case.clone();
    if let Some(records) = records(&case.entries, case.entry_count, 5) {
        let short = shorten(&records, |part| differs(&with_entries(&kept, part)));
        if short.len() < records.len() {
            kept = with_entries(&kept, &short);
        }
    }
    if let Some(records) = records(&case.sections, case.section_count, 2) {
        let short = shorten(&records, |part| differs(&with_sections(&kept, part)));
        if short.len() < records.len() {
            kept = with_sections(&kept, &short);
        }
    }
    kept
}

/// The records among the count, each with its numbers.
fn records(numbers: &[usize], count: usize, size: usize) -> Option<Vec<Vec<usize>>> {
    let counted = numbers.get(..count.checked_mul(size)?)?;
    Some(counted.chunks_exact(size).map(<[usize]>::to_vec).collect())
}
