//! Tables for look-up: read from files, drawn by hand, and damaged.

use havtsulen::{ENTRY_NUMBERS, SECTION_NUMBERS, TEXT_BYTES};

use crate::buffers::text_case;
use crate::case::{Call, Case};
use crate::files::grammar;
use crate::random::Random;

/// A question of look-up, with an empty table.
pub fn question(random: &mut Random) -> Case {
    let call = random.pick(&[Call::Find, Call::Find, Call::Value, Call::ValueCheck]);
    let far = random.far_from(0);
    let which = random.pick(&[0, 0, 0, 1, 1, 2, 1 << 8, 1 << 16, far, usize::MAX]);
    Case {
        which,
        ..text_case(random, call, Vec::new())
    }
}

/// The part of the text with this record; nothing where it points outside.
fn part<'a>(text: &'a [u8], record: &[usize]) -> &'a [u8] {
    let rest = text.get(record[0]..).unwrap_or(b"");
    rest.get(..record[1]).unwrap_or(b"")
}

/// Asks for an entry that is there, or for parts of two entries, or for another name.
pub fn ask(random: &mut Random, case: &mut Case) {
    let index = random.below(case.entry_count.max(1));
    let far = random.far_from(index);
    case.index = match random.below(8) {
        0 => random.pick(&[case.entry_count, usize::MAX, case.entry_count + 1, far, far]),
        _ => index,
    };
    if case.entry_count == 0 {
        return;
    }
    let [first, second] = [(); 2].map(|()| 5 * random.below(case.entry_count));
    let section = 2 * case.entries[first];
    case.section = part(&case.text, &case.sections[section..]).to_vec();
    let key = if random.one_in(6) { second } else { first };
    case.key = part(&case.text, &case.entries[key + 1..]).to_vec();
    match random.below(12) {
        0 => case.key.push(b'x'),
        1 => drop(case.section.pop()),
        _ => {}
    }
}

/// A table as the reader leaves it, in buffers of its size and a little more.
fn from_file(random: &mut Random) -> Case {
    let file = grammar(random);
    let mut case = question(random);
    let mut text = random.bytes(TEXT_BYTES);
    let mut sections = random.numbers(SECTION_NUMBERS);
    let mut entries = random.numbers(ENTRY_NUMBERS);
    let read = reference::read(&file, &mut text, &mut sections, &mut entries);
    let Ok(counts) = read else {
        return by_hand(random);
    };
    text.truncate(counts.text + random.below(20));
    sections.truncate(2 * counts.sections + random.below(5));
    entries.truncate(5 * counts.entries + random.below(8));
    (case.section_count, case.entry_count) = (counts.sections, counts.entries);
    (case.text, case.sections, case.entries) = (text, sections, entries);
    case
}

/// A record inside a text of this length.
pub fn record(random: &mut Random, length: usize) -> [usize; 2] {
    let start = random.between(0, length);
    let most = (length - start).min(3);
    [start, random.between(0, most)]
}

/// A small table of overlapping parts of a text of two letters: names and keys often are the same.
fn by_hand(random: &mut Random) -> Case {
    let mut case = question(random);
    let length = random.between(0, 16);
    case.text = random.word(b"ab", length);
    let counts = (random.between(1, 4), random.between(0, 9));
    put_records(random, &mut case, counts);
    case
}

/// Puts so many sections and entries, at least one section, whose names, keys and values are short parts of
/// the text anywhere.
pub fn put_records(random: &mut Random, case: &mut Case, (sections, entries): (usize, usize)) {
    let length = case.text.len();
    for _ in 0..sections {
        case.sections.extend(record(random, length));
    }
    for _ in 0..entries {
        case.entries.push(random.below(sections));
        case.entries.extend(record(random, length));
        case.entries.extend(record(random, length));
    }
    (case.section_count, case.entry_count) = (sections, entries);
}

/// A case with a sound table.
pub fn drawn(random: &mut Random) -> Case {
    let mut case = if random.one_in(3) {
        from_file(random)
    } else {
        by_hand(random)
    };
    ask(random, &mut case);
    case
}

/// A number that may be out of place where `old` was: at the edges of the buffers, or so large that sums
/// wrap, or far from the old one.
fn odd_number(random: &mut Random, case: &Case, old: usize) -> usize {
    let length = case.text.len();
    let (small, any) = (random.below(4), random.bits() as usize);
    let far = random.far_from(old);
    random.pick(&[
        length,
        length + 1,
        length.saturating_sub(small),
        case.section_count,
        case.section_count.wrapping_sub(1),
        usize::MAX,
        usize::MAX - small,
        usize::MAX - length,
        usize::MAX / 2 + 1,
        far,
        far,
        any,
    ])
}

/// A count that may pass its buffer of records of this size, also by wrapping.
fn odd_count(random: &mut Random, numbers: usize, size: usize) -> usize {
    let (small, any) = (random.below(3), random.bits() as usize);
    let far = random.far_from(numbers / size);
    random.pick(&[
        numbers / size,
        numbers / size + 1,
        numbers,
        small,
        usize::MAX - small,
        usize::MAX / size + small,
        usize::MAX / 2 + 1,
        far,
        any,
    ])
}

/// A record whose sum is a place inside the text if it wraps at 64 bits, is cut to 32, or has a sign.
fn wrap_record(random: &mut Random, record: &mut [usize]) {
    let (half, small) = (1 << 63, random.below(3));
    if random.one_in(4) {
        record[..2].copy_from_slice(&[half + small, half + random.below(3)]);
        return;
    }
    let end: usize = random.pick(&[0, 0, 1 << 32, half]);
    record[0] = end.wrapping_sub(random.between(1, 20));
    record[1] = end.wrapping_sub(record[0]) + small;
}

fn damage(random: &mut Random, case: &mut Case) {
    let (sections, entries) = (case.sections.len(), case.entries.len());
    match random.below(8) {
        0 | 1 if sections > 0 => {
            let at = random.below(sections);
            case.sections[at] = odd_number(random, case, case.sections[at]);
        }
        2 | 3 if entries > 0 => {
            let at = random.below(entries);
            case.entries[at] = odd_number(random, case, case.entries[at]);
        }
        4 if sections > 1 => {
            let at = 2 * random.below(sections / 2);
            wrap_record(random, &mut case.sections[at..]);
        }
        5 if entries > 4 => {
            let at = 5 * random.below(entries / 5) + random.pick(&[1, 3]);
            wrap_record(random, &mut case.entries[at..]);
        }
        6 => case.section_count = odd_count(random, sections, 2),
        7 => case.entry_count = odd_count(random, entries, 5),
        _ => cut(random, case),
    }
}

/// Shortens one of the buffers.
fn cut(random: &mut Random, case: &mut Case) {
    let less = random.between(1, 3);
    match random.below(3) {
        0 => case.text.truncate(case.text.len().saturating_sub(less)),
        1 => case
            .sections
            .truncate(case.sections.len().saturating_sub(less)),
        _ => case
            .entries
            .truncate(case.entries.len().saturating_sub(less)),
    }
}

/// The case with its table damaged once or twice.
pub fn with_damage(random: &mut Random, mut case: Case) -> Case {
    for _ in 0..random.between(1, 2) {
        damage(random, &mut case);
    }
    case
}

/// A case with a damaged table.
pub fn damaged(random: &mut Random) -> Case {
    let case = drawn(random);
    with_damage(random, case)
}
