//! Look-up in large tables, whose names and keys differ in the last byte or in their length alone.

use crate::case::{Call, Case};
use crate::limits::{ENTRIES, SECTIONS};
use crate::random::Random;
use crate::tables::{ask, question, record, with_damage};

/// How the parts of a table differ from each other.
#[derive(Clone, Copy)]
enum Names {
    LastByte,
    Length,
}
const NAMES: [Names; 2] = [Names::LastByte, Names::Length];

/// Adds to the text what 256 names, or those of so many lengths, are parts of; answers where it starts.
fn put_names(text: &mut Vec<u8>, names: Names, stem: &[u8]) -> usize {
    let start = text.len();
    match names {
        Names::LastByte => {
            for byte in 0..=0xff {
                text.extend_from_slice(stem);
                text.push(byte);
            }
        }
        Names::Length => text.extend(vec![stem[0]; ENTRIES]),
    }
    start
}

/// The record of one of these names. Those that differ in the last byte come again after 256.
fn name_record(names: Names, start: usize, stem: &[u8], index: usize) -> [usize; 2] {
    let size = stem.len() + 1;
    match names {
        Names::LastByte => [start + size * (index % 256), size],
        Names::Length => [start + ENTRIES - index, index],
    }
}

/// A table of so many sections and entries; `place` says which section and which key an entry has.
fn put_table(
    case: &mut Case,
    names: Names,
    (sections, entries): (usize, usize),
    mut place: impl FnMut(usize) -> (usize, usize),
) {
    let (name_stem, key_stem) = (b"a section ", b"key");
    let name_start = put_names(&mut case.text, names, name_stem);
    let key_start = put_names(&mut case.text, names, key_stem);
    for index in 0..sections {
        let name = name_record(names, name_start, name_stem, index);
        case.sections.extend(name);
    }
    for index in 0..entries {
        let (section, key) = place(index);
        case.entries.push(section);
        case.entries
            .extend(name_record(names, key_start, key_stem, key));
        case.entries.extend([index, index % 7]);
    }
    (case.section_count, case.entry_count) = (sections, entries);
}

/// A case with a sound large table, mostly full, with few keys or many.
pub fn drawn(random: &mut Random) -> Case {
    let mut case = question(random);
    let (some_sections, some_entries) = (random.between(1, SECTIONS), random.between(1, ENTRIES));
    let sections = random.pick(&[SECTIONS, SECTIONS, some_sections, 1]);
    let entries = random.pick(&[ENTRIES, ENTRIES, some_entries]);
    let keys = random.pick(&[1, 8, 256, ENTRIES]);
    let names = random.pick(&NAMES);
    put_table(&mut case, names, (sections, entries), |_| {
        (random.below(sections), random.below(keys))
    });
    let length = case.text.len();
    let value = 5 * random.below(entries) + 3;
    case.entries[value..value + 2].copy_from_slice(&record(random, length));
    ask(random, &mut case);
    case
}

/// A case with a damaged large table.
pub fn damaged(random: &mut Random) -> Case {
    let case = drawn(random);
    with_damage(random, case)
}

/// A full table in which no two entries have the same section and key, and a question for one of them.
fn full_table(random: &mut Random, names: Names, asked: usize) -> Case {
    let mut case = question(random);
    let place = |index| (index * SECTIONS / ENTRIES, index);
    put_table(&mut case, names, (SECTIONS, ENTRIES), place);
    let part = |record: &[usize]| case.text[record[0]..][..record[1]].to_vec();
    case.section = part(&case.sections[2 * place(asked).0..]);
    case.key = part(&case.entries[5 * asked + 1..]);
    case.index = asked;
    case
}

/// The questions: call, and which entry.
const QUESTIONS: [(Call, usize); 4] = [
    (Call::Find, 0),
    (Call::Find, 1),
    (Call::Value, 0),
    (Call::ValueCheck, 0),
];

/// How many cases `listed` has.
pub const LISTED: usize = ENTRIES * QUESTIONS.len() * NAMES.len();

/// Each entry of a full table is asked for, in each way.
pub fn listed(index: usize, random: &mut Random) -> Case {
    let (question, left) = (index % QUESTIONS.len(), index / QUESTIONS.len());
    let names = NAMES[left % NAMES.len()];
    let (call, which) = QUESTIONS[question];
    Case {
        call,
        which,
        ..full_table(random, names, left / NAMES.len())
    }
}

/// Numbers that can be wrong by themselves: the section index, and the lengths of key, value and name.
const FIELDS: [usize; 3] = [0, 2, 4];
const DAMAGES: usize = FIELDS.len() * ENTRIES + SECTIONS;

/// How many cases `damaged_listed` has.
pub const DAMAGED_LISTED: usize = DAMAGES * QUESTIONS.len();

/// Each record of a full table is damaged, and any entry is asked for.
pub fn damaged_listed(index: usize, random: &mut Random) -> Case {
    let (call, which) = QUESTIONS[index % QUESTIONS.len()];
    let damage = index / QUESTIONS.len();
    let names = random.pick(&NAMES);
    let asked = random.below(ENTRIES);
    let mut case = full_table(random, names, asked);
    (case.call, case.which) = (call, which);
    let outside = case.text.len() + 1;
    match damage.checked_sub(FIELDS.len() * ENTRIES) {
        Some(section) => case.sections[2 * section + 1] = outside,
        None => case.entries[5 * (damage / FIELDS.len()) + FIELDS[damage % FIELDS.len()]] = outside,
    }
    case
}
