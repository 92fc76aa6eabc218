//! Time spans next to the largest one: for each unit, in sums, of many parts and of many digits.

use crate::buffers::text_case;
use crate::case::{Call, Case};
use crate::random::Random;
use crate::values::{spell, LARGEST, UNITS};

/// The units, and none, which is seconds.
pub const KINDS: [(&[u8], u128); 8] = {
    let none: &[u8] = b"";
    let mut kinds = [(none, 1_000_000); 8];
    let mut at = 0;
    while at < UNITS.len() {
        kinds[at] = UNITS[at];
        at += 1;
    }
    kinds
};

/// The largest number of a unit that is accepted.
pub fn most(unit: u128) -> u128 {
    LARGEST / unit
}

/// Leading zeros of a number.
const ZEROS: [usize; 5] = [0, 1, 20, 400, 5000];
/// How many numbers of each unit are tried: the last two accepted ones and the first two refused ones.
const NUMBERS: usize = 4;
/// How many cases `listed` has.
pub const LISTED: usize = KINDS.len() * NUMBERS * ZEROS.len();

/// Each unit with the numbers next to its largest, with leading zeros.
pub fn listed(index: usize, random: &mut Random) -> Case {
    let (name, unit) = KINDS[index % KINDS.len()];
    let left = index / KINDS.len();
    let number = most(unit) - 1 + (left % NUMBERS) as u128;
    let zeros = vec![b'0'; ZEROS[left / NUMBERS]];
    let text = [&zeros, number.to_string().as_bytes(), name].concat();
    text_case(random, Call::Span, text)
}

/// One number of a unit next to its largest, with blanks and thousands of leading zeros.
fn one_part(random: &mut Random) -> Vec<u8> {
    let (name, unit) = random.pick(&KINDS);
    let number = most(unit) - 1 + random.below(NUMBERS) as u128;
    let zeros = random.between(0, 9000);
    let (before, between) = (random.blanks(2), random.blanks(2));
    let digits = [vec![b'0'; zeros], number.to_string().into_bytes()].concat();
    [before, digits, between, name.to_vec()].concat()
}

/// The most of a unit and what is left in microseconds, or a little less or more, in any order.
fn two_parts(random: &mut Random) -> Vec<u8> {
    let (name, unit) = random.pick(&UNITS);
    let left = LARGEST % unit + random.below(4) as u128;
    let mut parts = [(most(unit), name), (left.saturating_sub(1), &b"us"[..])];
    if random.one_in(2) {
        parts.reverse();
    }
    spell(random, &parts)
}

/// So many parts; their sum is small, or next to the largest span.
fn many_parts(random: &mut Random, count: usize) -> Vec<u8> {
    let mut left = LARGEST - 2 + random.below(6) as u128;
    let mut parts = Vec::new();
    for _ in 0..count {
        let (name, unit) = random.pick(&UNITS);
        let number = random.below(1000) as u128;
        parts.push((number, name));
        left -= number * unit;
    }
    if random.one_in(2) {
        let at = random.between(0, parts.len());
        parts.insert(at, (left, b"us"));
    }
    spell(random, &parts)
}

/// A case with a span next to the largest, or of many parts.
pub fn drawn(random: &mut Random) -> Case {
    let count = random.pick(&[10, 100, 1000]);
    let text = match random.below(4) {
        0 | 1 => one_part(random),
        2 => two_parts(random),
        _ => many_parts(random, count),
    };
    text_case(random, Call::Span, text)
}
