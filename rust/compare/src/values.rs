//! Texts for booleans and time spans.

use crate::buffers::text_case;
use crate::case::{Call, Case};
use crate::mutate::{mutate, nth_string, strings_up_to};
use crate::random::Random;

const WORDS: [&[u8]; 8] = [b"1", b"yes", b"true", b"on", b"0", b"no", b"false", b"off"];
/// The units and their microseconds.
pub const UNITS: [(&[u8], u128); 7] = [
    (b"us", 1),
    (b"ms", 1_000),
    (b"s", 1_000_000),
    (b"min", 60_000_000),
    (b"h", 3_600_000_000),
    (b"d", 86_400_000_000),
    (b"w", 604_800_000_000),
];
/// Microseconds of the largest span.
pub const LARGEST: u128 = u64::MAX as u128;

/// A boolean, or something near one.
pub fn boolean(random: &mut Random) -> Case {
    let mut text = random.pick(&WORDS).to_vec();
    match random.below(8) {
        0 => mutate(random, &mut text, b"10yestruonfal \t\n"),
        1 => text.make_ascii_uppercase(),
        2 => text.insert(0, b' '),
        3 => text.push(random.pick(b" \t\n\0")),
        _ => {}
    }
    text_case(random, Call::Boolean, text)
}

/// How many cases `boolean_listed` has: each word with each byte at each of five places.
pub const BOOLEAN_LISTED: usize = WORDS.len() * 256 * 5;

/// A word with one byte changed, or put behind it.
pub fn boolean_listed(index: usize, random: &mut Random) -> Case {
    let mut text = WORDS[index % WORDS.len()].to_vec();
    let byte = (index / WORDS.len()) as u8;
    let place = index / WORDS.len() / 256;
    match text.get_mut(place) {
        Some(old) => *old = byte,
        None => text.push(byte),
    }
    text_case(random, Call::Boolean, text)
}

/// Digits of a number, with leading zeros now and then.
fn digits(random: &mut Random, number: u128) -> Vec<u8> {
    let zeros = random.pick(&[0, 0, 0, 0, 1, 30, 300]);
    [vec![b'0'; zeros], number.to_string().into_bytes()].concat()
}

/// A number: small ones, and any up to the largest span.
fn number(random: &mut Random) -> u128 {
    match random.below(6) {
        0 => 0,
        1 => u128::from(random.bits()) >> random.below(64),
        _ => random.below(1000) as u128,
    }
}

/// Parts with blanks before, between and behind them.
pub fn spell(random: &mut Random, parts: &[(u128, &[u8])]) -> Vec<u8> {
    let most = random.pick(&[0, 0, 1, 3]);
    let mut text = random.blanks(most);
    for (number, unit) in parts {
        text.extend(digits(random, *number));
        text.extend(random.blanks(most));
        text.extend_from_slice(unit);
        text.extend(random.blanks(most));
    }
    text
}

/// Parts of any size, in any order of units.
fn any_parts(random: &mut Random) -> Vec<(u128, &'static [u8])> {
    let count = random.pick(&[1, 1, 2, 3, 6]);
    (0..count)
        .map(|_| (number(random), random.pick(&UNITS).0))
        .collect()
}

/// Parts whose sum is at the limit, or next to it.
fn parts_at_limit(random: &mut Random) -> Vec<(u128, &'static [u8])> {
    let mut left = LARGEST - 2 + random.below(6) as u128;
    let mut parts = Vec::new();
    for _ in 0..random.below(5) {
        let (name, unit) = random.pick(&UNITS);
        let most = left / unit;
        let any = u128::from(random.bits()) % (most + 1);
        let number = random.pick(&[most, any]);
        parts.push((number, name));
        left -= number * unit;
    }
    let at = random.between(0, parts.len());
    parts.insert(at, (left, b"us"));
    parts
}

/// Seconds alone: any, at the limit, and numbers of hundreds of digits.
fn seconds(random: &mut Random) -> Vec<u8> {
    let most = LARGEST / 1_000_000;
    let mut text = match random.below(4) {
        0 => {
            let number = most - 1 + random.below(4) as u128;
            digits(random, number)
        }
        1 => {
            let length = random.between(1, 400);
            random.word(b"0123456789", length)
        }
        _ => {
            let number = number(random);
            digits(random, number)
        }
    };
    let (before, after) = (random.blanks(2), random.blanks(2));
    text.splice(0..0, before);
    text.extend(after);
    text
}

fn span_text(random: &mut Random) -> Vec<u8> {
    match random.below(6) {
        0 => seconds(random),
        1 => {
            let parts = parts_at_limit(random);
            spell(random, &parts)
        }
        2 => {
            let mut parts = any_parts(random);
            let huge = random.word(b"0123456789", 200);
            parts[0].0 = LARGEST;
            [spell(random, &parts), huge, random.pick(&UNITS).0.to_vec()].concat()
        }
        _ => {
            let parts = any_parts(random);
            spell(random, &parts)
        }
    }
}

/// A time span of the grammar.
pub fn span(random: &mut Random) -> Case {
    let text = span_text(random);
    text_case(random, Call::Span, text)
}

/// A time span with small damages: also behind a part that is too large.
pub fn damaged_span(random: &mut Random) -> Case {
    let mut text = span_text(random);
    match random.below(4) {
        0 => text.extend_from_slice(random.pick(&[&b"x"[..], b"5", b" 5 5", b"s", b"1 0s", b"\n"])),
        _ => mutate(random, &mut text, b"0159usminhdwSM \t\n.-+"),
    }
    text_case(random, Call::Span, text)
}

const SPAN_ALPHABET: &[u8] = b"1 smu";
/// How many cases `span_listed` has.
pub const SPAN_LISTED: usize = strings_up_to(SPAN_ALPHABET, 6);

/// Every short string over a small alphabet.
pub fn span_listed(index: usize, random: &mut Random) -> Case {
    text_case(random, Call::Span, nth_string(SPAN_ALPHABET, index))
}
