//! Any bytes, few and many, for every call that takes a text or a list.

use crate::buffers::{any_file_case, split_case, text_case, write_case};
use crate::case::{Call, Case};
use crate::random::Random;
use crate::utf8;

/// The most bytes for a file: more than a file may have.
const FILE: usize = 70_000;
/// The most bytes for a text to split or a list: more than such a text may have.
const TEXT: usize = 4_200;

/// How many bytes: mostly few, once in eight any number.
fn length(random: &mut Random, most: usize) -> usize {
    let few = random.pick(&[3, 24, 60]);
    let most = if random.one_in(8) { most } else { few };
    random.between(0, most)
}

/// Any bytes, those below 80, or those that can be seen.
fn bytes(random: &mut Random, most: usize) -> Vec<u8> {
    let length = length(random, most);
    let mut bytes = random.bytes(length);
    match random.below(3) {
        0 => bytes.iter_mut().for_each(|byte| *byte &= 0x7f),
        1 => bytes
            .iter_mut()
            .for_each(|byte| *byte = 0x20 + *byte % 0x5f),
        _ => {}
    }
    bytes
}

/// Characters, and one byte changed now and then.
fn characters(random: &mut Random, most: usize) -> Vec<u8> {
    let length = length(random, most);
    let mut text = Vec::with_capacity(length);
    while text.len() < length {
        text.extend(utf8::character(random));
    }
    if random.one_in(2) && !text.is_empty() {
        let at = random.below(text.len());
        text[at] = random.byte();
    }
    text
}

fn bytes_or_characters(random: &mut Random, most: usize) -> Vec<u8> {
    if random.one_in(4) {
        characters(random, most)
    } else {
        bytes(random, most)
    }
}

/// As a file; some are comments, or behind a header.
pub fn file(random: &mut Random) -> Case {
    let start = random.pick(&[&b""[..], b"", b"#", b"[A]\nK="]);
    let file = [start, &bytes_or_characters(random, FILE)].concat();
    any_file_case(random, file)
}

/// To be decoded.
pub fn decode(random: &mut Random) -> Case {
    let text = bytes_or_characters(random, FILE);
    text_case(random, Call::WellFormedLength, text)
}

/// To be split.
pub fn split(random: &mut Random) -> Case {
    let text = bytes(random, TEXT);
    split_case(random, text)
}

/// To be written: items with ends that mostly rise, and with any numbers for ends.
pub fn write(random: &mut Random) -> Case {
    let bytes = bytes(random, TEXT);
    let count = length(random, 300);
    let mut ends: Vec<usize> = (0..count).map(|_| random.between(0, bytes.len())).collect();
    match random.below(8) {
        0 => ends = random.numbers(count),
        1 => {}
        _ => ends.sort_unstable(),
    }
    write_case(random, (bytes, ends))
}

/// To be taken as a boolean.
pub fn boolean(random: &mut Random) -> Case {
    let text = bytes(random, TEXT);
    text_case(random, Call::Boolean, text)
}

/// To be taken as a time span.
pub fn span(random: &mut Random) -> Case {
    let text = bytes(random, TEXT);
    text_case(random, Call::Span, text)
}
