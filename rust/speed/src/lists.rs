//! Long lists, to split and to write.

use compare::random::Random;

/// Bytes of the longest list.
const FULL: usize = 4_096;
/// The most items.
const ITEMS: usize = 256;
/// How many lists there are of each kind.
const COUNT: usize = 20;

/// Draws an item as it stands in a list.
type Draw = fn(&mut Random) -> Vec<u8>;

const TEXTS: [(&str, Draw); 6] = [
    ("bare items of 1 to 30 bytes", bare),
    ("quoted items of 1 to 30 bytes", quoted),
    ("escapes of one letter in quotes", letters),
    ("escapes with digits, bare", digits),
    ("one bare item of 4,096 bytes", |random| {
        random.word(BARE, FULL)
    }),
    ("256 empty items", |_| b"\"\"".to_vec()),
];

const BARE: &[u8] = b"abcdefghijklmnopqrstuvwxyzABCDEFGH0123456789-_./:@%,+";

/// Letters, and a space for every fifth.
const SPACED: &[u8] = b"abc defgh ijklm nopq";

/// Texts to split, by kind.
pub fn texts() -> Vec<(&'static str, Vec<Vec<u8>>)> {
    let mut random = Random::new(10);
    let drawn = |&(name, draw): &(&'static str, Draw)| {
        let texts = (0..COUNT).map(|_| text(&mut random, draw));
        (name, texts.collect())
    };
    TEXTS.iter().map(drawn).collect()
}

/// Items with blanks between them, as many as fit.
fn text(random: &mut Random, draw: Draw) -> Vec<u8> {
    let mut text = draw(random);
    for _ in 1..ITEMS {
        let item = draw(random);
        if text.len() + 1 + item.len() > FULL {
            break;
        }
        text.push(b' ');
        text.extend(item);
    }
    text
}

fn bare(random: &mut Random) -> Vec<u8> {
    let length = random.between(1, 30);
    random.word(BARE, length)
}

fn quoted(random: &mut Random) -> Vec<u8> {
    let quote = random.pick(&[&b"\""[..], b"'"]);
    let length = random.between(1, 30);
    [quote, &random.word(SPACED, length), quote].concat()
}

fn letters(random: &mut Random) -> Vec<u8> {
    let mut item = b"\"".to_vec();
    for _ in 0..random.between(1, 15) {
        item.extend([b'\\', random.pick(b"abfnrtvs\\\"'")]);
    }
    item.push(b'"');
    item
}

fn digits(random: &mut Random) -> Vec<u8> {
    let mut item = Vec::new();
    for _ in 0..random.between(1, 4) {
        let escape = match random.below(4) {
            0 => format!("\\x{:02x}", random.between(1, 255)),
            1 => format!("\\{:03o}", random.between(1, 255)),
            2 => format!("\\u{:04X}", random.between(1, 0xd7ff)),
            _ => format!("\\U{:08x}", random.between(0x10000, 0x10ffff)),
        };
        item.extend(escape.into_bytes());
    }
    item
}

/// Items one after the other, their ends, and the length of their text.
pub struct Items {
    pub bytes: Vec<u8>,
    pub ends: Vec<usize>,
    pub length: usize,
}

/// A kind of items to write: its name, the most items, and how the bytes of one are drawn.
type Kind = (&'static str, usize, Draw);

const KINDS: [Kind; 5] = [
    ("bare items of 1 to 30 bytes", ITEMS, bare),
    ("quoted items without escapes", ITEMS, |random| {
        let length = random.between(1, 29);
        [b" ", &random.word(SPACED, length)[..]].concat()
    }),
    ("quoted items, escapes of one letter", ITEMS, |random| {
        let length = random.between(1, 15);
        random.word(b"\x07\x08\x0c\n\r\t\x0b\\\"", length)
    }),
    ("quoted items, all bytes `\\x`", ITEMS, |random| {
        let length = random.between(1, 8);
        random.word(b"\x01\x02\x1f\x7f\x80\xc3\xff", length)
    }),
    ("one quoted item of 4,094 bytes", 1, |random| {
        [b" ", &random.word(SPACED, FULL - 3)[..]].concat()
    }),
];

/// Lists to write, by kind.
pub fn items() -> Vec<(&'static str, Vec<Items>)> {
    let mut random = Random::new(11);
    let drawn = |&(name, most, draw): &Kind| {
        let lists = (0..COUNT).map(|_| list(&mut random, most, draw));
        (name, lists.collect())
    };
    KINDS.iter().map(drawn).collect()
}

/// As many items as can be written, up to so many.
fn list(random: &mut Random, most: usize, draw: Draw) -> Items {
    let (mut bytes, mut ends) = (Vec::new(), Vec::new());
    let mut out = [0; FULL];
    let mut length = 0;
    for _ in 0..most {
        bytes.extend(draw(random));
        ends.push(bytes.len());
        match havtsulen::write(&bytes, &ends, &mut out) {
            Ok(written) => length = written,
            Err(_) => {
                ends.pop();
                bytes.truncate(ends.last().copied().unwrap_or(0));
                break;
            }
        }
    }
    Items {
        bytes,
        ends,
        length,
    }
}

#[cfg(test)]
mod tests {
    use super::*;

    #[test]
    fn lists_to_write_are_of_their_kind() {
        for (name, lists) in items() {
            for Items {
                bytes,
                ends,
                length,
            } in lists
            {
                let mut out = [0; FULL];
                assert_eq!(havtsulen::write(&bytes, &ends, &mut out), Ok(length));
                assert!(length > FULL * 9 / 10, "{name}: {length}");
                assert_eq!(ends.len() == 1, name.starts_with("one"), "{name}");
                let quotes = out[..length].iter().filter(|&&byte| byte == b'"').count();
                assert_eq!(quotes == 0, name.starts_with("bare"), "{name}");
                assert!(quotes == 0 || quotes >= 2 * ends.len(), "{name}");
            }
        }
    }
}
