//! Texts to split: lists with every escape and both quotes, with faults, at the limits, and of few bytes.

use havtsulen::ITEM_ENDS;

use crate::buffers::split_case;
use crate::case::Case;
use crate::mutate::{mutate, nth_string, strings_up_to};
use crate::random::Random;
use crate::utf8;

/// Bytes of the longest text.
pub const TEXT: usize = 4096;

/// An escape of a listed form for a value that is allowed.
fn escape(random: &mut Random) -> Vec<u8> {
    let code = loop {
        let limit = random.pick(&[0x100, 0x10000, 0x110000]);
        if let Some(code) = char::from_u32(random.between(1, limit - 1) as u32) {
            break code as u32;
        }
    };
    let byte = random.between(1, 0xff);
    let text = match random.below(6) {
        0 => format!("\\x{byte:02x}"),
        1 => format!("\\x{byte:02X}"),
        2 => format!("\\{byte:03o}"),
        3 if code < 0x10000 => format!("\\u{code:04x}"),
        3 | 4 => format!("\\U{code:08X}"),
        _ => format!("\\{}", random.pick(b"abfnrtv\\\"'s") as char),
    };
    text.into_bytes()
}

/// A piece of an item that no quote is in.
fn piece(random: &mut Random) -> Vec<u8> {
    match random.below(6) {
        0 | 1 => escape(random),
        2 => utf8::character(random),
        3 => vec![random.byte() | 0x80],
        _ => {
            let length = random.between(1, 5);
            random.word(b"abcXYZ019=#;%[]-_.~", length)
        }
    }
}

/// An item in this quote, or a bare one.
fn item(random: &mut Random, quote: Option<u8>) -> Vec<u8> {
    let Some(quote) = quote else {
        let count = random.between(1, 3);
        return (0..count).flat_map(|_| piece(random)).collect();
    };
    let other = if quote == b'"' { b'\'' } else { b'"' };
    let mut item = vec![quote];
    for _ in 0..random.between(0, 4) {
        match random.below(4) {
            0 => item.push(random.pick(&[other, b' ', b'\t'])),
            _ => item.extend(piece(random)),
        }
    }
    item.push(quote);
    item
}

fn any_item(random: &mut Random) -> Vec<u8> {
    let quote = random.pick(&[None, None, Some(b'"'), Some(b'\'')]);
    item(random, quote)
}

/// Items with blanks around and between them.
fn spell(random: &mut Random, items: &[Vec<u8>]) -> Vec<u8> {
    let mut text = random.blanks(2);
    for (index, item) in items.iter().enumerate() {
        if index > 0 {
            text.push(random.pick(b" \t"));
            text.extend(random.blanks(1));
        }
        text.extend_from_slice(item);
    }
    text.extend(random.blanks(2));
    text
}

fn any_items(random: &mut Random) -> Vec<Vec<u8>> {
    let count = random.pick(&[0, 1, 2, 3, 5, 12]);
    (0..count).map(|_| any_item(random)).collect()
}

/// A list of the grammar.
pub fn drawn(random: &mut Random) -> Case {
    let items = any_items(random);
    let text = spell(random, &items);
    split_case(random, text)
}

/// A list with a few changed bytes.
pub fn mutated(random: &mut Random) -> Case {
    let items = any_items(random);
    let mut text = spell(random, &items);
    mutate(random, &mut text, b"\"'\\ \tabx0n17uUs\n\0");
    split_case(random, text)
}

fn bad_form(random: &mut Random) -> Vec<u8> {
    const BAD: [&[u8]; 16] = [
        b"\\",
        b"\\x",
        b"\\x4",
        b"\\xg1",
        b"\\x1g",
        b"\\0",
        b"\\08",
        b"\\128",
        b"\\18",
        b"\\8",
        b"\\u00e",
        b"\\u00eg",
        b"\\U0010fff",
        b"\\U0010FFFg",
        b"\\q",
        b"\\ ",
    ];
    random.pick(&BAD).to_vec()
}

fn bad_value(random: &mut Random) -> Vec<u8> {
    const BAD: [&[u8]; 12] = [
        b"\\x00",
        b"\\000",
        b"\\400",
        b"\\777",
        b"\\u0000",
        b"\\uD800",
        b"\\udfff",
        b"\\U00000000",
        b"\\U0000d800",
        b"\\U0000DFFF",
        b"\\U00110000",
        b"\\UFFFFFFFF",
    ];
    random.pick(&BAD).to_vec()
}

/// Puts a fault of this number into the items.
fn put_fault(random: &mut Random, items: &mut Vec<Vec<u8>>, number: usize) {
    let fault = match number {
        21 => {
            let byte = random.below(0x20) as u8;
            vec![b'a', if byte == b'\t' { 0x7f } else { byte }]
        }
        22 => random
            .pick(&[
                &b"a\"b"[..],
                b"a'",
                b"\\s\"",
                b"\"a\"b",
                b"''x",
                b"\"\"\\n",
                b"''\"",
            ])
            .to_vec(),
        23 => random
            .pick(&[&b"\"a"[..], b"'", b"\"", b"'a\"", b"\"\\\"", b"'\\''x"])
            .to_vec(),
        24 => [&b"a"[..random.below(2)], &bad_form(random)].concat(),
        25 => [&b"a"[..random.below(2)], &bad_value(random)].concat(),
        _ => {
            let count = ITEM_ENDS + random.between(1, 2);
            let last = random
                .pick(&[&b"c"[..], b"\"", b"\\q", b"\\400", b"''"])
                .to_vec();
            items.extend(vec![b"b".to_vec(); count.saturating_sub(items.len() + 1)]);
            items.push(last);
            return;
        }
    };
    let at = if random.one_in(3) {
        items.len()
    } else {
        random.between(0, items.len())
    };
    items.insert(at, fault);
}

fn with_faults(random: &mut Random, numbers: &[usize]) -> Vec<u8> {
    let mut items = any_items(random);
    for &number in numbers.iter().filter(|&&number| number != 20) {
        put_fault(random, &mut items, number);
    }
    let mut text = spell(random, &items);
    if numbers.contains(&20) {
        let length = TEXT + random.pick(&[1, 1, 2, 900]);
        text.resize(text.len().max(length), random.pick(b" a\0"));
    }
    text
}

/// A list with one fault.
pub fn one_fault(random: &mut Random) -> Case {
    let number = random.between(20, 26);
    let text = with_faults(random, &[number]);
    split_case(random, text)
}

/// A list with several faults.
pub fn several_faults(random: &mut Random) -> Case {
    let numbers = [(); 3].map(|()| random.between(20, 26));
    let text = with_faults(random, &numbers);
    split_case(random, text)
}

/// So many items, with blanks behind the last.
pub fn many_items(random: &mut Random, count: usize) -> Vec<u8> {
    let items: Vec<Vec<u8>> = (0..count)
        .map(|_| random.pick(&[b"a".to_vec(), b"''".to_vec()]))
        .collect();
    spell(random, &items)
}

/// A text of this length: one long item, bare or quoted, with escapes or without, or few items.
pub fn long_text(random: &mut Random, length: usize) -> Vec<u8> {
    let start = random.pick(&[&b""[..], b"a b ", b"\\x41\\n ", b"'' \"\" "]);
    let (open, filler) = random.pick(&[(&b""[..], b'a'), (b"\"", b' '), (b"'", b'"'), (b"", b' ')]);
    let mut text = [start, open].concat();
    text.resize(length - open.len(), filler);
    text.extend_from_slice(open);
    text
}

/// A list at a limit, or next to it.
pub fn at_limit(random: &mut Random) -> Case {
    let more = random.below(4);
    let text = match random.below(2) {
        0 => many_items(random, ITEM_ENDS - 1 + more),
        _ => long_text(random, TEXT - 1 + more),
    };
    split_case(random, text)
}

/// A text of few different bytes.
pub fn few_bytes(random: &mut Random) -> Case {
    let length = random.between(0, 20);
    let text = random.word(b"\"'\\ \tabx0n17uUs", length);
    split_case(random, text)
}

const SHORT: &[u8] = b"\"'\\ a0x";
/// How many cases `listed` has.
pub const LISTED: usize = strings_up_to(SHORT, 5);

/// Every short string over a small alphabet.
pub fn listed(index: usize, random: &mut Random) -> Case {
    split_case(random, nth_string(SHORT, index))
}
