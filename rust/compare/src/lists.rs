//! Items to write: of all bytes, with faults, and at the limits.

use havtsulen::{ITEM_ENDS, WRITE_BYTES};

use crate::buffers::write_case;
use crate::case::Case;
use crate::random::Random;

/// The bytes of bare items.
const BARE: &[u8] = b"abcdefghijklmnopqrstuvwxyzABCDEFGHIJKLMNOPQRSTUVWXYZ0123456789-_./:@%,+";

/// The bytes of all items, and the end of each.
pub type List = (Vec<u8>, Vec<usize>);

/// Any byte but NUL; those with a letter escape come often.
fn byte(random: &mut Random) -> u8 {
    match random.below(4) {
        0 => random.pick(b"\x07\x08\x0c\x0a\x0d\x09\x0b\"\\' s"),
        1 => random.pick(BARE),
        _ => random.between(1, 0xff) as u8,
    }
}

fn item(random: &mut Random) -> Vec<u8> {
    let length = random.pick(&[0, 1, 1, 2, 5, 30]);
    match random.below(3) {
        0 => random.word(BARE, length),
        1 => [random.word(BARE, length), random.word(b"\"\\ \n~", 1)].concat(),
        _ => (0..length).map(|_| byte(random)).collect(),
    }
}

fn list_of(items: &[Vec<u8>]) -> List {
    let mut list = (Vec::new(), Vec::new());
    for item in items {
        list.0.extend_from_slice(item);
        list.1.push(list.0.len());
    }
    list
}

fn any_items(random: &mut Random) -> Vec<Vec<u8>> {
    let count = random.pick(&[0, 1, 1, 2, 3, 8, 30]);
    (0..count).map(|_| item(random)).collect()
}

/// Bytes behind the last end are no item: a NUL there is none of the list.
fn put_tail(random: &mut Random, list: &mut List) {
    if random.one_in(3) {
        let length = random.between(1, 6);
        list.0.extend(random.word(b"\0a\"", length));
    }
}

/// A list that is written, if it is short enough.
pub fn drawn(random: &mut Random) -> Case {
    let mut list = list_of(&any_items(random));
    put_tail(random, &mut list);
    write_case(random, list)
}

fn put_fault(random: &mut Random, list: &mut List, number: usize) {
    let (bytes, ends) = list;
    match number {
        20 => {
            bytes.extend(random.bytes(WRITE_BYTES).iter().map(|byte| byte | 1));
            ends.push(bytes.len());
        }
        26 => {
            let last = ends.last().copied().unwrap_or(0);
            ends.resize(ITEM_ENDS + random.between(1, 40), last);
        }
        27 => {
            let last = ends.last().copied().unwrap_or(0).min(bytes.len());
            let at = random.between(0, last);
            bytes.insert(at, 0);
            let behind = ends.iter_mut().filter(|end| **end >= at);
            behind.for_each(|end| *end = end.saturating_add(1));
        }
        _ => {
            let at = random.between(0, ends.len());
            let before = ends[..at].last().copied().unwrap_or(0);
            let far = random.far_from(before);
            let length = bytes.len();
            let odd = random.pick(&[0, 1, length + 1, length + 5, far, far, usize::MAX]);
            ends.insert(at, odd);
        }
    }
}

/// A list with one to three faults.
pub fn faulty(random: &mut Random) -> Case {
    let mut list = list_of(&any_items(random));
    put_tail(random, &mut list);
    for _ in 0..random.pick(&[1, 1, 2, 3]) {
        let number = random.pick(&[20, 26, 27, 27, 28, 28]);
        put_fault(random, &mut list, number);
    }
    write_case(random, list)
}

/// Bytes that an item takes in the text.
fn written_length(item: &[u8]) -> usize {
    if !item.is_empty() && item.iter().all(|byte| BARE.contains(byte)) {
        return item.len();
    }
    let each = |byte: &u8| match byte {
        b'"' | b'\\' | 0x07..=0x0d => 2,
        0x20..=0x7e => 1,
        _ => 4,
    };
    2 + item.iter().map(each).sum::<usize>()
}

/// A list whose text has this length.
pub fn long_list(random: &mut Random, length: usize) -> List {
    let mut items = any_items(random);
    let filler = random.pick(b"a \"\n\xff");
    let written = |items: &[Vec<u8>]| -> usize {
        items
            .iter()
            .map(|item| written_length(item) + 1)
            .sum::<usize>()
    };
    let room = length - written(&items);
    let each = written_length(&[filler]).max(3) - 2;
    if filler != b'a' {
        items.push(vec![filler; (room - 20) / each]);
    }
    let left = length - written(&items);
    items.push(vec![b'a'; left]);
    list_of(&items)
}

/// So many items, most of them short.
pub fn many_items(random: &mut Random, count: usize) -> List {
    let items: Vec<Vec<u8>> = (0..count)
        .map(|_| random.pick(&[b"a".to_vec(), Vec::new(), b" ".to_vec()]))
        .collect();
    list_of(&items)
}

/// A list at a limit, or next to it.
pub fn at_limit(random: &mut Random) -> Case {
    let more = random.below(4);
    let mut list = match random.below(2) {
        0 => many_items(random, ITEM_ENDS - 1 + more),
        _ => long_list(random, WRITE_BYTES - 1 + more),
    };
    put_tail(random, &mut list);
    write_case(random, list)
}

/// How many cases `listed` has: each byte in each of three items.
pub const LISTED: usize = 3 * 256;

/// Each byte alone, behind a letter, and between others.
pub fn listed(index: usize, random: &mut Random) -> Case {
    let byte = index as u8;
    let item = [vec![byte], vec![b'a', byte], vec![b' ', byte, b'1']][index / 256].clone();
    write_case(random, list_of(&[item]))
}
