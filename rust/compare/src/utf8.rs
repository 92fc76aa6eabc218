//! UTF-8: characters, broken characters, and every boundary of the nine rows of RFC 3629.

use crate::buffers::text_case;
use crate::case::{Call, Case};
use crate::random::Random;

/// A character above 7F, well-formed; often at a boundary of its length.
pub fn character(random: &mut Random) -> Vec<u8> {
    const EDGES: [u32; 9] = [
        0x80, 0x7ff, 0x800, 0xfff, 0xd7ff, 0xe000, 0xffff, 0x10000, 0x10ffff,
    ];
    let limit = random.pick(&[0x800, 0x10000, 0x110000]);
    let code = match random.below(3) {
        0 => random.pick(&EDGES),
        _ => random.between(0x80, limit - 1) as u32,
    };
    let found = char::from_u32(code).unwrap_or('\u{feff}');
    found.to_string().into_bytes()
}

/// Bytes that no well-formed text has at this place: broken off, too long, a surrogate, or past the last
/// code point.
pub fn broken(random: &mut Random) -> Vec<u8> {
    const BROKEN: [&[u8]; 18] = [
        b"\x80",
        b"\xbf",
        b"\xc0\x80",
        b"\xc1\xbf",
        b"\xc2",
        b"\xc3\x41",
        b"\xe0\x9f\xbf",
        b"\xe0\xa0",
        b"\xe1\x80\x7f",
        b"\xed\xa0\x80",
        b"\xed\xbf\xbf",
        b"\xef\xbf",
        b"\xf0\x8f\xbf\xbf",
        b"\xf0\x90\x80",
        b"\xf4\x90\x80\x80",
        b"\xf5\x80\x80\x80",
        b"\xff",
        b"\xf3\x80\x80\xc0",
    ];
    match random.below(3) {
        0 => {
            let mut cut = character(random);
            cut.pop();
            cut
        }
        _ => random.pick(&BROKEN).to_vec(),
    }
}

/// Well-formed text, and now and then a broken character.
pub fn drawn(random: &mut Random) -> Case {
    let mut text = Vec::new();
    let faults = random.pick(&[0, 40, 8]);
    for _ in 0..random.pick(&[0, 1, 3, 10, 60]) {
        let piece = match random.below(4) {
            _ if faults != 0 && random.one_in(faults) => broken(random),
            0 => random.bytes(1).iter().map(|byte| byte & 0x7f).collect(),
            1 => random.word(b"abc \n", 3),
            _ => character(random),
        };
        text.extend(piece);
    }
    let call = random.pick(&[
        Call::WellFormedLength,
        Call::WellFormedLength,
        Call::CheckFile,
    ]);
    text_case(random, call, text)
}

const SECOND: [u8; 12] = [
    0x00, 0x0a, 0x41, 0x7f, 0x80, 0x8f, 0x90, 0x9f, 0xa0, 0xbf, 0xc0, 0xff,
];
const LATER: [u8; 4] = [0x7f, 0x80, 0xbf, 0xc0];

/// How many cases `listed` has: every lead byte alone, and with one to three bytes after it.
pub const LISTED: usize = 256 * (1 + SECOND.len() * (1 + LATER.len() + LATER.len() * LATER.len()));

/// Every lead byte with bytes at the boundaries of the rows behind it, in the middle of a text.
pub fn listed(index: usize, random: &mut Random) -> Case {
    let mut bytes = vec![index as u8];
    let mut left = index / 256;
    if left > 0 {
        left -= 1;
        bytes.push(SECOND[left % SECOND.len()]);
        bytes.extend(later(left / SECOND.len()));
    }
    let before = random.word(b"a", 1 + index % 3);
    let after = random.pick(&[&b""[..], b"b", b"\x80", b"\xbf\xbf"]);
    text_case(
        random,
        Call::WellFormedLength,
        [&before[1..], &bytes, after].concat(),
    )
}

/// The third and the fourth byte: none, one, or two.
fn later(index: usize) -> Vec<u8> {
    crate::mutate::nth_string(&LATER, index)
}
