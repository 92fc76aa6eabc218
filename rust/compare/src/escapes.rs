//! Escapes at the limits of their values, from both sides.

use crate::buffers::split_case;
use crate::case::Case;
use crate::random::Random;

/// Code points at limits; the first `SHORT` of them have four digits.
const POINTS: [u32; 15] = [
    0,
    1,
    0x7f,
    0x80,
    0x7ff,
    0x800,
    0xd7ff,
    0xd800,
    0xdfff,
    0xe000,
    0xffff,
    0x10000,
    0x10ffff,
    0x110000,
    0xffff_ffff,
];
const SHORT: usize = 11;
const HEX: [u8; 5] = [0x00, 0x01, 0x7f, 0x80, 0xff];
const OCTAL: [&str; 14] = [
    "000", "001", "177", "200", "377", "400", "777", "800", "080", "008", "900", "090", "009", "18",
];

/// Escapes in each case of their hex digits.
const ESCAPES: usize = 2 * (POINTS.len() + SHORT + HEX.len()) + OCTAL.len();

/// Around an escape: nothing, letters, a quote, a quote and letters.
const FRAMES: [(&str, &str); 6] = [
    ("", ""),
    ("a", "b c"),
    ("\"", "\""),
    ("'", "'"),
    ("\"a", "b\" c"),
    ("'a", "b' c"),
];

/// All escapes; hex digits first small, then capital.
fn escapes() -> impl Iterator<Item = String> {
    let long = |point: &u32| [format!("\\U{point:08x}"), format!("\\U{point:08X}")];
    let short = |point: &u32| [format!("\\u{point:04x}"), format!("\\u{point:04X}")];
    let hex = |byte: &u8| [format!("\\x{byte:02x}"), format!("\\x{byte:02X}")];
    let octal = |digits: &&str| format!("\\{digits}");
    let points = POINTS.iter().flat_map(long);
    points
        .chain(POINTS[..SHORT].iter().flat_map(short))
        .chain(HEX.iter().flat_map(hex))
        .chain(OCTAL.iter().map(octal))
}

/// How many cases `listed` has.
pub const LISTED: usize = ESCAPES * FRAMES.len();

/// Each escape, bare and in both quotes.
pub fn listed(index: usize, random: &mut Random) -> Case {
    let (before, after) = FRAMES[index % FRAMES.len()];
    let escape = escapes().nth(index / FRAMES.len());
    let text = [before, &escape.expect("an escape"), after].concat();
    split_case(random, text.into_bytes())
}

#[cfg(test)]
mod tests {
    use super::*;

    #[test]
    fn the_limits_are_among_them() {
        let all: Vec<String> = escapes().collect();
        assert_eq!(all.len(), ESCAPES);
        for expected in [
            "U00000000",
            "U0010ffff",
            "U0010FFFF",
            "UFFFFFFFF",
            "u0000",
            "ud7ff",
            "uD7FF",
            "uD800",
            "uFFFF",
            "x00",
            "xff",
            "xFF",
            "000",
            "777",
            "009",
        ] {
            assert!(all.contains(&format!("\\{expected}")), "{expected}");
        }
    }
}
