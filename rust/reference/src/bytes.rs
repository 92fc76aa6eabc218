//! Bytes: blanks, control bytes, UTF-8, and the checks over a whole file.

use crate::{refuse, Refusal};

/// The most bytes of a file, with the LF that its last line may lack.
const FILE_BYTES: usize = 65535;

/// "A blank is a space or a tab."
pub fn is_blank(byte: u8) -> bool {
    matches!(byte, b' ' | b'\t')
}

/// Bytes 00 to 1F other than tab, and 7F: refused in a text to split.
pub fn is_control(byte: u8) -> bool {
    (byte < 0x20 && byte != b'\t') || byte == 0x7f
}

/// The bytes without the blanks at their start.
pub fn trim_start(bytes: &[u8]) -> &[u8] {
    let start = bytes.iter().position(|&b| !is_blank(b));
    &bytes[start.unwrap_or(bytes.len())..]
}

/// The bytes without the blanks at their end.
pub fn trim_end(bytes: &[u8]) -> &[u8] {
    let last = bytes.iter().rposition(|&b| !is_blank(b));
    &bytes[..last.map_or(0, |last| last + 1)]
}

/// The bytes without the blanks at both ends.
pub fn trim(bytes: &[u8]) -> &[u8] {
    trim_end(trim_start(bytes))
}

/// Whether the closing run of backslashes is odd: such a physical line is
/// continued, and such a joined text gets a space in the normal text.
pub fn ends_in_odd_run(bytes: &[u8]) -> bool {
    bytes.iter().rev().take_while(|&&b| b == b'\\').count() % 2 == 1
}

/// The length of the character at the start, by the nine rows of RFC 3629 section 4;
/// `None` if the bytes there begin with none.
fn character_length(text: &[u8]) -> Option<usize> {
    Some(match text {
        [0x00..=0x7f, ..] => 1,
        [0xc2..=0xdf, 0x80..=0xbf, ..] => 2,
        [0xe0, 0xa0..=0xbf, 0x80..=0xbf, ..] => 3,
        [0xe1..=0xec, 0x80..=0xbf, 0x80..=0xbf, ..] => 3,
        [0xed, 0x80..=0x9f, 0x80..=0xbf, ..] => 3,
        [0xee..=0xef, 0x80..=0xbf, 0x80..=0xbf, ..] => 3,
        [0xf0, 0x90..=0xbf, 0x80..=0xbf, 0x80..=0xbf, ..] => 4,
        [0xf1..=0xf3, 0x80..=0xbf, 0x80..=0xbf, 0x80..=0xbf, ..] => 4,
        [0xf4, 0x80..=0x8f, 0x80..=0xbf, 0x80..=0xbf, ..] => 4,
        _ => return None,
    })
}

/// The length of the longest start that is UTF-8 as in RFC 3629.
pub fn well_formed_length(text: &[u8]) -> usize {
    let mut length = 0;
    while let Some(more) = character_length(&text[length..]) {
        length += more;
    }
    length
}

/// The same by the standard library, which is quicker.
fn quick_length(text: &[u8]) -> usize {
    match core::str::from_utf8(text) {
        Ok(_) => text.len(),
        Err(error) => error.valid_up_to(),
    }
}

/// The number of the line that holds the byte at this offset.
fn line_of(file: &[u8], offset: usize) -> usize {
    1 + file[..offset].iter().filter(|&&b| b == b'\n').count()
}

/// Refusals 2, 3 and 4, in this order, each over the whole file.
pub fn check_file(file: &[u8]) -> Result<(), Refusal> {
    // "a non-empty file not ending in LF counts one byte more"
    let open_end = file.last().is_some_and(|&b| b != b'\n');
    if file.len() > FILE_BYTES - usize::from(open_end) {
        return refuse(2, 0);
    }
    let well_formed = quick_length(file);
    if well_formed < file.len() {
        return refuse(3, line_of(file, well_formed));
    }
    match file.iter().position(|&b| is_control(b) && b != b'\n') {
        Some(offset) => refuse(4, line_of(file, offset)),
        None => Ok(()),
    }
}

#[cfg(test)]
mod tests {
    use super::*;

    /// The ends of all ranges in the nine rows, and their neighbours outside.
    const EDGES: [u8; 24] = [
        0x00, 0x7f, 0x80, 0x8f, 0x90, 0x9f, 0xa0, 0xbf, 0xc0, 0xc1, 0xc2, 0xdf, 0xe0, 0xe1, 0xec,
        0xed, 0xee, 0xef, 0xf0, 0xf1, 0xf3, 0xf4, 0xf5, 0xff,
    ];

    fn agree(text: &[u8]) {
        assert_eq!(well_formed_length(text), quick_length(text), "{text:x?}");
    }

    #[test]
    fn the_rows_and_the_standard_library_agree_on_two_bytes() {
        for number in 0..=u16::MAX {
            agree(&number.to_be_bytes());
        }
    }

    #[test]
    fn they_agree_on_the_edges_of_the_rows() {
        for first in 0..=0xff {
            for second in EDGES {
                for third in EDGES {
                    agree(&[first, second, third]);
                    for fourth in EDGES {
                        agree(&[first, second, third, fourth, b'a']);
                    }
                }
            }
        }
    }
}
