//! The item writer.

use crate::{refuse, Refusal, ITEM_ENDS, WRITE_BYTES};

/// Writes items as a text that splits into them again, and says its length.
/// Refuses 1, 26, 28, 27, 20.
pub fn write(bytes: &[u8], ends: &[usize], out: &mut [u8]) -> Result<usize, Refusal> {
    if out.len() < WRITE_BYTES {
        return refuse(1, 0);
    }
    if ends.len() > ITEM_ENDS {
        return refuse(26, 0);
    }
    let last = ends.last().copied().unwrap_or(0);
    if !ends.is_sorted() || last > bytes.len() {
        return refuse(28, 0);
    }
    if bytes[..last].contains(&0) {
        return refuse(27, 0);
    }
    let mut text = Text {
        bytes: [0; WRITE_BYTES],
        length: 0,
    };
    let mut start = 0;
    for (index, &end) in ends.iter().enumerate() {
        if index > 0 {
            text.push(b" ")?;
        }
        text.push_item(&bytes[start..end])?;
        start = end;
    }
    out[..text.length].copy_from_slice(&text.bytes[..text.length]);
    Ok(text.length)
}

/// The text in the making.
struct Text {
    bytes: [u8; WRITE_BYTES],
    length: usize,
}

impl Text {
    /// Adds an item, bare or in double quotes.
    fn push_item(&mut self, item: &[u8]) -> Result<(), Refusal> {
        if is_bare(item) {
            return self.push(item);
        }
        self.push(b"\"")?;
        for &byte in item {
            self.push_quoted(byte)?;
        }
        self.push(b"\"")
    }

    /// Adds a byte of a quoted item: "`\\`, `\"`, the seven letter escapes where
    /// they apply, bytes 20 to 7E as they are, the others as `\x`".
    fn push_quoted(&mut self, byte: u8) -> Result<(), Refusal> {
        match byte {
            b'\\' | b'"' => self.push(&[b'\\', byte]),
            0x20..=0x7e => self.push(&[byte]),
            0x07 => self.push(br"\a"),
            0x08 => self.push(br"\b"),
            0x0c => self.push(br"\f"),
            b'\n' => self.push(br"\n"),
            b'\r' => self.push(br"\r"),
            b'\t' => self.push(br"\t"),
            0x0b => self.push(br"\v"),
            _ => self.push(&[b'\\', b'x', hex_digit(byte >> 4), hex_digit(byte & 15)]),
        }
    }

    /// Adds bytes; refusal 20 where the text would pass 4,096.
    fn push(&mut self, bytes: &[u8]) -> Result<(), Refusal> {
        let end = self.length + bytes.len();
        match self.bytes.get_mut(self.length..end) {
            Some(space) => space.copy_from_slice(bytes),
            None => return refuse(20, 0),
        }
        self.length = end;
        Ok(())
    }
}

/// "An item of one or more letters, digits and `- _ . / : @ % , +` is bare."
fn is_bare(item: &[u8]) -> bool {
    let is_bare_byte = |b: &u8| b.is_ascii_alphanumeric() || b"-_./:@%,+".contains(b);
    !item.is_empty() && item.iter().all(is_bare_byte)
}

/// The lower-case hex digit of a number below 16.
fn hex_digit(number: u8) -> u8 {
    b"0123456789abcdef"[usize::from(number)]
}
