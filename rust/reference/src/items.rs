//! The item splitter.

use crate::bytes::{is_blank, is_control};
use crate::{refuse, Items, Refusal, ITEM_BYTES, ITEM_ENDS};

/// The most bytes of a text to split.
const SPLIT_BYTES: usize = 4096;

/// Splits a text into items: their bytes one after another, and the end of each.
/// Refuses 1, 20, 21, then the first fault met reading from the left.
pub fn split(text: &[u8], bytes: &mut [u8], ends: &mut [usize]) -> Result<Items, Refusal> {
    if bytes.len() < ITEM_BYTES || ends.len() < ITEM_ENDS {
        return refuse(1, 0);
    }
    if text.len() > SPLIT_BYTES {
        return refuse(20, 0);
    }
    if let Some(offset) = text.iter().position(|&b| is_control(b)) {
        return refuse(21, offset);
    }
    let mut found_ends = [0; ITEM_ENDS];
    let mut count = 0;
    let mut splitter = Splitter::new(text);
    while let Some(first) = splitter.skip_blanks() {
        let Some(end) = found_ends.get_mut(count) else {
            return refuse(26, splitter.at);
        };
        match first {
            b'"' | b'\'' => splitter.quoted_item(first)?,
            _ => splitter.bare_item()?,
        }
        *end = splitter.length;
        count += 1;
    }
    let length = splitter.length;
    bytes[..length].copy_from_slice(&splitter.bytes[..length]);
    ends[..count].copy_from_slice(&found_ends[..count]);
    Ok(Items { count, length })
}

/// A text half split. The items never have more bytes than the text read so far,
/// as no escape gives more bytes than it has itself.
struct Splitter<'a> {
    text: &'a [u8],
    at: usize,
    bytes: [u8; ITEM_BYTES],
    length: usize,
}

impl<'a> Splitter<'a> {
    /// Starts at the beginning of a text.
    fn new(text: &'a [u8]) -> Self {
        Splitter {
            text,
            at: 0,
            bytes: [0; ITEM_BYTES],
            length: 0,
        }
    }

    /// The byte to be read next, `None` at the end of the text.
    fn peek(&self) -> Option<u8> {
        self.text.get(self.at).copied()
    }

    /// "Blanks part items": goes to the next item and says its first byte.
    fn skip_blanks(&mut self) -> Option<u8> {
        while self.peek().is_some_and(is_blank) {
            self.at += 1;
        }
        self.peek()
    }

    /// Reads a bare item up to a blank or the end; a quote in it is refusal 22.
    fn bare_item(&mut self) -> Result<(), Refusal> {
        while let Some(byte) = self.peek() {
            match byte {
                b' ' | b'\t' => break,
                b'"' | b'\'' => return refuse(22, self.at),
                b'\\' => self.escape()?,
                _ => self.take(byte),
            }
        }
        Ok(())
    }

    /// Reads a quoted item: "the same quote closes, and a blank or the end must
    /// follow" (refusal 22). Refusal 23 if the text ends first.
    fn quoted_item(&mut self, quote: u8) -> Result<(), Refusal> {
        let opening = self.at;
        self.at += 1;
        while let Some(byte) = self.peek() {
            if byte == quote {
                self.at += 1;
                return match self.peek() {
                    Some(next) if !is_blank(next) => refuse(22, self.at),
                    _ => Ok(()),
                };
            }
            match byte {
                b'\\' => self.escape()?,
                _ => self.take(byte),
            }
        }
        refuse(23, opening)
    }

    /// Reads the escape at the cursor: its bytes, or refusal 24 or 25 at the `\`.
    fn escape(&mut self) -> Result<(), Refusal> {
        let place = self.at;
        let (escaped, length) =
            read_escape(&self.text[place + 1..]).map_err(|number| Refusal { number, place })?;
        match escaped {
            Escaped::Byte(byte) => self.push(&[byte]),
            Escaped::Point(point) => self.push(point.encode_utf8(&mut [0; 4]).as_bytes()),
        }
        self.at += 1 + length;
        Ok(())
    }

    /// Takes over a byte that stands for itself.
    fn take(&mut self, byte: u8) {
        self.push(&[byte]);
        self.at += 1;
    }

    /// Adds bytes to the item.
    fn push(&mut self, bytes: &[u8]) {
        self.bytes[self.length..][..bytes.len()].copy_from_slice(bytes);
        self.length += bytes.len();
    }
}

/// What an escape stands for.
enum Escaped {
    Byte(u8),
    Point(char),
}

/// Reads what follows a backslash: its meaning and its length, or the number of
/// its refusal, 24 for the form before 25 for the value.
fn read_escape(tail: &[u8]) -> Result<(Escaped, usize), usize> {
    let (&first, digits) = tail.split_first().ok_or(24_usize)?;
    match first {
        b'x' => Ok((one_byte(number(digits, 2, 16)?)?, 3)),
        b'u' => Ok((code_point(number(digits, 4, 16)?)?, 5)),
        b'U' => Ok((code_point(number(digits, 8, 16)?)?, 9)),
        b'0'..=b'7' => Ok((one_byte(number(tail, 3, 8)?)?, 3)),
        _ => {
            let byte = letter_escape(first).ok_or(24_usize)?;
            Ok((Escaped::Byte(byte), 1))
        }
    }
}

/// The escapes of one letter or sign.
fn letter_escape(letter: u8) -> Option<u8> {
    Some(match letter {
        b'a' => 0x07,
        b'b' => 0x08,
        b'f' => 0x0c,
        b'n' => b'\n',
        b'r' => b'\r',
        b't' => b'\t',
        b'v' => 0x0b,
        b's' => b' ',
        b'\\' | b'"' | b'\'' => letter,
        _ => return None,
    })
}

/// The value of exactly `count` digits, at most eight; refusal 24 if there are
/// fewer.
fn number(tail: &[u8], count: usize, radix: u32) -> Result<u32, usize> {
    let digits = tail.get(..count).ok_or(24_usize)?;
    digits
        .iter()
        .try_fold(0, |value, &digit| {
            Some(value * radix + char::from(digit).to_digit(radix)?)
        })
        .ok_or(24)
}

/// "The x and octal forms give one byte": 25 for 0 and above 377 octal.
fn one_byte(value: u32) -> Result<Escaped, usize> {
    match u8::try_from(value) {
        Ok(byte) if byte != 0 => Ok(Escaped::Byte(byte)),
        _ => Err(25),
    }
}

/// "u and U the UTF-8 of the code point": 25 for 0, D800 to DFFF, above 10FFFF.
fn code_point(value: u32) -> Result<Escaped, usize> {
    match char::from_u32(value) {
        Some(point) if point != '\0' => Ok(Escaped::Point(point)),
        _ => Err(25),
    }
}
