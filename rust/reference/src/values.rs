//! Booleans and time spans.

use crate::bytes::{trim, trim_start};
use crate::{refuse, Refusal};

/// Microseconds of a second.
const SECOND: u64 = 1_000_000;

/// "1, yes, true, on; 0, no, false, off; exactly these bytes", otherwise 30.
pub fn boolean(text: &[u8]) -> Result<bool, Refusal> {
    match text {
        b"1" | b"yes" | b"true" | b"on" => Ok(true),
        b"0" | b"no" | b"false" | b"off" => Ok(false),
        _ => refuse(30, 0),
    }
}

/// A time span in microseconds: digits alone are seconds, else it is one or more
/// parts with a unit each. "Form is judged before size": 31, then 32.
pub fn span(text: &[u8]) -> Result<u64, Refusal> {
    let text = trim(text);
    let total = match split_digits(text) {
        (digits, []) if !digits.is_empty() => microseconds(digits, SECOND),
        _ => sum_of_parts(text)?,
    };
    total.map_or_else(|| refuse(32, 0), Ok)
}

/// The sum of the parts, `None` if it is too large: "each digits, optional blanks,
/// and a unit that is the longest run of letters there". 31 if the form is wrong.
fn sum_of_parts(text: &[u8]) -> Result<Option<u64>, Refusal> {
    let mut total = Some(0_u64);
    let mut rest = text;
    loop {
        let (digits, after) = split_digits(rest);
        let (letters, after) = split_run(trim_start(after), u8::is_ascii_alphabetic);
        let Some(unit) = unit_of(letters).filter(|_| !digits.is_empty()) else {
            return refuse(31, 0);
        };
        total = total.and_then(|sum| sum.checked_add(microseconds(digits, unit)?));
        rest = trim_start(after);
        if rest.is_empty() {
            return Ok(total);
        }
    }
}

/// Microseconds of a unit.
fn unit_of(letters: &[u8]) -> Option<u64> {
    Some(match letters {
        b"us" => 1,
        b"ms" => 1_000,
        b"s" => SECOND,
        b"min" => 60 * SECOND,
        b"h" => 3_600 * SECOND,
        b"d" => 24 * 3_600 * SECOND,
        b"w" => 7 * 24 * 3_600 * SECOND,
        _ => return None,
    })
}

/// The decimal number times its unit, `None` if that is too large. All bytes have
/// to be digits.
fn microseconds(digits: &[u8], unit: u64) -> Option<u64> {
    let number = digits.iter().try_fold(0_u64, |number, &digit| {
        number.checked_mul(10)?.checked_add(u64::from(digit - b'0'))
    })?;
    number.checked_mul(unit)
}

/// The digits at the start, and what follows them.
fn split_digits(text: &[u8]) -> (&[u8], &[u8]) {
    split_run(text, u8::is_ascii_digit)
}

/// The longest start all of whose bytes are of a kind, and what follows it.
fn split_run(text: &[u8], kind: impl Fn(&u8) -> bool) -> (&[u8], &[u8]) {
    let length = text.iter().position(|b| !kind(b)).unwrap_or(text.len());
    text.split_at(length)
}
