//! Logical lines of a given length, in one physical line or in many.

use crate::files::comment;
use crate::random::Random;

/// Bytes of the longest logical line.
pub const LINE: usize = 4096;

/// The bytes of a logical line of this length, before it is broken into physical ones.
fn unbroken_line(random: &mut Random, length: usize) -> Vec<u8> {
    let mut line = vec![b'a'; length];
    match random.below(5) {
        0 => line.fill(b' '),
        1 => {
            line[0] = b'[';
            line[length - 1] = b']';
            return line;
        }
        2 => {
            let (left, right) = (random.between(1, 2000), random.between(1, 2000));
            line[..left].fill(b'\t');
            line[length - right..].fill(b' ');
            line[left..left + 2].copy_from_slice(b"K=");
        }
        3 => {
            let count = random.between(1, length / 2 - 2);
            line.splice(2..2 + 2 * count, "é".repeat(count).bytes());
            line[1] = b'=';
        }
        _ => line[1] = b'=',
    }
    line
}

/// Puts line breaks, none or up to some thousands, where the line has a letter or a space; comments between
/// them, none or up to some hundreds, count nothing.
pub fn break_up(random: &mut Random, line: &[u8]) -> Vec<u8> {
    let breaks = random.pick(&[0, 0, 0, 0, 1, 1, 2, 2, 9, 9, 300, 2000]);
    let rate = line.len().div_ceil(breaks.max(1));
    let comments = random.pick(&[0, 0, 0, 0, 1, 1, 1, 600 / breaks.max(1)]);
    let mut broken = Vec::new();
    for (offset, &byte) in line.iter().enumerate() {
        let inside = 2 < offset && offset + 1 < line.len();
        let breakable = inside && matches!(byte, b'a' | b' ');
        if breaks == 0 || !breakable || !random.one_in(rate) {
            broken.push(byte);
            continue;
        }
        broken.extend_from_slice(b"\\\n");
        broken.extend((0..comments).flat_map(|_| comment(random)));
    }
    broken
}

/// A logical line of this length, in one or more physical lines, and its LF.
pub fn long_line(random: &mut Random, length: usize) -> Vec<u8> {
    let unbroken = unbroken_line(random, length);
    let mut line = break_up(random, &unbroken);
    line.push(b'\n');
    line
}

/// An entry of this length in one physical line; the key may be nearly all of it, and so may the value.
pub fn unbroken_entry(random: &mut Random, length: usize) -> Vec<u8> {
    let any = random.between(1, length - 1);
    let key = random.pick(&[1, length / 2, length - 2, length - 1, any]);
    let mut entry = random.word(b"ab09-_.", length);
    entry[key] = b'=';
    entry
}

/// The line without its LF, lengthened to this many bytes: with blanks before it, or blanks or letters behind
/// it, in one physical line or in many.
pub fn stretched(random: &mut Random, line: &[u8], length: usize) -> Vec<u8> {
    let line = line.strip_suffix(b"\n").unwrap_or(line);
    let joined = line.iter().filter(|&&byte| byte != b'\n').count();
    let filler = random.pick(b" a");
    let filler = break_up(random, &vec![filler; length - joined]);
    let mut parts = [line, &filler];
    if filler[0] == b' ' && random.one_in(2) {
        parts.reverse();
    }
    [parts.concat(), b"\n".to_vec()].concat()
}
