//! Each of the 256 bytes in every role that a byte can have.

use crate::buffers::{file_case, split_case, text_case};
use crate::case::{Call, Case};
use crate::random::Random;

/// What stands before the byte, and what behind it.
type Role = (&'static [u8], &'static [u8]);

/// In a file.
const FILE: [Role; 32] = [
    // alone, and as the first byte of a line
    (b"", b""),
    (b"", b"[A]\nK=1\n"),
    (b"[A]\n", b"\nK=1\n"),
    (b"[A]\n", b"K=1\nJ=2\n"),
    (b"[A]\nK=1\n", b"[B]\n"),
    (b"[A]\nK=a\\\n", b"b\nJ=2\n"),
    (b"[A]\nK=a\\\n", b"\nJ=2\n"),
    // in a key: alone, first, inside, last, behind a blank
    (b"[A]\n", b"=1\n"),
    (b"[A]\n", b"ey=1\n"),
    (b"[A]\nk", b"y=1\n"),
    (b"[A]\nke", b"=1\n"),
    (b"[A]\nk", b" y=1\n"),
    // in a name: alone, first, inside, last
    (b"[", b"]\nK=1\n"),
    (b"[", b"ame]\nK=1\n"),
    (b"[n", b"me]\nK=1\n"),
    (b"[nam", b"]\nK=1\n"),
    // around a header
    (b" ", b"[A]\nK=1\n"),
    (b"[A]", b"\nK=1\n"),
    (b"[A] ", b" \nK=1\n"),
    (b"[A", b"\nK=1\n"),
    // around the =
    (b"[A]\nK ", b"=1\n"),
    (b"[A]\nK ", b" =1\n"),
    (b"[A]\nK", b"1\n"),
    (b"[A]\nK=", b"1\n"),
    (b"[A]\nK= ", b" 1\n"),
    (b"[A]\nK=", b""),
    // in a value, at its end, and around a backslash there
    (b"[A]\nK=a", b"b\n"),
    (b"[A]\nK=a", b"\nJ=2\n"),
    (b"[A]\nK=a\\", b"\nJ=2\n"),
    (b"[A]\nK=a", b"\\\nJ=2\n"),
    // in a comment, also between continued lines
    (b"#", b"\n[A]\nK=1\n"),
    (b"[A]\nK=a\\\n;", b"\nb\n"),
];
const FILE_CALLS: [Call; 4] = [
    Call::WellFormedLength,
    Call::CheckFile,
    Call::Read,
    Call::NormalText,
];

/// In a text to split.
const SPLIT: [Role; 33] = [
    // alone, and in a bare item: first, inside, last
    (b"", b""),
    (b"", b"bc"),
    (b"a", b"c"),
    (b"ab", b""),
    (b"a ", b" c"),
    // in quotes: alone, inside, not closed
    (b"\"", b"\""),
    (b"'", b"'"),
    (b"\"a", b"c\""),
    (b"'a", b"c'"),
    (b"\"a", b""),
    (b"'a", b""),
    // behind a closing quote
    (b"\"a\"", b""),
    (b"'a'", b""),
    (b"\"a\"", b"c"),
    (b"'a'", b"c"),
    (b"''", b" c"),
    // behind a backslash
    (b"\\", b""),
    (b"a\\", b"c"),
    (b"\"\\", b"c\""),
    (b"'\\", b"c'"),
    (b"\"a\\", b"\""),
    (b"'a\\", b"'"),
    // as a digit of an escape
    (b"\\", b"01"),
    (b"\\1", b"1"),
    (b"\\10", b""),
    (b"\\x", b"1"),
    (b"\\x1", b""),
    (b"\\u", b"0e9"),
    (b"\\u0", b"e9"),
    (b"\\u00", b"9"),
    (b"\\u00e", b""),
    (b"\\U0000", b"123"),
    (b"\\U0000004", b""),
];

/// In a boolean word.
const BOOLEAN: [Role; 9] = [
    (b"", b""),
    (b"", b"yes"),
    (b"y", b"s"),
    (b"ye", b"s"),
    (b"yes", b""),
    (b"", b"0"),
    (b"0", b""),
    (b"o", b"f"),
    (b"o", b""),
];

/// In a time span.
const SPAN: [Role; 17] = [
    (b"", b""),
    // before, also in the place of a digit
    (b"", b"1s"),
    (b" ", b"1s"),
    (b"", b"s"),
    (b"1", b"1s"),
    (b"1", b"1"),
    // between number and unit, and in a unit
    (b"1", b"s"),
    (b"1 ", b" s"),
    (b"1", b"in"),
    (b"1m", b"n"),
    (b"1m", b""),
    // between parts
    (b"1s", b"2ms"),
    (b"1s ", b" 2ms"),
    // after
    (b"1", b""),
    (b"1s", b""),
    (b"1s ", b""),
    (b"1s 2ms ", b" "),
];

/// The byte and the role with this index, as a text.
fn text(roles: &[Role], index: usize) -> Vec<u8> {
    let (before, after) = roles[index / 256];
    [before, &[index as u8], after].concat()
}

/// How many cases `files` has.
pub const FILES: usize = FILE_CALLS.len() * FILE.len() * 256;

/// Each byte in each role of a file, for each call that takes one.
pub fn files(index: usize, random: &mut Random) -> Case {
    let call = FILE_CALLS[index % FILE_CALLS.len()];
    file_case(random, call, text(&FILE, index / FILE_CALLS.len()))
}

/// How many cases `splits` has.
pub const SPLITS: usize = SPLIT.len() * 256;

/// Each byte in each role of a text to split.
pub fn splits(index: usize, random: &mut Random) -> Case {
    split_case(random, text(&SPLIT, index))
}

/// How many cases `booleans` has.
pub const BOOLEANS: usize = BOOLEAN.len() * 256;

/// Each byte in each role of a boolean word.
pub fn booleans(index: usize, random: &mut Random) -> Case {
    text_case(random, Call::Boolean, text(&BOOLEAN, index))
}

/// How many cases `spans` has.
pub const SPANS: usize = SPAN.len() * 256;

/// Each byte in each role of a time span.
pub fn spans(index: usize, random: &mut Random) -> Case {
    text_case(random, Call::Span, text(&SPAN, index))
}
