//! Files by the grammar of the rules, files with small changes, and files of few bytes.

use crate::buffers::{any_file_case, file_case};
use crate::case::{Call, Case};
use crate::mutate::{mutate, nth_string, strings_up_to};
use crate::random::Random;
use crate::utf8;

/// The bytes that mean something in a file.
const MEANINGFUL: &[u8] = b"[]=\\\n #;ab\t\"";
const LETTERS: &[u8] = b"abcdefgXYZ0189";

/// A file under way: pieces that each are one or more whole physical lines.
pub type Pieces = Vec<Vec<u8>>;

/// The names and keys that a file uses again and again.
struct Names {
    sections: Vec<Vec<u8>>,
    keys: Vec<Vec<u8>>,
}

fn section_name(random: &mut Random) -> Vec<u8> {
    let length = random.between(1, 6);
    match random.below(4) {
        0 => (0..length).map(|_| printable(random)).collect(),
        1 => [&b" "[..], &random.word(LETTERS, length), b" "].concat(),
        _ => random.word(LETTERS, length),
    }
}

/// A byte that a section name may have.
fn printable(random: &mut Random) -> u8 {
    match random.between(0x20, 0x7e) as u8 {
        b'[' | b']' => b'\\',
        byte => byte,
    }
}

fn key_name(random: &mut Random) -> Vec<u8> {
    let length = random.between(1, 5);
    let alphabet = random.pick(&[LETTERS, b"aZ09-_.", b"K"]);
    random.word(alphabet, length)
}

fn names(random: &mut Random) -> Names {
    let (sections, keys) = (random.between(1, 6), random.between(1, 5));
    Names {
        sections: (0..sections).map(|_| section_name(random)).collect(),
        keys: (0..keys).map(|_| key_name(random)).collect(),
    }
}

/// Whether the last physical line ends in an odd run of backslashes.
fn ends_odd(line: &[u8]) -> bool {
    let run = line.iter().rev().take_while(|&&byte| byte == b'\\');
    run.count() % 2 == 1
}

/// A comment line: its own backslash at the end joins nothing.
pub fn comment(random: &mut Random) -> Vec<u8> {
    let length = random.between(0, 12);
    let mut line = vec![random.pick(b"#;")];
    line.extend(random.word(b"ab =[]#;\\\t\"", length));
    if random.one_in(4) {
        line.extend(utf8::character(random));
    }
    line.extend_from_slice(random.pick(&[&b"\n"[..], b"\\\n", b"\\\\\n"]));
    line
}

/// Breaks the line here: an odd run of backslashes, LF, perhaps comments, perhaps blanks.
pub fn put_break(random: &mut Random, line: &mut Vec<u8>) {
    line.push(b'\\');
    if !ends_odd(line) {
        line.push(b'\\');
    }
    line.push(b'\n');
    while random.one_in(3) {
        line.extend(comment(random));
    }
    line.extend(random.blanks(2));
}

fn put_value_piece(random: &mut Random, line: &mut Vec<u8>) {
    let piece = match random.below(9) {
        0 => random.blanks(3),
        1 => random.pick(&[&b"="[..], b"==", b" = "]).to_vec(),
        2 => utf8::character(random),
        3 => vec![b'\\'; random.between(1, 5)],
        4 => random.word(b"\"'#;[]%/", 2),
        5 => {
            put_break(random, line);
            Vec::new()
        }
        _ => {
            let length = random.between(1, 8);
            random.word(LETTERS, length)
        }
    };
    line.extend(piece);
}

/// Ends a logical line. An odd run that is left at its end joins the next line, once in a while.
fn end_line(random: &mut Random, mut line: Vec<u8>) -> Vec<u8> {
    if ends_odd(&line) && !random.one_in(4) {
        line.extend_from_slice(random.pick(&[&b" "[..], b"\t", b"\\", b"x"]));
    }
    line.push(b'\n');
    line
}

fn header(random: &mut Random, names: &Names) -> Vec<u8> {
    let name = random.pick(&names.sections);
    let mut line = random.blanks(2);
    line.push(b'[');
    if random.one_in(20) {
        line.extend_from_slice(&name[..1]);
        put_break(random, &mut line);
        line.retain(|&byte| byte != b'\t');
    }
    line.extend(name);
    line.push(b']');
    line.extend(random.blanks(2));
    line.push(b'\n');
    line
}

fn entry(random: &mut Random, names: &Names) -> Vec<u8> {
    let mut line = random.blanks(2);
    line.extend(random.pick(&names.keys));
    if random.one_in(12) {
        put_break(random, &mut line);
    }
    line.extend(random.blanks(2));
    line.push(b'=');
    line.extend(random.blanks(2));
    for _ in 0..random.pick(&[0, 1, 2, 3, 8]) {
        put_value_piece(random, &mut line);
    }
    end_line(random, line)
}

/// An empty line, or one that is empty after joining and trimming.
fn empty(random: &mut Random) -> Vec<u8> {
    let mut line = random.blanks(3);
    if random.one_in(4) {
        put_break(random, &mut line);
    }
    line.push(b'\n');
    line
}

/// Pieces of a file of the grammar, mostly accepted: a header first.
pub fn pieces(random: &mut Random) -> Pieces {
    let names = names(random);
    let count = random.pick(&[0, 1, 3, 8, 8, 20, 60]);
    let mut pieces = Vec::new();
    if count > 0 {
        pieces.push(header(random, &names));
    }
    for _ in 0..count {
        pieces.push(match random.below(8) {
            0 | 1 => header(random, &names),
            2 => comment(random),
            3 => empty(random),
            _ => entry(random, &names),
        });
    }
    let at = random.below(pieces.len() + 1).min(1);
    pieces.insert(at, comment(random));
    pieces
}

/// The pieces as a file, with or without its last LF.
pub fn joined(random: &mut Random, pieces: &Pieces) -> Vec<u8> {
    let mut file = pieces.concat();
    if random.one_in(3) {
        file.pop();
    }
    file
}

/// A file of the grammar.
pub fn grammar(random: &mut Random) -> Vec<u8> {
    let pieces = pieces(random);
    joined(random, &pieces)
}

/// A case with a file of the grammar.
pub fn drawn(random: &mut Random) -> Case {
    let file = grammar(random);
    any_file_case(random, file)
}

/// A case with a file of the grammar and a few changed bytes.
pub fn mutated(random: &mut Random) -> Case {
    let mut file = grammar(random);
    mutate(random, &mut file, b"[]=\\\n #;ab\t\"\r\0\x7f\xc3\xa9\xff");
    any_file_case(random, file)
}

/// A case with a file of few different bytes; mostly behind a header.
pub fn few_bytes(random: &mut Random) -> Case {
    let length = random.between(0, 40);
    let start = random.pick(&[&b""[..], b"[a]\n", b"[a]\nb=", b"[a]\nb=\\\n"]);
    let file = [start, &random.word(MEANINGFUL, length)].concat();
    any_file_case(random, file)
}

const SHORT: &[u8] = b"[]=\\\n #a";
/// How many cases `short_listed` has.
pub const SHORT_LISTED: usize = strings_up_to(SHORT, 5);

/// Every short string over a small alphabet, for the call that fills all buffers.
pub fn short_listed(index: usize, random: &mut Random) -> Case {
    file_case(random, Call::NormalText, nth_string(SHORT, index))
}

const BEHIND: &[u8] = b"\\\n #=a";
/// How many cases `behind_listed` has.
pub const BEHIND_LISTED: usize = strings_up_to(BEHIND, 6);

/// Every short string over a small alphabet, behind a header and the start of an entry, for the same call.
pub fn behind_listed(index: usize, random: &mut Random) -> Case {
    let file = [b"[a]\nb=", &nth_string(BEHIND, index)[..]].concat();
    file_case(random, Call::NormalText, file)
}
