//! Files with faults placed on purpose: each refusal of a file, several at once, early and late.

use havtsulen::FILE_BYTES;

use crate::buffers::any_file_case;
use crate::case::Case;
use crate::files::{joined, pieces, Pieces};
use crate::limits::{many_entries, many_sections, ENTRIES, SECTIONS};
use crate::long_lines::{long_line, stretched, LINE};
use crate::random::Random;
use crate::utf8;

/// Lines with a fault of this number, one of 3 to 8 or 10.
pub fn fault(random: &mut Random, number: usize) -> Vec<u8> {
    match number {
        3 => around(random, utf8::broken),
        4 => around(random, control),
        5 if random.one_in(3) => {
            let number = random.between(6, 8);
            long_fault(random, number)
        }
        5 => {
            let length = LINE + random.between(1, 900);
            long_line(random, length)
        }
        6 => bad_header(random),
        7 => random
            .pick(&[&b"K\n"[..], b" a b \n", b"K\\\n\n", b"x]\n", b"\"\n"])
            .to_vec(),
        8 => bad_key(random),
        _ => too_many(random),
    }
}

/// A line that is too long and has a fault of this number too, one of 6 to 8.
pub fn long_fault(random: &mut Random, number: usize) -> Vec<u8> {
    let line = fault(random, number);
    let length = LINE + random.pick(&[1, 1, 2, 900]);
    stretched(random, &line, length)
}

/// Puts a fault of this number into the file: 9 before everything, any other at any place, often at the
/// end.
fn put_fault(random: &mut Random, pieces: &mut Pieces, number: usize) {
    let last = pieces.len();
    let at = if random.one_in(3) {
        last
    } else {
        random.between(0, last)
    };
    if number == 9 {
        pieces.insert(
            0,
            random
                .pick(&[&b"K=1\n"[..], b"K\\\n=\n", b" K = \n"])
                .to_vec(),
        );
    } else {
        pieces.insert(at, fault(random, number));
    }
}

/// Bytes in a comment, in a value, in a key, in a header or alone.
fn around(random: &mut Random, bytes: fn(&mut Random) -> Vec<u8>) -> Vec<u8> {
    let (before, after) = random.pick(&[
        (&b"#"[..], &b"\n"[..]),
        (b"K=a", b"b\n"),
        (b"K", b"=b\n"),
        (b"[a", b"]\n"),
        (b"", b"\n"),
        (b"K=\\\n", b"\n"),
    ]);
    [before, &bytes(random), after].concat()
}

/// A control byte that files may not have.
fn control(random: &mut Random) -> Vec<u8> {
    match random.below(0x20) as u8 {
        b'\t' | b'\n' => vec![0x7f],
        byte => vec![byte],
    }
}

fn bad_header(random: &mut Random) -> Vec<u8> {
    const BAD: [&[u8]; 14] = [
        b"[\n",
        b"[]\n",
        b"[a\n",
        b"[a]x\n",
        b"[a]=1\n",
        b"[a[b]\n",
        b"[a]b]\n",
        b"[[a]]\n",
        b"[\t]\n",
        b"[a\tb]\n",
        b"[\xc3\xa9]\n",
        b"[a\\\n",
        b" [ \n",
        b"[a] ] \n",
    ];
    random.pick(&BAD).to_vec()
}

fn bad_key(random: &mut Random) -> Vec<u8> {
    const BAD: [&[u8]; 10] = [
        b"=\n",
        b"=a\n",
        b" = a\n",
        b"a b=\n",
        b"a/b=1\n",
        b"\xc3\xa9=1\n",
        b"a\\=1\n",
        b"a\\\nb=1\n",
        b"]=1\n",
        b"\"a\"=1\n",
    ];
    random.pick(&BAD).to_vec()
}

/// Lines with a section or an entry too many.
pub fn too_many(random: &mut Random) -> Vec<u8> {
    let more = random.between(1, 3);
    if random.one_in(2) {
        many_sections(random, SECTIONS + more)
    } else {
        many_entries(random, ENTRIES + more)
    }
}

/// Makes the file longer than files may be.
fn make_too_long(random: &mut Random, file: &mut Vec<u8>) {
    let length = FILE_BYTES + random.pick(&[0, 1, 1, 2, 500]);
    let filler = random.pick(b"\n#a \xff");
    if file.len() < length {
        file.resize(length, filler);
    }
    if file.len() == FILE_BYTES && filler == b'\n' {
        file.push(filler);
    }
}

/// A file with these faults.
fn with_faults(random: &mut Random, numbers: &[usize]) -> Vec<u8> {
    let mut pieces = pieces(random);
    for &number in numbers.iter().filter(|&&number| number != 2) {
        put_fault(random, &mut pieces, number);
    }
    let mut file = joined(random, &pieces);
    if numbers.contains(&2) {
        make_too_long(random, &mut file);
    }
    file
}

/// A case with one fault.
pub fn one(random: &mut Random) -> Case {
    let number = random.between(2, 10);
    let file = with_faults(random, &[number]);
    any_file_case(random, file)
}

/// A case with two or three faults.
pub fn several(random: &mut Random) -> Case {
    let numbers: Vec<usize> = (0..random.between(2, 3))
        .map(|_| random.between(2, 10))
        .collect();
    let file = with_faults(random, &numbers);
    any_file_case(random, file)
}
