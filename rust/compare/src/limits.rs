//! Files at every limit, from both sides.

use havtsulen::FILE_BYTES;

use crate::buffers::any_file_case;
use crate::case::Case;
use crate::long_lines::{break_up, long_line, unbroken_entry, LINE};
use crate::random::Random;

/// The most sections of a file.
pub const SECTIONS: usize = 64;
/// The most entries of a file.
pub const ENTRIES: usize = 512;

/// A way to reach a limit.
#[derive(Clone, Copy)]
pub struct Shape {
    /// What it is called in reports.
    pub name: &'static str,
    /// The largest measure that is accepted.
    pub limit: usize,
    /// The refusal of a larger one.
    pub number: usize,
    /// Makes a file of this measure.
    pub make: fn(&mut Random, usize) -> Vec<u8>,
}

/// All shapes.
pub const SHAPES: [Shape; 10] = [
    Shape {
        name: "file with a last LF",
        limit: FILE_BYTES,
        number: 2,
        make: with_last_lf,
    },
    Shape {
        name: "file without",
        limit: FILE_BYTES - 1,
        number: 2,
        make: without_last_lf,
    },
    Shape {
        name: "normal file without",
        limit: FILE_BYTES - 1,
        number: 2,
        make: normal_without_last_lf,
    },
    Shape {
        name: "line",
        limit: LINE,
        number: 5,
        make: file_with_line,
    },
    Shape {
        name: "line at the end",
        limit: LINE,
        number: 5,
        make: line_at_end,
    },
    Shape {
        name: "entry",
        limit: LINE,
        number: 5,
        make: file_with_entry,
    },
    Shape {
        name: "continued at the end",
        limit: LINE,
        number: 5,
        make: continued_at_end,
    },
    Shape {
        name: "sections",
        limit: SECTIONS,
        number: 10,
        make: many_sections,
    },
    Shape {
        name: "entries",
        limit: ENTRIES,
        number: 10,
        make: many_entries,
    },
    Shape {
        name: "full table",
        limit: ENTRIES,
        number: 10,
        make: full_table,
    },
];

/// A physical line of this many bytes, its LF included.
fn sized_line(start: &[u8], filler: u8, size: usize) -> Vec<u8> {
    let mut line = vec![b'\n'; size];
    if size > start.len() {
        line[..start.len()].copy_from_slice(start);
        line[start.len()..size - 1].fill(filler);
    }
    line
}

/// A file of this many bytes that ends in LF: comments, entries, blanks or empty lines.
fn with_last_lf(random: &mut Random, length: usize) -> Vec<u8> {
    let (start, filler) =
        random.pick(&[(&b"#"[..], b'x'), (b"K=", b'a'), (b"", b' '), (b"", b'\n')]);
    let whole = start == b"#" && random.one_in(2);
    let mut file = b"[A]\n".to_vec();
    while file.len() < length {
        let left = length - file.len();
        let size = if whole {
            left
        } else {
            left.min(random.between(200, LINE))
        };
        file.extend(sized_line(start, filler, size));
    }
    file
}

/// A file of this many bytes that does not end in LF.
fn without_last_lf(random: &mut Random, length: usize) -> Vec<u8> {
    let mut file = with_last_lf(random, length);
    file[length - 1] = b' ';
    file
}

/// A file of this many bytes that ends in a letter; with a last LF it would be its own normal text.
pub fn normal_without_last_lf(random: &mut Random, length: usize) -> Vec<u8> {
    let mut file = b"[A]\n".to_vec();
    while file.len() <= length {
        let left = length + 1 - file.len();
        let size = if left <= LINE {
            left
        } else {
            random.between(200, LINE - 200)
        };
        file.extend(sized_line(b"K=", b'a', size));
    }
    file.pop();
    file
}

fn file_with_line(random: &mut Random, length: usize) -> Vec<u8> {
    let line = long_line(random, length);
    let before = random.pick(&[&b"[A]\n"[..], b"[A]\nK=1\n# x\\\n", b"#\n\n[A]\n\n"]);
    let after = random.pick(&[&b""[..], b"[B]\n", b"J=2\n", b"#"]);
    [before, &line, after].concat()
}

/// The line ends with the file, without LF.
fn line_at_end(random: &mut Random, length: usize) -> Vec<u8> {
    let mut file = [&b"[A]\n"[..], &long_line(random, length)].concat();
    file.pop();
    file
}

/// The line is an entry whose key and value are any parts of it.
fn file_with_entry(random: &mut Random, length: usize) -> Vec<u8> {
    let line = unbroken_entry(random, length);
    let after = random.pick(&[&b""[..], b"\n", b"\n[B]\n", b"\nK=1"]);
    [b"[A]\n", &line[..], after].concat()
}

/// The last line ends in a backslash, which counts as a space; nothing or only comments follow.
fn continued_at_end(random: &mut Random, length: usize) -> Vec<u8> {
    let mut line = b"K=".to_vec();
    line.resize(length - 1, b'a');
    let line = break_up(random, &line);
    let end = random.pick(&[&b"\\"[..], b"\\\n", b"\\\n#x", b"\\\n;\\\n#y\n"]);
    [b"[A]\n", &line[..], end].concat()
}

/// So many sections, with some that come back, and some entries.
pub fn many_sections(random: &mut Random, count: usize) -> Vec<u8> {
    let width = random.pick(&[0, 2, 20]);
    let mut file = Vec::new();
    for number in 0..count {
        file.extend(format!("[s{number:0width$}]\n").bytes());
        let back = random.between(0, number);
        match random.below(6) {
            0 => file.extend(format!("[s{back:0width$}]\n").bytes()),
            1 => file.extend(b"K=1\n"),
            _ => {}
        }
    }
    file
}

/// So many entries, in a few sections.
pub fn many_entries(random: &mut Random, count: usize) -> Vec<u8> {
    let mut file = b"[s0]\n".to_vec();
    for number in 0..count {
        match random.below(12) {
            0 => file.extend(format!("[s{}]\n", random.below(9)).bytes()),
            1 => file.extend(b"\n"),
            _ => {}
        }
        file.extend(format!("K{}={number}\n", number % 7).bytes());
    }
    file
}

/// Bytes of the longest header and entry of `full_table`, without their filler.
const FULL_LINES: usize = "[section 63]\nKey.513=513\n".len();

/// All sections and so many entries, dealt out to them in turn, in a short file or in one that is full, or
/// nearly so.
fn full_table(random: &mut Random, count: usize) -> Vec<u8> {
    let longest = FILE_BYTES / count - FULL_LINES;
    let filler = "x".repeat(random.pick(&[0, 1, longest]));
    let mut file = Vec::new();
    for number in 0..count {
        let section = number % SECTIONS;
        file.extend(format!("[section {section}]\nKey.{number}={filler}{number}\n").bytes());
    }
    if filler.len() == longest {
        file.resize(FILE_BYTES - random.below(3), b'\n');
    }
    file
}

/// A case at a limit, or next to it.
pub fn drawn(random: &mut Random) -> Case {
    let shape = random.pick(&SHAPES);
    let measure = shape.limit - 1 + random.below(4);
    let file = (shape.make)(random, measure);
    any_file_case(random, file)
}
