//! Files of the full size that ask for much work a byte.

use compare::random::Random;

use crate::files::FULL;

/// A shape: its name, its file, and the number that a call answers to it.
pub struct Shape {
    pub name: String,
    pub file: Vec<u8>,
    pub number: usize,
}

impl Shape {
    fn new(name: &str, file: Vec<u8>, number: usize) -> Shape {
        Shape {
            name: name.to_string(),
            file: closed(file),
            number,
        }
    }
}

/// All shapes.
pub fn shapes() -> Vec<Shape> {
    let mut shapes = same_lines();
    shapes.extend(same_names());
    shapes.extend(drawn_names());
    shapes.push(Shape::new(
        "short lines of seven kinds, drawn",
        drawn(&short_lines()),
        0,
    ));
    shapes.push(Shape::new(
        "spaces, tabs and LF, drawn",
        drawn(&blank_bytes()),
        0,
    ));
    shapes.push(Shape::new(
        "512 entries in 64 sections by turns, `\\` at the end",
        by_turns(),
        0,
    ));
    shapes
}

/// One line, or one kind of line, again and again.
fn same_lines() -> Vec<Shape> {
    let shape = |name, pieces: &[&[u8]], number| Shape::new(name, in_turn(pieces), number);
    let blanks = [&[b' '; 4_094][..], b"\n"].concat();
    let pairs = [&b"\\\n".repeat(4_095)[..], b"\n"].concat();
    let over_comments = [b"[a]\nb=\\\n".to_vec(), b"#\n".repeat(32_763)].concat();
    vec![
        shape("only LF", &[b"\n"], 0),
        shape("a space, LF", &[b" \n"], 0),
        shape("lines of 4,094 blanks", &[&blanks], 0),
        shape("only comments: `#`, LF", &[b"#\n"], 0),
        Shape::new("only a comment of 65,534 bytes", Vec::new(), 0),
        shape("`\\`, LF: 4,095 to a line", &[&pairs], 0),
        shape("`\\`, LF: all one line, refused (5)", &[b"\\\n"], 5),
        Shape::new("one line joined over comments: `#`, LF", over_comments, 0),
        shape("16,383 headers of one name, 1 byte", &[b"[a]\n"], 0),
        shape("5,957 headers of one name, 8 bytes", &[b"[ABCDEFGH]\n"], 0),
    ]
}

/// Headers of 64 names by turns.
fn same_names() -> Vec<Shape> {
    let mut shapes = Vec::new();
    for length in [1, 2, 8, 9, 16, 100, 1_000] {
        let name = format!("64 names that differ in their last byte, {length} long");
        shapes.push(Shape::new(&name, in_turn(&headers(length, length - 1)), 0));
    }
    let mut falling = headers(1, 0);
    falling.reverse();
    shapes.push(Shape::new(
        "64 names, 1 long, falling",
        in_turn(&falling),
        0,
    ));
    shapes
}

/// Headers of 64 names in no order.
fn drawn_names() -> Vec<Shape> {
    let mut shapes = Vec::new();
    for (length, at) in [(1, 0), (2, 1), (9, 8), (9, 4), (100, 50)] {
        let name = format!("64 names that differ in byte {at}, {length} long, drawn");
        shapes.push(Shape::new(&name, drawn(&headers(length, at)), 0));
    }
    shapes.push(Shape::new(
        "32 pairs such as `aaaa`, `aaaaa`, drawn",
        drawn(&pairs(4, 5)),
        0,
    ));
    shapes.push(Shape::new(
        "32 pairs of 9 and 137 bytes, drawn",
        drawn(&pairs(9, 137)),
        0,
    ));
    shapes
}

// ---- whole files

/// A last comment, or LF, up to the full size.
fn closed(mut file: Vec<u8>) -> Vec<u8> {
    file.resize(FULL.max(file.len()), b'#');
    file[FULL - 1] = b'\n';
    file
}

/// Pieces one after the other, again and again, as long as they fit.
fn in_turn<T: AsRef<[u8]>>(pieces: &[T]) -> Vec<u8> {
    fitting(pieces.iter().cycle())
}

/// All pieces, and then any of them again and again.
fn drawn<T: AsRef<[u8]> + Clone>(pieces: &[T]) -> Vec<u8> {
    let mut random = Random::new(12);
    let any = std::iter::from_fn(|| Some(random.pick(pieces)));
    fitting(pieces.iter().cloned().chain(any))
}

fn fitting<T: AsRef<[u8]>>(pieces: impl Iterator<Item = T>) -> Vec<u8> {
    let mut file = Vec::new();
    for piece in pieces {
        if file.len() + piece.as_ref().len() > FULL {
            break;
        }
        file.extend_from_slice(piece.as_ref());
    }
    file
}

// ---- pieces

fn header(name: &[u8]) -> Vec<u8> {
    [b"[", name, b"]\n"].concat()
}

/// Bytes that a name may have, 64 of them.
fn name_bytes() -> impl Iterator<Item = u8> {
    (b'!'..=b'z').filter(|byte| !b"[]".contains(byte)).take(64)
}

/// The headers of 64 names that are the same but for the byte at this offset.
fn headers(length: usize, at: usize) -> Vec<Vec<u8>> {
    let mut name = vec![b'n'; length];
    let changed = name_bytes().map(|byte| {
        name[at] = byte;
        header(&name)
    });
    changed.collect()
}

/// The headers of 32 pairs of names, each of one byte repeated.
fn pairs(short: usize, long: usize) -> Vec<Vec<u8>> {
    let bytes = name_bytes().take(32);
    let pair = |byte| [short, long].map(|length| header(&vec![byte; length]));
    bytes.flat_map(pair).collect()
}

/// Lines of one to four bytes, a header first.
fn short_lines() -> [&'static [u8]; 7] {
    [b"[a]\n", b"\n", b" \n", b"\t\n", b"#\n", b";\n", b"\\\n"]
}

fn blank_bytes() -> [&'static [u8]; 3] {
    [b" ", b"\t", b"\n"]
}

/// Each entry in another section than the one before it. A blank stands behind the value, so that its last byte joins
/// nothing, and the normal text has to put a space there.
fn by_turns() -> Vec<u8> {
    let headers = headers(2, 1);
    let entry = [b"k=", &[b'v'; 117][..], b"\\ \n"].concat();
    let turns = headers.iter().cycle().take(512);
    turns
        .flat_map(|header| [&header[..], &entry])
        .flatten()
        .copied()
        .collect()
}

#[cfg(test)]
mod tests {
    use super::*;

    #[test]
    fn every_shape_has_the_full_size_and_its_number() {
        for shape in shapes() {
            assert_eq!(shape.file.len(), FULL, "{}", shape.name);
            let answer = havtsulen::Table::read(&shape.file);
            let number = answer.map_or_else(|error| error.number(), |_| 0);
            assert_eq!(number, shape.number, "{}", shape.name);
        }
    }

    #[test]
    fn names_are_sixty_four_and_apart_in_one_byte() {
        for (length, at) in [(1, 0), (2, 1), (9, 4), (1_000, 999)] {
            let file = drawn(&headers(length, at));
            let table = havtsulen::Table::read(&file).expect("it is accepted");
            let names: Vec<&[u8]> = table.sections().collect();
            assert_eq!(names.len(), 64);
            for name in &names {
                assert_eq!(name.len(), length);
                assert_eq!(name[..at], names[0][..at]);
                assert_eq!(name[at + 1..], names[0][at + 1..]);
            }
        }
    }

    #[test]
    fn entries_by_turns_fill_the_table() {
        let table = havtsulen::Table::read(&by_turns()).expect("it is accepted");
        assert_eq!(
            (table.sections().count(), table.entries().count()),
            (64, 512)
        );
        assert!(table.entries().all(|entry| entry.value.ends_with(b"v\\")));
    }
}
