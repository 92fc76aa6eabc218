//! A hundred accepted files, by kind. Ninety are near the full size, ten have 600 bytes.

use compare::random::Random;

/// Bytes of the longest file.
pub const FULL: usize = 65_535;
/// Bytes of a small file.
const SMALL: usize = 600;
/// The most entries of a file.
const ENTRIES: usize = 512;
/// The most bytes of a value: with its key it is below the limit of a line.
const LONGEST: usize = 4_000;

/// A kind of file: its name, how many there are, their size, and how the next line is drawn.
struct Kind {
    name: &'static str,
    count: usize,
    size: usize,
    line: fn(&mut Random) -> Line,
}

/// The next bytes of a file, whole physical lines.
enum Line {
    /// An entry, with the lines that it is joined of and the comments between them.
    Entry(Vec<u8>),
    /// A header, a comment or a blank line.
    Other(Vec<u8>),
}

const KINDS: [Kind; 7] = [
    Kind {
        name: "short lines",
        count: 15,
        size: FULL,
        line: short,
    },
    Kind {
        name: "long lines",
        count: 15,
        size: FULL,
        line: long,
    },
    Kind {
        name: "many comments",
        count: 15,
        size: FULL,
        line: commented,
    },
    Kind {
        name: "many joined lines",
        count: 15,
        size: FULL,
        line: joined,
    },
    Kind {
        name: "much UTF-8",
        count: 15,
        size: FULL,
        line: foreign,
    },
    Kind {
        name: "lines of all kinds",
        count: 15,
        size: FULL,
        line: any,
    },
    Kind {
        name: "600 bytes",
        count: 10,
        size: SMALL,
        line: short_or_commented,
    },
];

/// The files of each kind, with its name. The same at every run.
pub fn kinds() -> Vec<(&'static str, Vec<Vec<u8>>)> {
    let mut random = Random::new(9);
    let drawn = |kind: &Kind| {
        let files = (0..kind.count).map(|_| file(&mut random, kind));
        (kind.name, files.collect())
    };
    KINDS.iter().map(drawn).collect()
}

/// A file of a kind: a header, and lines up to its size; comments once it has all entries.
fn file(random: &mut Random, kind: &Kind) -> Vec<u8> {
    let mut file = header(random);
    let mut entries = 0;
    loop {
        let line = match (kind.line)(random) {
            Line::Entry(_) if entries == ENTRIES => comment(random, 8),
            Line::Entry(line) => {
                entries += 1;
                line
            }
            Line::Other(line) => line,
        };
        if file.len() + line.len() > kind.size {
            return file;
        }
        file.extend(line);
    }
}

// ---- kinds of lines

fn short(random: &mut Random) -> Line {
    match random.below(16) {
        0 => Line::Entry(entry(random, 6)),
        1 | 2 => Line::Other(header(random)),
        3..=8 => Line::Other(comment(random, 12)),
        9..=12 => Line::Other(b"\n".to_vec()),
        _ => Line::Other([random.blanks(8), b"\n".to_vec()].concat()),
    }
}

fn long(random: &mut Random) -> Line {
    match random.below(8) {
        0 => Line::Other(header(random)),
        1 => Line::Other(comment(random, 60)),
        _ => Line::Entry(entry(random, LONGEST)),
    }
}

fn commented(random: &mut Random) -> Line {
    match random.below(16) {
        0 => Line::Other(header(random)),
        1..=4 => Line::Entry(entry(random, 40)),
        _ => Line::Other(comment(random, 90)),
    }
}

/// An entry over two to twelve physical lines, with comments between some of them.
fn joined(random: &mut Random) -> Line {
    if random.one_in(12) {
        return Line::Other(header(random));
    }
    let mut line = entry(random, 40);
    for _ in 0..random.between(1, 11) {
        go_on(random, &mut line, 60);
    }
    Line::Entry(line)
}

/// Joins another physical line, perhaps behind a comment.
fn go_on(random: &mut Random, line: &mut Vec<u8>, most: usize) {
    line.pop();
    line.extend_from_slice(b" \\\n");
    if random.one_in(3) {
        line.extend(comment(random, 40));
    }
    line.extend(random.blanks(8));
    line.extend(words(random, most));
    line.push(b'\n');
}

/// Words in other scripts.
fn foreign(random: &mut Random) -> Line {
    let script = random.pick(&[
        "äöüåéèßñ",
        "жизньвесыгруз",
        "重量吊钩读数",
        "αβγδεζη",
        "⚖🏗😀℃",
    ]);
    let letters: Vec<char> = script.chars().collect();
    let mut text = String::new();
    let length = random.between(40, 200);
    while text.len() < length {
        for _ in 0..random.between(2, 9) {
            text.push(random.pick(&letters));
        }
        text.push(' ');
    }
    text.push_str("kg\n");
    match random.below(4) {
        0 => Line::Other([b"# ", text.as_bytes()].concat()),
        _ => Line::Entry([&key(random), &b" = "[..], text.as_bytes()].concat()),
    }
}

fn any(random: &mut Random) -> Line {
    let kind = random.pick(&[
        short, short, short, short, commented, commented, joined, foreign,
    ]);
    if random.one_in(64) {
        return long(random);
    }
    kind(random)
}

fn short_or_commented(random: &mut Random) -> Line {
    match random.below(4) {
        0 => short(random),
        1 => joined_once(random),
        _ => commented(random),
    }
}

fn joined_once(random: &mut Random) -> Line {
    let mut line = entry(random, 30);
    go_on(random, &mut line, 30);
    Line::Entry(line)
}

// ---- parts of lines

/// One of 48 section names.
fn header(random: &mut Random) -> Vec<u8> {
    let name = random.pick(&["Cell", "Link", "Display", "Filter", "Load Sum", "Zero"]);
    format!("[{name} {}]\n", random.between(1, 8)).into_bytes()
}

fn comment(random: &mut Random, most: usize) -> Vec<u8> {
    [&random.pick(&[b"#", b";"])[..], &words(random, most), b"\n"].concat()
}

fn key(random: &mut Random) -> Vec<u8> {
    let length = random.between(2, 12);
    random.word(b"abcdefghijklmnopqrstuvwxyzABCDEFGHIJ0123456789-_.", length)
}

/// A key and a value of words, mostly with blanks at the equals sign.
fn entry(random: &mut Random, most: usize) -> Vec<u8> {
    let equals = random.pick(&["=", " = ", "= "]);
    [&key(random), equals.as_bytes(), &words(random, most), b"\n"].concat()
}

/// Words with a space between them, of at most so many bytes together.
fn words(random: &mut Random, most: usize) -> Vec<u8> {
    let length = random.between(0, most);
    let mut text = Vec::new();
    while text.len() < length {
        let word = random.between(1, 9);
        text.extend(random.word(b"etaoinshrdlucmfwypvbgkjqxz0123456789", word));
        text.push(b' ');
    }
    text.truncate(length);
    text
}

#[cfg(test)]
mod tests {
    use super::*;

    #[test]
    fn a_hundred_files_are_accepted_and_ninety_near_the_full_size() {
        let files: Vec<Vec<u8>> = kinds().into_iter().flat_map(|(_, files)| files).collect();
        assert_eq!(files.len(), 100);
        let near = files.iter().filter(|file| file.len() > FULL - LONGEST);
        assert_eq!(near.count(), 90);
        assert_eq!(files.iter().filter(|file| file.len() <= SMALL).count(), 10);
        for file in &files {
            assert!(havtsulen::Table::read(file).is_ok());
        }
    }
}
