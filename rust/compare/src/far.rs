//! Files of many physical lines: faults thousands of lines down, and lines joined of hundreds.

use crate::buffers::any_file_case;
use crate::case::Case;
use crate::faults::fault;
use crate::files::put_break;
use crate::full::one_more;
use crate::placed::{idle_lines, Placed};
use crate::random::Random;

/// A fault of this number, 3 to 10, behind thousands of lines. The bytes of 3 and 4 may stand in the second
/// physical line of theirs.
pub fn faulty(random: &mut Random, number: usize) -> Placed {
    let idle = some_thousand(random);
    if number == 10 {
        let placed = one_more(random);
        return Placed {
            before: [idle, placed.before].concat(),
            ..placed
        };
    }
    let before = match random.below(2) {
        _ if number == 9 => idle,
        0 => [idle, b"[A]\nK=1\n".to_vec()].concat(),
        _ => [b"[A]\n".to_vec(), idle].concat(),
    };
    let line = if number == 9 {
        random
            .pick(&[&b"K=1\n"[..], b"\\\nK=\n", b" K\\\n=1\n"])
            .to_vec()
    } else {
        fault(random, number)
    };
    Placed {
        before,
        line,
        after: b"K\n".to_vec(),
    }
}

/// Some thousands of idle lines, few enough for a table behind them; or so many empty ones that the number of
/// the next line is about 2^15.
fn some_thousand(random: &mut Random) -> Vec<u8> {
    if random.one_in(8) {
        return vec![b'\n'; (1 << 15) - random.below(9)];
    }
    let count = random.between(1000, 12_000);
    idle_lines(random, count)
}

/// A case with a fault far down.
pub fn drawn(random: &mut Random) -> Case {
    let number = random.between(3, 10);
    let file = faulty(random, number).file();
    any_file_case(random, file)
}

/// A header or an entry that is joined of so many physical lines, with comments between them.
fn joined_line(random: &mut Random, pieces: usize) -> Vec<u8> {
    let header = random.one_in(3);
    let mut line = if header {
        b"[".to_vec()
    } else {
        b"K=".to_vec()
    };
    for _ in 0..pieces {
        let length = random.below(4);
        line.extend(random.word(b"ab \\", length));
        put_break(random, &mut line);
    }
    if header {
        line.retain(|&byte| byte != b'\t');
        line.push(b']');
    }
    line.push(b'\n');
    line
}

/// A case with lines joined of hundreds.
pub fn joined(random: &mut Random) -> Case {
    let mut file = b"[A]\n".to_vec();
    for _ in 0..random.between(1, 3) {
        let pieces = random.between(1, 1000);
        file.extend(joined_line(random, pieces));
        file.extend_from_slice(random.pick(&[&b""[..], b"J=2\n", b"[A]\n", b"\n"]));
    }
    any_file_case(random, file)
}
