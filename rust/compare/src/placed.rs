//! A line placed in a file, and lines that only take up place.

use crate::long_lines::LINE;
use crate::random::Random;

/// A line with all that stands before it in the file, and all that stands behind it.
pub struct Placed {
    /// Whole lines.
    pub before: Vec<u8>,
    /// A logical line, in one physical line or several.
    pub line: Vec<u8>,
    /// Whole lines.
    pub after: Vec<u8>,
}

impl Placed {
    /// The whole file.
    pub fn file(&self) -> Vec<u8> {
        [&self.before[..], &self.line, &self.after].concat()
    }

    /// The number of the line's first physical line.
    pub fn place(&self) -> usize {
        let passed = self.before.iter().filter(|&&byte| byte == b'\n');
        1 + passed.count()
    }
}

/// So many physical lines that bring nothing: empty ones, comments, or continued ones, with comments or not.
pub fn idle_lines(random: &mut Random, count: usize) -> Vec<u8> {
    let (first, second) = random.pick(&[
        (&b"\n"[..], &b"\n"[..]),
        (b"#\n", b";\\\n"),
        (b"\\\n", b"\\\n"),
        (b"\\\n", b"#\n"),
    ]);
    let joined = random.between(100, LINE);
    let mut lines = Vec::with_capacity(3 * count);
    for number in 1..=count {
        let last = number == count || number % joined == 0;
        let line = if number % 2 == 0 { second } else { first };
        lines.extend_from_slice(if last { b"\n" } else { line });
    }
    lines
}
