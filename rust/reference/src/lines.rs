//! Lines: comments are dropped and continued lines joined into logical lines.

use crate::bytes::ends_in_odd_run;
use crate::{refuse, Refusal};

/// The most bytes of a logical line before trimming.
const LINE_BYTES: usize = 4096;

/// A logical line, not trimmed, and the number of its first physical line.
pub struct Logical<'b> {
    pub bytes: &'b [u8],
    pub place: usize,
}

/// Hands out the logical lines of a file one after another.
pub struct Joiner<'a> {
    rest: &'a [u8],
    /// Number of the physical line read last.
    line: usize,
    /// Holds a line that was joined of several; a single one stays in the file.
    joined: [u8; LINE_BYTES],
}

impl<'a> Joiner<'a> {
    /// Starts at the beginning of a file.
    pub fn new(file: &'a [u8]) -> Self {
        Joiner {
            rest: file,
            line: 0,
            joined: [0; LINE_BYTES],
        }
    }

    /// "A physical line ends at LF or at the end of the file. Nothing after a last
    /// LF is no line."
    fn next_physical(&mut self) -> Option<&'a [u8]> {
        if self.rest.is_empty() {
            return None;
        }
        self.line += 1;
        let end = self.rest.iter().position(|&b| b == b'\n');
        let line = &self.rest[..end.unwrap_or(self.rest.len())];
        self.rest = end.map_or(&[], |end| &self.rest[end + 1..]);
        Some(line)
    }

    /// The next physical line that is no comment: "# or ; as its first byte".
    fn next_content(&mut self) -> Option<&'a [u8]> {
        loop {
            let line = self.next_physical()?;
            if !matches!(line.first(), Some(b'#' | b';')) {
                return Some(line);
            }
        }
    }

    /// The next logical line, or refusal 5 at its first physical line.
    pub fn next_logical(&mut self) -> Result<Option<Logical<'_>>, Refusal> {
        let Some(first) = self.next_content() else {
            return Ok(None);
        };
        let place = self.line;
        let bytes = if ends_in_odd_run(first) {
            let Some(length) = self.join(first) else {
                return refuse(5, place);
            };
            &self.joined[..length]
        } else if first.len() > LINE_BYTES {
            return refuse(5, place);
        } else {
            first
        };
        Ok(Some(Logical { bytes, place }))
    }

    /// Joins a continued line with those that follow: its last backslash becomes a
    /// space and the next line that is no comment follows at once, up to the first
    /// that is not continued or the end of the file. `None` if it grows too long.
    fn join(&mut self, first: &[u8]) -> Option<usize> {
        let mut length = 0;
        let mut piece = first;
        loop {
            let end = length + piece.len();
            self.joined.get_mut(length..end)?.copy_from_slice(piece);
            length = end;
            if !ends_in_odd_run(piece) {
                return Some(length);
            }
            self.joined[length - 1] = b' ';
            match self.next_content() {
                Some(next) => piece = next,
                None => return Some(length),
            }
        }
    }
}
