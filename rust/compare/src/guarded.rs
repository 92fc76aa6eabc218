//! Lent buffers in the middle of longer ones, so that a write outside is seen.

use std::fmt;
use std::ops::{Deref, DerefMut};

/// Elements before the buffer, and as many behind it. The number is odd, so that no buffer of bytes starts
/// where a machine word does.
pub const GUARD: usize = 17;

/// A buffer with a guard before and behind it.
#[derive(Clone)]
pub struct Guarded<T> {
    whole: Vec<T>,
}

/// The elements of the guards, first those before the buffer.
fn pattern<T: From<u8>>() -> [[T; GUARD]; 2] {
    [0xa0, 0xc0].map(|first| std::array::from_fn(|index| T::from(first + index as u8)))
}

impl<T: Copy + From<u8> + PartialEq> Guarded<T> {
    /// A copy of the elements between guards.
    pub fn new(elements: &[T]) -> Guarded<T> {
        let [before, behind] = pattern();
        Guarded {
            whole: [&before, elements, &behind].concat(),
        }
    }

    /// Whether nothing was written outside the buffer.
    pub fn intact(&self) -> bool {
        let [before, behind] = pattern();
        self.whole.starts_with(&before) && self.whole.ends_with(&behind)
    }
}

impl<T> Guarded<T> {
    /// Where the buffer starts. The pointer is one into the whole, so that a write outside is defined.
    pub fn as_mut_ptr(&mut self) -> *mut T {
        self.whole.as_mut_ptr().wrapping_add(GUARD)
    }

    /// The same for a buffer that is only read. It comes from [`Guarded::as_mut_ptr`], as a callee may
    /// wrongly write to it.
    pub fn as_ptr(&mut self) -> *const T {
        self.as_mut_ptr()
    }
}

impl<T> Deref for Guarded<T> {
    type Target = [T];

    fn deref(&self) -> &[T] {
        &self.whole[GUARD..self.whole.len() - GUARD]
    }
}

impl<T> DerefMut for Guarded<T> {
    fn deref_mut(&mut self) -> &mut [T] {
        let end = self.whole.len() - GUARD;
        &mut self.whole[GUARD..end]
    }
}

impl<T: fmt::Debug> fmt::Debug for Guarded<T> {
    fn fmt(&self, f: &mut fmt::Formatter<'_>) -> fmt::Result {
        self[..].fmt(f)
    }
}

#[cfg(test)]
mod tests {
    use super::*;

    #[test]
    fn each_element_of_the_guards_is_judged() {
        for length in [0, 1, 5] {
            let elements = vec![7_usize; length];
            let guarded = Guarded::new(&elements);
            assert!(guarded.intact());
            assert_eq!(guarded[..], elements);
            for index in 0..guarded.whole.len() {
                let mut changed = guarded.clone();
                changed.whole[index] ^= 1;
                let inside = (GUARD..GUARD + length).contains(&index);
                assert_eq!(changed.intact(), inside);
            }
        }
    }
}
