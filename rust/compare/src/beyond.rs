//! Look-up in tables that are larger than any that the reader makes.

use havtsulen::TEXT_BYTES;

use crate::case::Case;
use crate::limits::{ENTRIES, SECTIONS};
use crate::random::Random;
use crate::tables::{ask, put_records, question, with_damage};

/// A number just above the limit, or up to some times the limit.
fn above(random: &mut Random, limit: usize, times: usize) -> usize {
    let many = random.between(limit, times * limit);
    random.pick(&[limit + 1, limit + 2, many])
}

/// A case with a sound table that has more of text, of sections and of entries.
pub fn drawn(random: &mut Random) -> Case {
    let mut case = question(random);
    let length = above(random, TEXT_BYTES, 2);
    case.text = random.bytes(length);
    if random.one_in(3) {
        case.text
            .iter_mut()
            .for_each(|byte| *byte = b'a' + *byte % 2);
    }
    let counts = (above(random, SECTIONS, 12), above(random, ENTRIES, 6));
    put_records(random, &mut case, counts);
    ask(random, &mut case);
    case
}

/// A case with such a table, damaged.
pub fn damaged(random: &mut Random) -> Case {
    let case = drawn(random);
    with_damage(random, case)
}
