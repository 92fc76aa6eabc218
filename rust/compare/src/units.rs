//! Words behind a number: all short ones, and those that other tools take for units.

use crate::buffers::text_case;
use crate::case::{Call, Case};
use crate::mutate::{nth_string, strings_up_to};
use crate::random::Random;

const LETTERS: &[u8] = b"abcdefghijklmnopqrstuvwxyz";

/// How many cases `short` has: no letter, and one to three.
pub const SHORT: usize = strings_up_to(LETTERS, 3);

/// Every word of at most three small letters behind `1`.
pub fn short(index: usize, random: &mut Random) -> Case {
    let text = [b"1", &nth_string(LETTERS, index)[..]].concat();
    text_case(random, Call::Span, text)
}

/// Words that some tool takes for a unit of time, in this or another letter case.
const WORDS: &str = "ns nsec nanosecond nanoseconds us usec usecs μs µs microsecond microseconds ms msec msecs \
    millisecond milliseconds s sec secs second seconds m min mins minute minutes h hr hrs hour hours \
    d day days w wk wks week weeks fortnight mo mon month months M y yr yrs year years q quarter decade \
    century infinity inf Us uS US Ms mS MS S Sec SEC Second Min mIN MIN Minutes H Hr Hour D Day W Week Y Year";
const FRAMES: [(&str, &str); 6] = [
    ("1", ""),
    ("1 ", ""),
    ("", ""),
    ("", "1"),
    ("2min 1", " 3s"),
    ("1", "2s"),
];

/// How many words there are: one more than the spaces between them.
const WORD_COUNT: usize = {
    let (bytes, mut count, mut at) = (WORDS.as_bytes(), 1, 0);
    while at < bytes.len() {
        if bytes[at] == b' ' {
            count += 1;
        }
        at += 1;
    }
    count
};

/// How many cases `known` has.
pub const KNOWN: usize = WORD_COUNT * FRAMES.len();

/// Each of the words in each of a few places.
pub fn known(index: usize, random: &mut Random) -> Case {
    let word = WORDS.split(' ').nth(index / FRAMES.len());
    let (before, after) = FRAMES[index % FRAMES.len()];
    let text = [before, word.expect("a word"), after].concat();
    text_case(random, Call::Span, text.into_bytes())
}
