//! Small changes of inputs.

use crate::random::Random;

/// Changes a few bytes; new ones are of an alphabet, or any.
pub fn mutate(random: &mut Random, input: &mut Vec<u8>, alphabet: &[u8]) {
    for _ in 0..random.between(1, 4) {
        let byte = if random.one_in(6) {
            random.byte()
        } else {
            random.pick(alphabet)
        };
        let at = random.between(0, input.len());
        change(random, input, at, byte);
    }
}

fn change(random: &mut Random, input: &mut Vec<u8>, at: usize, byte: u8) {
    let end = input.len().min(at + random.between(1, 8));
    match random.below(5) {
        0 | 1 => input.insert(at, byte),
        2 if at < input.len() => input[at] = byte,
        3 => drop(input.drain(at..end)),
        _ => {
            let copy = input[at..end].to_vec();
            let to = random.between(0, input.len());
            input.splice(to..to, copy);
        }
    }
}

/// The string with this index among all strings over an alphabet: first the empty one, then those of one
/// byte, and so on.
pub fn nth_string(alphabet: &[u8], index: usize) -> Vec<u8> {
    let mut left = index;
    let mut length = 0;
    while left >= alphabet.len().pow(length) {
        left -= alphabet.len().pow(length);
        length += 1;
    }
    let digit = |place: u32| alphabet[left / alphabet.len().pow(place) % alphabet.len()];
    (0..length).map(digit).collect()
}

/// How many strings of at most this length there are over an alphabet.
pub const fn strings_up_to(alphabet: &[u8], length: u32) -> usize {
    let mut all = 0;
    let mut each = 0;
    while each <= length {
        all += alphabet.len().pow(each);
        each += 1;
    }
    all
}

#[cfg(test)]
mod tests {
    use super::*;

    #[test]
    fn every_short_string_comes_once() {
        let count = strings_up_to(b"abc", 3);
        assert_eq!(count, 1 + 3 + 9 + 27);
        let all: std::collections::BTreeSet<Vec<u8>> =
            (0..count).map(|n| nth_string(b"abc", n)).collect();
        assert_eq!(all.len(), count);
        assert!(all.iter().all(|string| string.len() <= 3));
    }
}
