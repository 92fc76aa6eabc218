//! Names and keys of one length that differ in one byte: short ones, as long as some machine words, and long.

use crate::buffers::any_file_case;
use crate::case::Case;
use crate::limits::SECTIONS;
use crate::random::Random;
use crate::tables::{ask, question, record};

/// Lengths at which a comparison by machine words begins anew.
const WORDS: [usize; 5] = [8, 16, 32, 64, 128];
/// Bytes of names in a file.
const NAME: &[u8] = b" !\"#$%&'()*+,-./0123456789:;<=>?@ABCXYZ\\^_`abcxyz{|}~";
/// Bytes of keys in a file.
const KEY: &[u8] = b"ABCXYZabcxyz0189-_.";
/// Bytes of names and keys in a table by hand: also those that differ in their first or last bit alone.
const ANY: &[u8] = b"\x00\x01\x7f\x80\x81\xfe\xffaA";
/// Bytes of files after which nothing is added.
const ENOUGH: usize = 55_000;

/// A length: around those of machine words, up to some hundreds, or now and then up to some thousands.
fn length(random: &mut Random) -> usize {
    match random.below(10) {
        0..=4 => random.pick(&WORDS) - 2 + random.below(5),
        5..=8 => random.between(1, 300),
        _ => random.between(300, 3000),
    }
}

/// Changes one byte to another of the alphabet: the first, the last, the one in the middle, or any.
fn change_one(random: &mut Random, word: &mut [u8], alphabet: &[u8]) {
    let Some(last) = word.len().checked_sub(1) else {
        return;
    };
    let any = random.between(0, last);
    let at = random.pick(&[0, last / 2, last, any]);
    let old = word[at];
    while word[at] == old {
        word[at] = random.pick(alphabet);
    }
}

/// So many words of one length, each but the first one byte off another.
fn alike(random: &mut Random, alphabet: &[u8], count: usize) -> Vec<Vec<u8>> {
    let length = length(random);
    let mut words = vec![random.word(alphabet, length)];
    while words.len() < count {
        let mut word = random.pick(&words);
        change_one(random, &mut word, alphabet);
        words.push(word);
    }
    words
}

/// A case with a file of such names, most of which come again, and of such keys.
pub fn file(random: &mut Random) -> Case {
    let few = random.between(2, 6);
    let count = random.pick(&[few, few, SECTIONS]);
    let names = alike(random, NAME, count);
    let keys = alike(random, KEY, few);
    let mut file = Vec::new();
    for number in 0..random.between(1, 2 * count) {
        if file.len() > ENOUGH {
            break;
        }
        file.extend([b"[", &random.pick(&names)[..], b"]\n"].concat());
        if random.one_in(2) {
            file.extend(random.pick(&keys));
            file.extend(format!("={number}\n").bytes());
        }
    }
    any_file_case(random, file)
}

/// Adds the words to the text; answers their records.
fn put_words(text: &mut Vec<u8>, words: &[Vec<u8>]) -> Vec<[usize; 2]> {
    let mut records = Vec::new();
    for word in words {
        records.push([text.len(), word.len()]);
        text.extend_from_slice(word);
    }
    records
}

/// A case with a table of such names and keys, which asks for one of them or for one that is one byte off.
pub fn table(random: &mut Random) -> Case {
    let mut case = question(random);
    let alphabet = random.pick(&[NAME, ANY, b"ab"]);
    let counts = [(); 2].map(|()| random.between(1, 5));
    let [names, keys] = counts.map(|count| {
        let words = alike(random, alphabet, count);
        put_words(&mut case.text, &words)
    });
    case.sections = names.concat();
    case.section_count = names.len();
    case.entry_count = random.between(1, 12);
    for _ in 0..case.entry_count {
        case.entries.push(random.below(names.len()));
        case.entries.extend(random.pick(&keys));
        case.entries.extend(record(random, case.text.len()));
    }
    ask(random, &mut case);
    match random.below(8) {
        0 => change_one(random, &mut case.section, alphabet),
        1 => change_one(random, &mut case.key, alphabet),
        _ => {}
    }
    case
}
