//! Helpers of the tests: lent buffers with known contents, and calls that check
//! what has to stay in them.
#![allow(dead_code)]

use reference::*;

pub fn refusal<T>(number: usize, place: usize) -> Result<T, Refusal> {
    Err(Refusal { number, place })
}

/// Buffers of the stated sizes plus `extra`, filled with a pattern.
#[derive(Clone, PartialEq, Eq)]
pub struct Buffers {
    pub text: Vec<u8>,
    pub sections: Vec<usize>,
    pub entries: Vec<usize>,
    pub out: Vec<u8>,
}

impl Buffers {
    pub fn new(extra: usize) -> Self {
        let byte = |i: usize| (i % 251) as u8 | 0x80;
        let number = |i: usize| usize::MAX - i;
        Buffers {
            text: (0..TEXT_BYTES + extra).map(byte).collect(),
            sections: (0..SECTION_NUMBERS + extra).map(number).collect(),
            entries: (0..ENTRY_NUMBERS + extra).map(number).collect(),
            out: (0..NORMAL_BYTES + extra).map(byte).collect(),
        }
    }

    pub fn read(&mut self, file: &[u8]) -> Result<Counts, Refusal> {
        read(file, &mut self.text, &mut self.sections, &mut self.entries)
    }

    pub fn normal(&mut self, file: &[u8]) -> Result<Sizes, Refusal> {
        normal_text(
            file,
            &mut self.text,
            &mut self.sections,
            &mut self.entries,
            &mut self.out,
        )
    }

    /// Whether all behind the table is as it was in `before`.
    pub fn kept_behind(&self, counts: Counts, before: &Buffers) -> bool {
        self.text[counts.text..] == before.text[counts.text..]
            && self.sections[2 * counts.sections..] == before.sections[2 * counts.sections..]
            && self.entries[5 * counts.entries..] == before.entries[5 * counts.entries..]
    }
}

pub type Pairs = Vec<(String, String)>;

/// Reads a file and checks what has to stay; the names and pairs of each section.
pub fn table(file: &[u8]) -> Result<Vec<(String, Pairs)>, Refusal> {
    let before = Buffers::new(3);
    let mut after = before.clone();
    let counts = match after.read(file) {
        Ok(counts) => counts,
        Err(refusal) => {
            assert!(after == before, "a refused call changed a buffer");
            return Err(refusal);
        }
    };
    assert!(after.kept_behind(counts, &before));
    assert!(after.out == before.out);
    let string = |start: usize, length: usize| {
        String::from_utf8(after.text[start..start + length].to_vec()).unwrap()
    };
    let mut result: Vec<(String, Pairs)> = after.sections[..2 * counts.sections]
        .chunks(2)
        .map(|s| (string(s[0], s[1]), Vec::new()))
        .collect();
    for e in after.entries[..5 * counts.entries].chunks(5) {
        assert_eq!(e[3], e[1] + e[2], "a value follows its key directly");
        result[e[0]]
            .1
            .push((string(e[1], e[2]), string(e[3], e[4])));
    }
    Ok(result)
}

/// The values of a file's entries in the order of the table of one section `A`.
pub fn values(file: &[u8]) -> Vec<String> {
    let table = table(file).unwrap();
    assert_eq!(table.len(), 1);
    assert_eq!(table[0].0, "A");
    table[0].1.iter().map(|(_, value)| value.clone()).collect()
}

/// The refusal of a file, by both calls that read one.
pub fn refused(file: &[u8]) -> (usize, usize) {
    let refusal = table(file).unwrap_err();
    assert_eq!(normal(file), Err(refusal));
    (refusal.number, refusal.place)
}

/// The normal text of a file; checks what has to stay, and the reader's buffers.
pub fn normal(file: &[u8]) -> Result<Vec<u8>, Refusal> {
    let before = Buffers::new(2);
    let mut after = before.clone();
    match after.normal(file) {
        Ok(sizes) => {
            let mut read = before.clone();
            assert_eq!(read.read(file), Ok(sizes.table));
            assert!(read.text == after.text);
            assert!(read.sections == after.sections);
            assert!(read.entries == after.entries);
            assert!(after.out[sizes.length..] == before.out[sizes.length..]);
            Ok(after.out[..sizes.length].to_vec())
        }
        Err(refusal) => {
            assert!(after == before, "a refused call changed a buffer");
            Err(refusal)
        }
    }
}

/// A small generator of numbers for the tests with made-up input.
pub struct Random(pub u64);

impl Random {
    pub fn below(&mut self, limit: usize) -> usize {
        self.0 ^= self.0 << 13;
        self.0 ^= self.0 >> 7;
        self.0 ^= self.0 << 17;
        (self.0 >> 11) as usize % limit
    }

    pub fn pick<T: Copy>(&mut self, from: &[T]) -> T {
        from[self.below(from.len())]
    }
}
