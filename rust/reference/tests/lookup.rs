//! Look-up: refusals 40 and 41, any counts and any records.

mod common;

use common::*;
use reference::*;

static TEXT: &[u8] = b"AKv1BKxyz";
const SECTIONS: [usize; 4] = [0, 1, 4, 1];
const ENTRIES: [usize; 15] = [0, 1, 1, 2, 2, 1, 5, 1, 6, 3, 0, 1, 1, 9, 0];

fn lookup(section: &str, key: &str, which: Which) -> Result<usize, Refusal> {
    let (section, key) = (section.as_bytes(), key.as_bytes());
    find(section, key, which, TEXT, &SECTIONS, 2, &ENTRIES, 3)
}

/// The same table with other numbers, asked in all three ways.
fn faulty(sections: &[usize], s: usize, entries: &[usize], e: usize) -> bool {
    let found = find(b"A", b"K", Which::First, TEXT, sections, s, entries, e);
    let last = find(b"A", b"K", Which::Last, TEXT, sections, s, entries, e);
    let checked = value_check(0, TEXT, sections, s, entries, e);
    let part = value(0, TEXT, sections, s, entries, e);
    let is_faulty = found == refusal(41, 0);
    assert_eq!(is_faulty, last == refusal(41, 0));
    assert_eq!(is_faulty, checked == refusal(41, 0));
    if is_faulty {
        assert_eq!((part.as_ptr(), part.len()), (TEXT.as_ptr(), 0));
    }
    is_faulty
}

#[test]
fn first_and_last() {
    assert_eq!(lookup("A", "K", Which::First), Ok(0));
    assert_eq!(lookup("A", "K", Which::Last), Ok(2));
    assert_eq!(lookup("B", "K", Which::First), Ok(1));
    assert_eq!(lookup("B", "K", Which::Last), Ok(1));
    for (section, key) in [
        ("C", "K"),
        ("A", "k"),
        ("A", ""),
        ("", "K"),
        ("A", "KK"),
        ("B", "A"),
    ] {
        assert_eq!(lookup(section, key, Which::First), refusal(40, 0));
        assert_eq!(lookup(section, key, Which::Last), refusal(40, 0));
    }
}

#[test]
fn a_table_that_was_read() {
    let mut b = Buffers::new(9);
    let c = b.read(b"[A]\nK=1\nJ=2\n[B]\nK=3\n[A]\nK=\n").unwrap();
    let ask = |s: &[u8], k: &[u8], w| {
        find(
            s,
            k,
            w,
            &b.text,
            &b.sections,
            c.sections,
            &b.entries,
            c.entries,
        )
    };
    let at = |i| value(i, &b.text, &b.sections, c.sections, &b.entries, c.entries);
    assert_eq!(ask(b"A", b"K", Which::First), Ok(0));
    assert_eq!(ask(b"A", b"K", Which::Last), Ok(3));
    assert_eq!(ask(b"A", b"J", Which::Last), Ok(1));
    assert_eq!(ask(b"B", b"K", Which::First), Ok(2));
    assert_eq!(ask(b"B", b"J", Which::First), refusal(40, 0));
    assert_eq!(
        [at(0), at(1), at(2), at(3), at(4)],
        [&b"1"[..], b"2", b"3", b"", b""]
    );
    // The value is a part of the text buffer itself: A K 1 J.
    assert_eq!(at(0).as_ptr(), b.text[2..].as_ptr());
}

#[test]
fn values_and_their_places() {
    let ask = |i| value_check(i, TEXT, &SECTIONS, 2, &ENTRIES, 3);
    let part = |start, length| Ok(Part { start, length });
    assert_eq!(
        [ask(0), ask(1), ask(2)],
        [part(2, 2), part(6, 3), part(9, 0)]
    );
    assert_eq!([ask(3), ask(usize::MAX)], [refusal(40, 0), refusal(40, 0)]);
    let get = |i| value(i, TEXT, &SECTIONS, 2, &ENTRIES, 3);
    assert_eq!(
        [get(0), get(1), get(2), get(3)],
        [&b"v1"[..], b"xyz", b"", b""]
    );
    assert_eq!(get(2).as_ptr(), TEXT[9..].as_ptr());
    assert_eq!(get(3).as_ptr(), TEXT.as_ptr());
    assert_eq!(get(usize::MAX).as_ptr(), TEXT.as_ptr());
}

#[test]
fn counts_past_the_buffers() {
    assert!(!faulty(&SECTIONS, 2, &ENTRIES, 3));
    for count in [
        3,
        4,
        usize::MAX / 2,
        usize::MAX / 2 + 1,
        usize::MAX / 2 + 3,
        usize::MAX,
    ] {
        assert!(faulty(&SECTIONS, count, &ENTRIES, 3), "{count}");
    }
    for count in [4, 15, usize::MAX / 5, usize::MAX / 5 + 1, usize::MAX] {
        assert!(faulty(&SECTIONS, 2, &ENTRIES, count), "{count}");
    }
    // What is left over of a buffer holds no record and is not judged.
    assert!(!faulty(&[0, 1, 4, 1, 99], 2, &ENTRIES, 3));
    assert!(faulty(&[0, 1, 4, 1, 99], 3, &ENTRIES, 3));
    assert!(!faulty(&SECTIONS, 2, &[&ENTRIES[..], &[99; 4]].concat(), 3));
    assert!(!faulty(
        &[0, 1, 99, 99],
        1,
        &[0, 1, 1, 2, 2, 99, 99, 99, 99, 99],
        1
    ));
    // Nothing counted, nothing found; 41 comes before 40.
    let none = find(b"A", b"K", Which::First, b"", &[], 0, &[], 0);
    assert_eq!(none, refusal(40, 0));
    assert_eq!(value_check(0, b"", &[], 0, &[], 0), refusal(40, 0));
    assert_eq!(value(0, b"", &[], 0, &[], 0), b"");
    assert_eq!(
        value_check(9, TEXT, &SECTIONS, 9, &ENTRIES, 3),
        refusal(41, 0)
    );
}

#[test]
fn faulty_records() {
    let big = usize::MAX;
    for (start, length, bad) in [
        (9, 0, false),
        (0, 9, false),
        (10, 0, true),
        (9, 1, true),
        (0, 10, true),
        (big, 0, true),
        (big, 1, true),
        (1, big, true),
        (big, big, true),
    ] {
        assert_eq!(faulty(&[0, 1, start, length], 2, &ENTRIES, 3), bad);
        for at in [1, 3, 11, 13] {
            let mut entries = ENTRIES;
            (entries[at], entries[at + 1]) = (start, length);
            assert_eq!(
                faulty(&SECTIONS, 2, &entries, 3),
                bad,
                "{at} {start} {length}"
            );
        }
    }
    // The section index of an entry, the last one too, lies below the count.
    for (at, index, bad) in [(0, 2, true), (10, 2, true), (10, 1, false), (5, big, true)] {
        let mut entries = ENTRIES;
        entries[at] = index;
        assert_eq!(faulty(&SECTIONS, 2, &entries, 3), bad);
    }
    assert!(faulty(&SECTIONS, 1, &ENTRIES, 3));
    assert!(faulty(&SECTIONS, 0, &ENTRIES, 3));
}

#[test]
fn not_judged() {
    // Two sections of one name, records that overlap, an empty name and key.
    let sections = [0, 1, 0, 1, 3, 0];
    let entries = [0, 1, 1, 0, 9, 1, 1, 1, 0, 9, 2, 5, 0, 2, 2];
    let ask = |s: &[u8], k: &[u8], w| find(s, k, w, TEXT, &sections, 3, &entries, 3);
    assert_eq!(ask(b"A", b"K", Which::First), Ok(0));
    assert_eq!(ask(b"A", b"K", Which::Last), Ok(1));
    assert_eq!(ask(b"", b"", Which::Last), Ok(2));
    assert_eq!(value(1, TEXT, &sections, 3, &entries, 3), TEXT);
}

#[test]
fn any_numbers() {
    let mut random = Random(3);
    let numbers = [
        0,
        1,
        2,
        3,
        5,
        9,
        10,
        usize::MAX,
        usize::MAX - 1,
        usize::MAX / 5,
    ];
    for _ in 0..50_000 {
        let sections: Vec<usize> = (0..random.below(7))
            .map(|_| random.pick(&numbers))
            .collect();
        let entries: Vec<usize> = (0..random.below(16))
            .map(|_| random.pick(&numbers[..4]))
            .collect();
        let (s, e) = (random.pick(&numbers), random.pick(&numbers));
        let text = &TEXT[..random.below(10)];
        let index = random.pick(&numbers);
        let part = value(index, text, &sections, s, &entries, e);
        match value_check(index, text, &sections, s, &entries, e) {
            Ok(p) => assert_eq!(part, &text[p.start..p.start + p.length]),
            Err(_) => assert_eq!((part.as_ptr(), part.len()), (text.as_ptr(), 0)),
        }
        let _ = find(b"A", b"", Which::Last, text, &sections, s, &entries, e);
    }
}
