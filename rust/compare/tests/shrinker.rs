//! The comparison finds differences, and the shrinker shortens what makes them. Both are shown with
//! sides that are wrong on purpose.

use compare::buffers::plain_case;
use compare::calls::{Side, LIBRARY, REFERENCE};
use compare::case::{Call, Case, Lent};
use compare::compare::compare;
use compare::describe::{describe, literal};
use compare::run::{run, Plan};
use compare::shrink::{shorten, shorten_case};

/// Whether there is an `a` and a `#` somewhere behind it.
fn holds_both(text: &[u8]) -> bool {
    let first = text.iter().position(|&byte| byte == b'a');
    first.is_some_and(|first| text[first..].contains(&b'#'))
}

/// The reference, with a wrong answer where `wrong` holds.
fn reference_but(wrong: bool, case: &mut Lent) -> usize {
    if wrong {
        99
    } else {
        (REFERENCE.call)(case)
    }
}

/// The reference, with a wrong answer for texts that hold two bytes.
const WRONG: Side = Side {
    name: "wrong",
    call: |case| reference_but(holds_both(&case.input), case),
};

#[test]
fn two_bytes_are_left_of_a_long_text() {
    let text = [&b"xyz a "[..], &[b'-'; 5000], b"## a"].concat();
    assert_eq!(shorten(&text, holds_both), b"a#");
}

#[test]
fn nothing_is_left_where_everything_differs() {
    assert_eq!(shorten(&[1, 2, 3], |_| true), []);
    assert_eq!(shorten(&[1, 2, 3], |part| part.len() == 3), [1, 2, 3]);
}

#[test]
fn a_file_is_shortened_to_what_the_wrong_side_answers_wrong() {
    let file = b"[Cell]\n# a comment\nName=a b\n# another\nWait=2s\n";
    let case = plain_case(Call::NormalText, file);
    let sides = [LIBRARY, WRONG];
    let difference = compare(&case, &sides).unwrap_err().to_string();
    assert!(difference.contains("library: 0, report ["), "{difference}");
    assert!(difference.contains("wrong: 99"), "{difference}");
    let short = shorten_case(&case, |case| compare(case, &sides).is_err());
    assert_eq!(short.input, b"a#");
    assert!(
        describe(&short).contains("input (2 bytes): b\"a#\""),
        "{}",
        describe(&short)
    );
}

#[test]
fn a_run_ends_with_the_shortened_input() {
    let plan = Plan {
        seed: 7,
        cases: 2000,
        only: None,
    };
    let failure = run(&plan, &[LIBRARY, WRONG]).unwrap_err();
    println!("{failure}");
    assert!(
        failure.contains("HAVTSULEN_SEED=7 HAVTSULEN_CASES=2000 HAVTSULEN_ONLY="),
        "{failure}"
    );
    assert!(failure.contains("case seed "), "{failure}");
    assert!(failure.contains("input (2 bytes): b\"a#\""), "{failure}");
}

#[test]
fn a_list_is_shortened_item_by_item() {
    fn wrong(case: &mut Lent) -> usize {
        let wrong = case.bytes.contains(&b'=') && case.ends.len() > 1;
        reference_but(wrong, case)
    }
    let side = Side {
        name: "wrong",
        call: wrong,
    };
    let bytes = b"some=bytes of items".to_vec();
    let case = Case {
        bytes,
        ends: vec![2, 5, 7, 9, 12],
        ..plain_case(Call::Write, b"")
    };
    let short = shorten_case(&case, |case| compare(case, &[LIBRARY, side]).is_err());
    assert_eq!(short.bytes, b"=");
    assert_eq!(short.ends.len(), 2);
}

#[test]
fn a_table_is_shortened_record_by_record() {
    fn wrong(case: &mut Lent) -> usize {
        let mut records = case.entries.chunks(5);
        let wrong = records.any(|record| record == [1, 0, 1, 1, 2]);
        reference_but(wrong, case)
    }
    let side = Side {
        name: "wrong",
        call: wrong,
    };
    let case = Case {
        text: b"abc".to_vec(),
        sections: vec![0, 1, 1, 1, 2, 1],
        section_count: 3,
        entries: vec![0, 0, 1, 1, 1, 1, 0, 1, 1, 2, 2, 0, 1, 1, 1],
        entry_count: 3,
        ..plain_case(Call::Value, b"")
    };
    let short = shorten_case(&case, |case| compare(case, &[LIBRARY, side]).is_err());
    assert_eq!((short.entries, short.entry_count), (vec![1, 0, 1, 1, 2], 1));
    assert_eq!((short.sections, short.section_count), (Vec::new(), 0));
    assert_eq!(short.text, b"");
}

/// Changes of one byte or one number that a side may make wrongly.
const CHANGES: [fn(&mut Lent); 7] = [
    |case| *case.text.last_mut().unwrap() ^= 1,
    |case| case.text[0] ^= 1,
    |case| *case.sections.last_mut().unwrap() ^= 1,
    |case| *case.entries.last_mut().unwrap() ^= 1,
    |case| *case.out.last_mut().unwrap() ^= 1,
    |case| *case.report.last_mut().unwrap() ^= 1,
    |case| case.input[0] ^= 1,
];

#[test]
fn every_wrong_byte_and_number_is_found() {
    fn changed<const N: usize>(case: &mut Lent) -> usize {
        let number = (REFERENCE.call)(case);
        CHANGES[N](case);
        number
    }
    let changed: [fn(&mut Lent) -> usize; 7] = [
        changed::<0>,
        changed::<1>,
        changed::<2>,
        changed::<3>,
        changed::<4>,
        changed::<5>,
        changed::<6>,
    ];
    for file in [&b"[A]\nK=1\n"[..], b"[A]\nK\n"] {
        let mut case = plain_case(Call::NormalText, file);
        case.report.push(5);
        assert!(compare(&case, &[LIBRARY, REFERENCE]).is_ok());
        for call in changed {
            let side = Side {
                name: "changed",
                call,
            };
            assert!(compare(&case, &[LIBRARY, side]).is_err());
        }
    }
}

/// Two sides that agree with each other and both write into a buffer of a refused call.
#[test]
fn a_refused_call_that_writes_is_found() {
    const WRITING: Side = Side {
        name: "writing",
        call: |case| {
            case.text[3] ^= 1;
            (REFERENCE.call)(case)
        },
    };
    let case = plain_case(Call::Read, b"K=1\n");
    assert!(compare(&case, &[WRITING, WRITING]).is_err());
}

/// Writes next to buffers that are written, or only read: before them and behind them.
const OUTSIDE: [fn(&mut Lent) -> *mut u8; 4] = [
    |case| case.out.as_mut_ptr().wrapping_sub(1),
    |case| case.out.as_mut_ptr().wrapping_add(case.out.len()),
    |case| case.input.as_mut_ptr().wrapping_sub(16),
    |case| case.sections.as_mut_ptr().wrapping_add(128).cast(),
];

#[test]
fn a_write_outside_is_found() {
    fn outside<const N: usize>(case: &mut Lent) -> usize {
        let number = (REFERENCE.call)(case);
        // SAFETY: the guard is part of the same allocation.
        unsafe { *OUTSIDE[N](case) ^= 1 };
        number
    }
    let calls = [outside::<0>, outside::<1>, outside::<2>, outside::<3>];
    let names = ["out", "out", "input", "sections"];
    let case = plain_case(Call::NormalText, b"[A]\nK=1\n");
    for (call, name) in calls.into_iter().zip(names) {
        let side = Side {
            name: "outside",
            call,
        };
        for sides in [[LIBRARY, side], [side, side]] {
            let difference = compare(&case, &sides).unwrap_err().to_string();
            let expected = format!("{name}: written outside by outside");
            assert!(difference.contains(&expected), "{difference}");
        }
    }
}

#[test]
fn a_panic_is_found() {
    const PANICKING: Side = Side {
        name: "panicking",
        call: |_| panic!("on purpose"),
    };
    let case = plain_case(Call::Boolean, b"yes");
    let difference = compare(&case, &[LIBRARY, PANICKING])
        .unwrap_err()
        .to_string();
    assert!(difference.contains("panicking: panicked"), "{difference}");
}

#[test]
fn a_literal_can_be_used_again() {
    assert_eq!(literal(b"a\"\\\n\t\x00\xff"), r#"b"a\"\\\n\t\x00\xff""#);
}
