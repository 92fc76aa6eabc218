//! At each limit the last accepted input and the first refused one, with the number of the rules.

use compare::buffers::{each_one_short, plain_case};
use compare::calls::SIDES;
use compare::case::{Call, Case};
use compare::compare::{compare, Outcome};
use compare::describe::describe;
use compare::faults::{fault, long_fault, too_many};
use compare::limits::{normal_without_last_lf, SHAPES};
use compare::placed::Placed;
use compare::random::Random;
use compare::run::shortened;
use compare::span_limits::{most, KINDS};
use compare::values::{LARGEST, UNITS};
use compare::{far, full, lists, texts};
use havtsulen::{FILE_BYTES, REPORT_NUMBERS};

const TIMES: u64 = 40;

/// What all sides answer. A failure tells the shortened input.
fn agreed(what: &str, case: &Case) -> Outcome {
    compare(case, &SIDES).unwrap_or_else(|difference| {
        panic!("{what}\n{}", shortened(case, &SIDES, difference));
    })
}

/// All sides answer this number. A failure tells what the input is.
fn expect(what: &str, expected: usize, case: &Case) {
    let outcome = agreed(what, case);
    assert_eq!(outcome.number, Some(expected), "{what}\n{}", describe(case));
}

/// All sides answer this number and report this first.
fn expect_first(what: &str, (number, first): (usize, usize), case: &Case) {
    let outcome = agreed(what, case);
    let answer = (outcome.number, outcome.after.report[0]);
    assert_eq!(answer, (Some(number), first), "{what}\n{}", describe(case));
}

/// The reader refuses the file with this number, at the line that was placed in it.
fn expect_placed(what: &str, number: usize, placed: &Placed) {
    let case = plain_case(Call::Read, &placed.file());
    expect_first(what, (number, placed.place()), &case);
}

/// Judges inputs of measures on both sides of a limit, each with a seed of its own.
fn judge(name: &str, limit: usize, refusal: usize, make: impl Fn(&mut Random, usize) -> Vec<Case>) {
    for measure in limit - 1..=limit + 2 {
        let expected = if measure > limit { refusal } else { 0 };
        for seed in 0..TIMES {
            let what = format!("{name}: {measure}, case seed {seed}");
            for case in make(&mut Random::new(seed), measure) {
                expect(&what, expected, &case);
            }
        }
    }
}

#[test]
fn files_at_their_limits() {
    for shape in SHAPES {
        judge(shape.name, shape.limit, shape.number, |random, measure| {
            let file = (shape.make)(random, measure);
            vec![
                plain_case(Call::Read, &file),
                plain_case(Call::NormalText, &file),
            ]
        });
    }
}

/// The normal text has one byte more than the file, its last LF, and so as many as the file counts.
#[test]
fn a_normal_text_of_full_length() {
    for seed in 0..TIMES {
        let file = normal_without_last_lf(&mut Random::new(seed), FILE_BYTES - 1);
        assert!(file.ends_with(b"a"));
        let case = plain_case(Call::NormalText, &file);
        let outcome = agreed("full normal text", &case);
        assert_eq!(outcome.after.out[..], [&file[..], b"\n"].concat());
        expect_first("full normal text", (0, FILE_BYTES), &case);
    }
}

/// One element less is 1, whatever the input is; the stated sizes are enough.
#[test]
fn buffers_at_their_stated_sizes() {
    let large = vec![0; 70_000];
    for call in Call::ALL {
        for input in [&b"1"[..], b"[A]\nK=1\n", &large] {
            let case = plain_case(call, input);
            let number = agreed("stated sizes", &case).number;
            assert_ne!(number, Some(1), "{}", describe(&case));
            for short in each_one_short(&case) {
                expect(call.name(), 1, &short);
                if short.report.len() >= REPORT_NUMBERS {
                    expect_first(call.name(), (1, 0), &short);
                }
            }
        }
    }
}

#[test]
fn lists_to_split_at_their_limits() {
    let split = |text: Vec<u8>| vec![plain_case(Call::Split, &text)];
    judge("items to split", 256, 26, |random, count| {
        split(texts::many_items(random, count))
    });
    judge("text to split", 4096, 20, |random, length| {
        split(texts::long_text(random, length))
    });
}

#[test]
fn lists_to_write_at_their_limits() {
    let write = |(bytes, ends)| {
        let case = plain_case(Call::Write, b"");
        vec![Case {
            bytes,
            ends,
            ..case
        }]
    };
    judge("items to write", 256, 26, |random, count| {
        write(lists::many_items(random, count))
    });
    judge("text to write", 4096, 20, |random, length| {
        write(lists::long_list(random, length))
    });
}

#[test]
fn spans_at_their_limit() {
    let cases: [(&[u8], usize); 6] = [
        (b"18446744073709551615us", 0),
        (b"18446744073709551616us", 32),
        (b"18446744073709", 0),
        (b"18446744073710", 32),
        (b"18446744073709s 551615us", 0),
        (b"18446744073709s 551616us", 32),
    ];
    for (text, expected) in cases {
        expect("span", expected, &plain_case(Call::Span, text));
    }
}

/// The last accepted number of each unit, and the first refused one; alone, and in sums.
#[test]
fn spans_at_the_limit_of_each_unit() {
    let judge = |expected, text: String| {
        expect("span", expected, &plain_case(Call::Span, text.as_bytes()));
    };
    for (name, unit) in KINDS {
        let (name, most) = (name.escape_ascii(), most(unit));
        let zeros = "0".repeat(5000);
        judge(0, format!("{most}{name}"));
        judge(32, format!("{}{name}", most + 1));
        judge(0, format!("{zeros}{most} {name}"));
        judge(32, format!("{zeros}{} {name}", most + 1));
    }
    for (name, unit) in UNITS {
        let (name, most, left) = (name.escape_ascii(), most(unit), LARGEST % unit);
        judge(0, format!("{most}{name} {left}us"));
        judge(32, format!("{most}{name} {}us", left + 1));
        judge(0, format!("{left}us {}{most}{name}", "0us ".repeat(1000)));
        judge(
            32,
            format!("{most}{name}{} {left}us 1us", " 0w".repeat(1000)),
        );
    }
}

/// Of 10 and another fault in the lines the first one counts; 3 and 4 count wherever they are.
#[test]
fn too_many_against_another_fault() {
    for other in 3..=8 {
        for seed in 0..TIMES {
            let random = &mut Random::new(seed);
            let (many, fault) = (too_many(random), fault(random, other));
            let read = |expected, parts: [&[u8]; 3]| {
                let what = format!("10 and {other}, case seed {seed}");
                expect(&what, expected, &plain_case(Call::Read, &parts.concat()));
            };
            read(other, [b"[A]\n", &fault, &many]);
            read(
                if other < 5 { other } else { 10 },
                [&many, b"[A]\n", &fault],
            );
        }
    }
}

/// In one line 5 to 8 are judged before 10, and 5 before 6 to 8.
#[test]
fn a_full_table_and_a_faulty_line() {
    for seed in 0..TIMES {
        let random = &mut Random::new(seed);
        let what = format!("full table, case seed {seed}");
        expect_placed(&what, 10, &full::one_more(random));
        expect_placed(&what, 5, &full::faulty(random, 5, false));
        for number in 6..=8 {
            expect_placed(&what, number, &full::faulty(random, number, false));
            expect_placed(&what, 5, &full::faulty(random, number, true));
        }
    }
}

/// A line that is too long is 5, whatever else is wrong with it, also before any header.
#[test]
fn too_long_and_faulty() {
    for number in 6..=8 {
        for seed in 0..TIMES {
            let line = long_fault(&mut Random::new(seed), number);
            let what = format!("5 and {number}, case seed {seed}");
            let read = |file: &[u8]| plain_case(Call::Read, file);
            expect_first(&what, (5, 1), &read(&line));
            expect_first(&what, (5, 2), &read(&[b"[A]\n", &line[..]].concat()));
        }
    }
}

/// Faults are told at their line, thousands of lines down.
#[test]
fn faults_far_down() {
    for number in 3..=10 {
        for seed in 0..TIMES {
            let mut placed = far::faulty(&mut Random::new(seed), number);
            if number < 5 && placed.line.starts_with(b"K=\\\n") {
                placed.before.extend(placed.line.drain(..4));
            }
            let what = format!("{number} far down, case seed {seed}");
            expect_placed(&what, number, &placed);
        }
    }
}
