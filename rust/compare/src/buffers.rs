//! Cases from inputs: lent buffers of the stated size or a little more, filled with random patterns; and
//! buffers that are too short.

use havtsulen::{ENTRY_NUMBERS, ITEM_BYTES, ITEM_ENDS, NORMAL_BYTES, REPORT_NUMBERS};
use havtsulen::{SECTION_NUMBERS, TEXT_BYTES, WRITE_BYTES};

use crate::case::{Call, Case};
use crate::random::Random;

/// A length that is enough.
fn enough(random: &mut Random, stated: usize) -> usize {
    stated + random.pick(&[0, 0, 1, 2, 40])
}

/// A length that is too short: by one, by a few, by any number, or empty.
fn too_short(random: &mut Random, stated: usize) -> usize {
    match random.below(4) {
        0 => stated - 1,
        1 => stated - random.between(2, 9),
        2 => random.below(stated),
        _ => 0,
    }
}

/// A buffer that a call writes to: the stated length, and how it is cut to another.
type Written = (usize, fn(&mut Case, usize));

/// The buffers that a call writes to, but for the report.
fn written(call: Call) -> &'static [Written] {
    const TABLE: [Written; 4] = [
        (TEXT_BYTES, |case, length| case.text.truncate(length)),
        (SECTION_NUMBERS, |case, length| {
            case.sections.truncate(length)
        }),
        (ENTRY_NUMBERS, |case, length| case.entries.truncate(length)),
        (NORMAL_BYTES, |case, length| case.out.truncate(length)),
    ];
    const ITEMS: [Written; 2] = [
        (ITEM_BYTES, |case, length| case.bytes.truncate(length)),
        (ITEM_ENDS, |case, length| case.ends.truncate(length)),
    ];
    const LIST: [Written; 1] = [(WRITE_BYTES, |case, length| case.out.truncate(length))];
    match call {
        Call::Read => &TABLE[..3],
        Call::NormalText => &TABLE,
        Call::Split => &ITEMS,
        Call::Write => &LIST,
        _ => &[],
    }
}

/// The report, which every call writes to.
const REPORT: Written = (REPORT_NUMBERS, |case, length| case.report.truncate(length));

/// The case with one of the buffers that the call writes to, or the report, one element short: each in turn.
pub fn each_one_short(case: &Case) -> Vec<Case> {
    let cut_once = |&(stated, cut): &Written| {
        let mut short = case.clone();
        cut(&mut short, stated - 1);
        short
    };
    let written = written(case.call).iter().chain([&REPORT]);
    written.map(cut_once).collect()
}

/// Lends too little once in a while: a short report, and one short buffer or several.
pub fn lend_too_little(random: &mut Random, case: &mut Case) {
    if random.one_in(20) {
        case.report.truncate(random.below(REPORT_NUMBERS));
    }
    let written = written(case.call);
    if written.is_empty() || !random.one_in(12) {
        return;
    }
    let one = random.below(written.len());
    for (index, &(stated, cut)) in written.iter().enumerate() {
        if index == one || random.one_in(3) {
            cut(case, too_short(random, stated));
        }
    }
}

/// A call that takes a text alone.
pub fn text_case(random: &mut Random, call: Call, text: Vec<u8>) -> Case {
    let report = REPORT_NUMBERS + random.pick(&[0, 0, 0, 1, 2, 5]);
    Case {
        call,
        input: text,
        report: random.numbers(report),
        ..Case::default()
    }
}

/// A call that takes a file: decoder, check, reader or normal text.
pub fn file_case(random: &mut Random, call: Call, file: Vec<u8>) -> Case {
    let mut case = text_case(random, call, file);
    if matches!(call, Call::Read | Call::NormalText) {
        let stated = [TEXT_BYTES, SECTION_NUMBERS, ENTRY_NUMBERS];
        let [text, sections, entries] = stated.map(|stated| enough(random, stated));
        case.text = random.bytes(text);
        case.sections = random.numbers(sections);
        case.entries = random.numbers(entries);
    }
    if call == Call::NormalText {
        let out = enough(random, NORMAL_BYTES);
        case.out = random.bytes(out);
    }
    case
}

/// One of the calls that take a file, most often one that reads it whole.
pub fn any_file_case(random: &mut Random, file: Vec<u8>) -> Case {
    let call = random.pick(&[
        Call::CheckFile,
        Call::Read,
        Call::Read,
        Call::Read,
        Call::NormalText,
        Call::NormalText,
        Call::NormalText,
    ]);
    file_case(random, call, file)
}

/// A text to split.
pub fn split_case(random: &mut Random, text: Vec<u8>) -> Case {
    let [bytes, ends] = [ITEM_BYTES, ITEM_ENDS].map(|stated| enough(random, stated));
    Case {
        bytes: random.bytes(bytes),
        ends: random.numbers(ends),
        ..text_case(random, Call::Split, text)
    }
}

/// Items to write.
pub fn write_case(random: &mut Random, (bytes, ends): (Vec<u8>, Vec<usize>)) -> Case {
    let out = enough(random, WRITE_BYTES);
    Case {
        bytes,
        ends,
        out: random.bytes(out),
        ..text_case(random, Call::Write, Vec::new())
    }
}

/// A case with buffers of exactly the stated sizes, all zeros.
pub fn plain_case(call: Call, input: &[u8]) -> Case {
    let table = matches!(call, Call::Read | Call::NormalText);
    let items = call == Call::Split;
    let if_taken = |taken, size| if taken { size } else { 0 };
    let out = match call {
        Call::NormalText => NORMAL_BYTES,
        Call::Write => WRITE_BYTES,
        _ => 0,
    };
    Case {
        call,
        input: input.to_vec(),
        text: vec![0; if_taken(table, TEXT_BYTES)],
        sections: vec![0; if_taken(table, SECTION_NUMBERS)],
        entries: vec![0; if_taken(table, ENTRY_NUMBERS)],
        out: vec![0; out],
        bytes: vec![0; if_taken(items, ITEM_BYTES)],
        ends: vec![0; if_taken(items, ITEM_ENDS)],
        report: vec![0; REPORT_NUMBERS],
        ..Case::default()
    }
}
