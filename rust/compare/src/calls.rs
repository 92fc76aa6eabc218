//! Three ways to make the call of a case: the proved library itself, its safe wrapper, and the reference.

use havtsulen::raw;

use crate::case::{Call, Lent};

/// Makes the call of a case: changes its buffers and its report, and returns the number.
#[derive(Clone, Copy)]
pub struct Side {
    /// What it is called in reports.
    pub name: &'static str,
    /// Makes the call.
    pub call: fn(&mut Lent) -> usize,
}

/// The proved library, through its C interface.
pub const LIBRARY: Side = Side {
    name: "library",
    call: library,
};
/// The reference.
pub const REFERENCE: Side = Side {
    name: "reference",
    call: in_reference::call,
};
/// The safe wrapper over the proved library.
pub const WRAPPER: Side = Side {
    name: "wrapper",
    call: in_wrapper::call,
};
/// The library, and what it is compared with.
pub const SIDES: [Side; 3] = [LIBRARY, REFERENCE, WRAPPER];

fn library(case: &mut Lent) -> usize {
    match case.call {
        Call::Find | Call::Value | Call::ValueCheck => library_look_up(case),
        Call::Read | Call::NormalText => library_table(case),
        Call::Split | Call::Write => library_items(case),
        Call::WellFormedLength | Call::CheckFile | Call::Boolean | Call::Span => library_text(case),
    }
}

fn library_text(case: &mut Lent) -> usize {
    let Lent { input, report, .. } = case;
    let call = match case.call {
        Call::WellFormedLength => raw::havtsulen_well_formed_length,
        Call::CheckFile => raw::havtsulen_check_file,
        Call::Boolean => raw::havtsulen_boolean,
        Call::Span => raw::havtsulen_span,
        other => unreachable!("{other:?} takes more than a text"),
    };
    // SAFETY: pointers and lengths are those of the case's own buffers, borrowed alone.
    unsafe {
        call(
            input.as_ptr(),
            input.len(),
            report.as_mut_ptr(),
            report.len(),
        )
    }
}

#[rustfmt::skip]
fn library_table(case: &mut Lent) -> usize {
    let Lent { call, input, text, sections, entries, out, report, .. } = case;
    // SAFETY: pointers and lengths are those of the case's own buffers, borrowed alone.
    unsafe {
        match call {
            Call::Read => raw::havtsulen_read(
                input.as_ptr(), input.len(), text.as_mut_ptr(), text.len(),
                sections.as_mut_ptr(), sections.len(), entries.as_mut_ptr(), entries.len(),
                report.as_mut_ptr(), report.len(),
            ),
            Call::NormalText => raw::havtsulen_normal_text(
                input.as_ptr(), input.len(), text.as_mut_ptr(), text.len(),
                sections.as_mut_ptr(), sections.len(), entries.as_mut_ptr(), entries.len(),
                out.as_mut_ptr(), out.len(), report.as_mut_ptr(), report.len(),
            ),
            other => unreachable!("{other:?} reads no file into buffers"),
        }
    }
}

#[rustfmt::skip]
fn library_items(case: &mut Lent) -> usize {
    let Lent { call, input, bytes, ends, out, report, .. } = case;
    // SAFETY: pointers and lengths are those of the case's own buffers, borrowed alone.
    unsafe {
        match call {
            Call::Split => raw::havtsulen_split(
                input.as_ptr(), input.len(), bytes.as_mut_ptr(), bytes.len(),
                ends.as_mut_ptr(), ends.len(), report.as_mut_ptr(), report.len(),
            ),
            Call::Write => raw::havtsulen_write(
                bytes.as_ptr(), bytes.len(), ends.as_ptr(), ends.len(),
                out.as_mut_ptr(), out.len(), report.as_mut_ptr(), report.len(),
            ),
            other => unreachable!("{other:?} is about no items"),
        }
    }
}

#[rustfmt::skip]
fn library_look_up(case: &mut Lent) -> usize {
    let Lent { section, key, text, sections, entries, report, .. } = case;
    let (section_count, entry_count) = (case.section_count, case.entry_count);
    // SAFETY: pointers and lengths are those of the case's own buffers, borrowed alone.
    unsafe {
        match case.call {
            Call::Find => raw::havtsulen_find(
                section.as_ptr(), section.len(), key.as_ptr(), key.len(), case.which,
                text.as_ptr(), text.len(), sections.as_ptr(), sections.len(), section_count,
                entries.as_ptr(), entries.len(), entry_count, report.as_mut_ptr(), report.len(),
            ),
            Call::Value => raw::havtsulen_value(
                case.index, text.as_ptr(), text.len(), sections.as_ptr(), sections.len(), section_count,
                entries.as_ptr(), entries.len(), entry_count, report.as_mut_ptr(), report.len(),
            ),
            Call::ValueCheck => raw::havtsulen_value_check(
                case.index, text.as_ptr(), text.len(), sections.as_ptr(), sections.len(), section_count,
                entries.as_ptr(), entries.len(), entry_count, report.as_mut_ptr(), report.len(),
            ),
            other => unreachable!("{other:?} asks no table"),
        }
    }
}

/// The first numbers of the report; or number and place of the refusal.
type Answer = Result<[usize; havtsulen::REPORT_NUMBERS], (usize, usize)>;

/// Makes a call that knows no report, and reports what it answers as the C interface does.
fn reported(case: &mut Lent, call: fn(&mut Lent) -> Answer) -> usize {
    if case.report.len() < havtsulen::REPORT_NUMBERS {
        return 1;
    }
    let (number, report) = match call(case) {
        Ok(report) => (0, report),
        Err((number, place)) => (number, [place, 0, 0, 0]),
    };
    case.report[..report.len()].copy_from_slice(&report);
    number
}

/// Where `part` stands in `text`, by its pointer: equal bytes from elsewhere have another place.
fn place_in(text: &[u8], part: &[u8]) -> [usize; 4] {
    let start = (part.as_ptr() as usize).wrapping_sub(text.as_ptr() as usize);
    [start, part.len(), 0, 0]
}

/// The calls of a Rust crate with the reference's interface.
macro_rules! rust_calls {
    ($module:ident, $library:ident, $refusal:expr) => {
        mod $module {
            use super::{place_in, reported, Answer};
            use crate::case::{Call, Lent};
            use $library::Which;

            pub fn call(case: &mut Lent) -> usize {
                reported(case, answer)
            }

            fn answer(case: &mut Lent) -> Answer {
                match case.call {
                    Call::Find | Call::Value | Call::ValueCheck => look_up(case),
                    Call::Read | Call::NormalText | Call::Split | Call::Write => fill(case),
                    call @ (Call::WellFormedLength | Call::CheckFile | Call::Boolean | Call::Span) => {
                        judge(call, &case.input)
                    }
                }
            }

            fn judge(call: Call, text: &[u8]) -> Answer {
                let number = match call {
                    Call::WellFormedLength => Ok($library::well_formed_length(text)),
                    Call::CheckFile => $library::check_file(text).map(|()| 0),
                    Call::Boolean => $library::boolean(text).map(usize::from),
                    Call::Span => $library::span(text).map(|span| span as usize),
                    other => unreachable!("{other:?} takes more than a text"),
                };
                number.map(|number| [number, 0, 0, 0]).map_err($refusal)
            }

            fn fill(case: &mut Lent) -> Answer {
                let Lent { input, text, sections, entries, bytes, ends, out, .. } = case;
                let report = match case.call {
                    Call::Read => $library::read(input, text, sections, entries)
                        .map(|counts| [counts.text, counts.sections, counts.entries, 0]),
                    Call::NormalText => $library::normal_text(input, text, sections, entries, out)
                        .map(|sizes| (sizes.length, sizes.table))
                        .map(|(length, table)| [length, table.text, table.sections, table.entries]),
                    Call::Split => $library::split(input, bytes, ends)
                        .map(|items| [items.count, items.length, 0, 0]),
                    Call::Write => {
                        $library::write(bytes, ends, out).map(|length| [length, 0, 0, 0])
                    }
                    other => unreachable!("{other:?} fills no buffer"),
                };
                report.map_err($refusal)
            }

            #[rustfmt::skip]
            fn look_up(case: &mut Lent) -> Answer {
                let Lent { section, key, which, index, .. } = case;
                let Lent { text, sections, section_count, entries, entry_count, .. } = case;
                let which = if *which == 0 { Which::First } else { Which::Last };
                let report = match case.call {
                    Call::Find => $library::find(
                        section, key, which, text, sections, *section_count, entries, *entry_count,
                    ).map(|index| [index, 0, 0, 0]),
                    Call::Value => Ok(place_in(text, $library::value(
                        *index, text, sections, *section_count, entries, *entry_count,
                    ))),
                    Call::ValueCheck => $library::value_check(
                        *index, text, sections, *section_count, entries, *entry_count,
                    ).map(|part| [part.start, part.length, 0, 0]),
                    other => unreachable!("{other:?} asks no table"),
                };
                report.map_err($refusal)
            }
        }
    };
}

rust_calls!(in_reference, reference, |refusal: reference::Refusal| (
    refusal.number,
    refusal.place
));
rust_calls!(in_wrapper, havtsulen, |error: havtsulen::Error| (
    error.number(),
    error.place()
));
