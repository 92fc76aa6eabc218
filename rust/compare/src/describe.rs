//! Cases in words, so that they can be used again.

use crate::case::{Call, Case};

/// Bytes as a literal of Rust.
pub fn literal(bytes: &[u8]) -> String {
    format!("b\"{}\"", bytes.escape_ascii())
}

/// All that is lent to a case, and the lengths of its buffers.
pub fn describe(case: &Case) -> String {
    let mut lines = Vec::new();
    for (name, of, _) in case.lent_bytes() {
        let bytes = of(case);
        lines.push(format!(
            "{name} ({} bytes): {}",
            bytes.len(),
            literal(bytes)
        ));
    }
    for (name, of, _) in case.lent_numbers() {
        let numbers = of(case);
        lines.push(format!("{name} ({} numbers): {numbers:?}", numbers.len()));
    }
    if matches!(case.call, Call::Find | Call::Value | Call::ValueCheck) {
        let Case {
            which,
            index,
            section_count,
            entry_count,
            ..
        } = case;
        lines.push(format!("which {which}, index {index}"));
        lines.push(format!(
            "section count {section_count}, entry count {entry_count}"
        ));
    }
    lines.push(lengths(case));
    lines.join("\n")
}

fn lengths(case: &Case) -> String {
    let lengths = [
        ("text", case.text.len()),
        ("sections", case.sections.len()),
        ("entries", case.entries.len()),
        ("bytes", case.bytes.len()),
        ("ends", case.ends.len()),
        ("out", case.out.len()),
        ("report", case.report.len()),
    ];
    let lengths = lengths.map(|(name, length)| format!("{name} {length}"));
    format!("lengths: {}", lengths.join(", "))
}
