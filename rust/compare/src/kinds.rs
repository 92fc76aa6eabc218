//! The kinds of inputs: drawn ones with their weights, and whole lists.

use crate::case::Case;
use crate::random::Random;
use crate::{beyond, escapes, every_byte, far, faults, files, full, large, limits, lists};
use crate::{long_names, noise, span_limits, tables, texts, units, utf8, values};

/// A kind of drawn inputs.
pub struct Drawn {
    /// What it is called in the counts.
    pub name: &'static str,
    /// How often it comes, beside the others.
    pub weight: usize,
    /// Makes one.
    pub make: fn(&mut Random) -> Case,
}

/// A list of inputs that are all run once. The random numbers fill the buffers, and choose what the list
/// leaves open.
pub struct Listed {
    /// What it is called in the counts.
    pub name: &'static str,
    /// How many there are.
    pub count: usize,
    /// Makes the one with this index.
    pub make: fn(usize, &mut Random) -> Case,
}

const fn drawn(name: &'static str, weight: usize, make: fn(&mut Random) -> Case) -> Drawn {
    Drawn { name, weight, make }
}

/// All kinds of drawn inputs.
pub static DRAWN: [Drawn; 37] = [
    drawn("files: grammar", 200, files::drawn),
    drawn("files: mutated", 70, files::mutated),
    drawn("files: one fault", 70, faults::one),
    drawn("files: several faults", 25, faults::several),
    drawn("files: limits", 30, limits::drawn),
    drawn("files: full tables", 10, full::drawn),
    drawn("files: faults far down", 8, far::drawn),
    drawn("files: many joined lines", 5, far::joined),
    drawn("files: long names", 12, long_names::file),
    drawn("files: few bytes", 40, files::few_bytes),
    drawn("files: any bytes", 10, noise::file),
    drawn("tables: sound", 90, tables::drawn),
    drawn("tables: damaged", 60, tables::damaged),
    drawn("tables: large", 25, large::drawn),
    drawn("tables: large, damaged", 10, large::damaged),
    drawn("tables: long names", 25, long_names::table),
    drawn("tables: beyond the reader", 5, beyond::drawn),
    drawn("tables: beyond, damaged", 5, beyond::damaged),
    drawn("split: lists", 90, texts::drawn),
    drawn("split: mutated", 40, texts::mutated),
    drawn("split: one fault", 40, texts::one_fault),
    drawn("split: several faults", 15, texts::several_faults),
    drawn("split: limits", 15, texts::at_limit),
    drawn("split: few bytes", 20, texts::few_bytes),
    drawn("split: any bytes", 10, noise::split),
    drawn("write: lists", 80, lists::drawn),
    drawn("write: faults", 35, lists::faulty),
    drawn("write: limits", 20, lists::at_limit),
    drawn("write: any bytes", 10, noise::write),
    drawn("booleans", 40, values::boolean),
    drawn("booleans: any bytes", 2, noise::boolean),
    drawn("spans: grammar", 110, values::span),
    drawn("spans: damaged", 30, values::damaged_span),
    drawn("spans: limits", 20, span_limits::drawn),
    drawn("spans: any bytes", 2, noise::span),
    drawn("utf-8: characters", 30, utf8::drawn),
    drawn("utf-8: any bytes", 10, noise::decode),
];

const fn listed(name: &'static str, count: usize, make: fn(usize, &mut Random) -> Case) -> Listed {
    Listed { name, count, make }
}

/// All lists.
#[rustfmt::skip]
pub static LISTED: [Listed; 17] = [
    listed("files: every byte", every_byte::FILES, every_byte::files),
    listed("split: every byte", every_byte::SPLITS, every_byte::splits),
    listed("booleans: every byte", every_byte::BOOLEANS, every_byte::booleans),
    listed("spans: every byte", every_byte::SPANS, every_byte::spans),
    listed("split: limits of escapes", escapes::LISTED, escapes::listed),
    listed("spans: known words", units::KNOWN, units::known),
    listed("spans: short words, all", units::SHORT, units::short),
    listed("spans: limits of units", span_limits::LISTED, span_limits::listed),
    listed("tables: large, all", large::LISTED, large::listed),
    listed("tables: large, each damage", large::DAMAGED_LISTED, large::damaged_listed),
    listed("files: short, all", files::SHORT_LISTED, files::short_listed),
    listed("files: in a value, all", files::BEHIND_LISTED, files::behind_listed),
    listed("split: short, all", texts::LISTED, texts::listed),
    listed("write: every byte", lists::LISTED, lists::listed),
    listed("booleans: one byte off", values::BOOLEAN_LISTED, values::boolean_listed),
    listed("spans: short, all", values::SPAN_LISTED, values::span_listed),
    listed("utf-8: boundaries", utf8::LISTED, utf8::listed),
];
