//! Compares the proved library with the reference: generated inputs, and real files.
//!
//! A [`case::Case`] is one call with all that is lent to it. [`compare::compare`] makes the call through
//! the C interface, through the safe wrapper and in the reference, each on a copy, and compares what they
//! leave. [`run::run`] does so for many cases; where two sides differ it shortens the input first.
#![deny(unsafe_op_in_unsafe_fn, missing_docs)]

pub mod beyond;
pub mod buffers;
pub mod calls;
pub mod case;
pub mod compare;
pub mod counts;
pub mod describe;
pub mod escapes;
pub mod every_byte;
pub mod far;
pub mod faults;
pub mod files;
pub mod full;
pub mod guarded;
pub mod kinds;
pub mod large;
pub mod limits;
pub mod lists;
pub mod long_lines;
pub mod long_names;
pub mod mutate;
pub mod noise;
pub mod placed;
pub mod properties;
pub mod random;
pub mod run;
pub mod shrink;
pub mod span_limits;
pub mod tables;
pub mod texts;
pub mod units;
pub mod utf8;
pub mod values;
