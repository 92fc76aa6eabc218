//! The comparison of one case: number, report, every byte and every number of every buffer.

use std::fmt;
use std::panic::{catch_unwind, AssertUnwindSafe};

use crate::calls::Side;
use crate::case::{Case, Lent};
use crate::properties;

/// What a side has answered.
#[derive(Clone, Debug)]
pub struct Outcome {
    /// The name of the side.
    pub side: &'static str,
    /// The number; none where the side has panicked.
    pub number: Option<usize>,
    /// The case as the call has left it.
    pub after: Lent,
}

impl fmt::Display for Outcome {
    fn fmt(&self, f: &mut fmt::Formatter<'_>) -> fmt::Result {
        match self.number {
            Some(number) => write!(f, "{}: {number}, report {:?}", self.side, self.after.report),
            None => write!(f, "{}: panicked", self.side),
        }
    }
}

/// Two answers that should be the same, or one that breaks a rule by itself.
#[derive(Clone, Debug)]
pub struct Difference {
    /// What differs, or which rule is broken.
    pub what: String,
    /// The answers.
    pub outcomes: Vec<Outcome>,
}

impl fmt::Display for Difference {
    fn fmt(&self, f: &mut fmt::Formatter<'_>) -> fmt::Result {
        for outcome in &self.outcomes {
            writeln!(f, "{outcome}")?;
        }
        write!(f, "{}", self.what)
    }
}

/// Makes the call of a case on a copy.
fn run(before: &Lent, side: Side) -> Outcome {
    let mut after = before.clone();
    let number = catch_unwind(AssertUnwindSafe(|| (side.call)(&mut after))).ok();
    Outcome {
        side: side.name,
        number,
        after,
    }
}

/// The first place where two vectors differ.
fn first_difference<T: PartialEq + fmt::Debug>(
    name: &str,
    left: &[T],
    right: &[T],
) -> Option<String> {
    if left == right {
        return None;
    }
    let same = left
        .iter()
        .zip(right)
        .take_while(|(left, right)| left == right)
        .count();
    Some(format!(
        "{name}[{same}]: {:?} and {:?}",
        left.get(same),
        right.get(same)
    ))
}

/// The first difference between the buffers of two cases; the report is not one of them.
fn buffer_difference(left: &Lent, right: &Lent) -> Option<String> {
    let mut bytes = left.all_bytes().into_iter().zip(right.all_bytes());
    let mut numbers = left.all_numbers().into_iter().zip(right.all_numbers());
    bytes
        .find_map(|((name, left), (_, right))| first_difference(name, left, right))
        .or_else(|| {
            numbers.find_map(|((name, left), (_, right))| first_difference(name, left, right))
        })
}

/// The buffer outside of which a side has written, in words.
fn written_outside(outcome: &Outcome) -> Option<String> {
    let name = outcome.after.broken_guard()?;
    Some(format!("{name}: written outside by {}", outcome.side))
}

/// What differs between two answers to the same case: the number, the report, a buffer, or a guard that the second has
/// changed.
pub fn outcome_difference(left: &Outcome, right: &Outcome) -> Option<String> {
    if left.number != right.number {
        return Some("the numbers differ".to_string());
    }
    first_difference("report", &left.after.report, &right.after.report)
        .or_else(|| buffer_difference(&left.after, &right.after))
        .or_else(|| written_outside(right))
}

/// What an outcome breaks by itself: no call writes outside its buffers, a refused one changes none,
/// and an accepted one has its property.
fn broken_rule(before: &Lent, outcome: &Outcome) -> Option<String> {
    written_outside(outcome).or_else(|| match outcome.number {
        None => Some("there is no number".to_string()),
        Some(0) => catch_unwind(AssertUnwindSafe(|| properties::broken(&outcome.after)))
            .unwrap_or_else(|_| Some("a property has panicked".to_string())),
        Some(_) => buffer_difference(before, &outcome.after),
    })
}

/// Compares the first side with each of the others, and with the rules that need no second side. The
/// outcome that all share has a number.
pub fn compare(before: &Case, sides: &[Side]) -> Result<Outcome, Difference> {
    let before = before.lend();
    let first = run(&before, sides[0]);
    for &side in &sides[1..] {
        let other = run(&before, side);
        if let Some(what) = outcome_difference(&first, &other) {
            return Err(Difference {
                what,
                outcomes: vec![first, other],
            });
        }
    }
    match broken_rule(&before, &first) {
        Some(what) => Err(Difference {
            what,
            outcomes: vec![first],
        }),
        None => Ok(first),
    }
}
