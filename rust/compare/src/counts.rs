//! What was compared: inputs for each call and kind, accepted ones, refusals by number.

use std::collections::BTreeMap;
use std::fmt;

use havtsulen::REPORT_NUMBERS;

use crate::case::{Call, Case};
use crate::properties;

/// Inputs and how they were answered.
#[derive(Clone, Copy, Debug, Default)]
struct Tally {
    inputs: usize,
    accepted: usize,
}

impl Tally {
    fn add(&mut self, other: Tally) {
        self.inputs += other.inputs;
        self.accepted += other.accepted;
    }

    /// Accepted ones in 100 inputs.
    fn share(self) -> f64 {
        100.0 * self.accepted as f64 / self.inputs.max(1) as f64
    }
}

/// The counts of a run.
#[derive(Clone, Debug, Default)]
pub struct Counts {
    calls: BTreeMap<&'static str, Tally>,
    kinds: BTreeMap<&'static str, Tally>,
    refused: BTreeMap<usize, usize>,
    short_reports: usize,
    properties: usize,
}

/// The refusals of the rules.
pub const REFUSALS: [usize; 24] = [
    1, 2, 3, 4, 5, 6, 7, 8, 9, 10, 20, 21, 22, 23, 24, 25, 26, 27, 28, 30, 31, 32, 40, 41,
];

impl Counts {
    /// Counts one input of a kind that was answered with a number. The 1 of a short report is no refusal
    /// of the rules, and counts by itself.
    pub fn add(&mut self, kind: &'static str, case: &Case, number: usize) {
        let tally = Tally {
            inputs: 1,
            accepted: usize::from(number == 0),
        };
        self.calls.entry(case.call.name()).or_default().add(tally);
        self.kinds.entry(kind).or_default().add(tally);
        if case.report.len() < REPORT_NUMBERS {
            self.short_reports += 1;
        } else if number != 0 {
            *self.refused.entry(number).or_default() += 1;
        } else if properties::judged(case.call) {
            self.properties += 1;
        }
    }

    /// Adds the counts of another part of the run.
    pub fn merge(&mut self, other: &Counts) {
        for (name, &tally) in &other.calls {
            self.calls.entry(name).or_default().add(tally);
        }
        for (name, &tally) in &other.kinds {
            self.kinds.entry(name).or_default().add(tally);
        }
        for (&number, times) in &other.refused {
            *self.refused.entry(number).or_default() += times;
        }
        self.short_reports += other.short_reports;
        self.properties += other.properties;
    }

    fn total(&self) -> Tally {
        let mut total = Tally::default();
        self.calls.values().for_each(|&tally| total.add(tally));
        total
    }

    /// All inputs.
    pub fn inputs(&self) -> usize {
        self.total().inputs
    }

    /// Accepted ones in 100 inputs.
    pub fn accepted_share(&self) -> f64 {
        self.total().share()
    }

    /// Accepted ones in 100 inputs of one call.
    pub fn accepted_share_of(&self, call: Call) -> f64 {
        self.calls
            .get(call.name())
            .map_or(0.0, |tally| tally.share())
    }

    /// How often this refusal came.
    pub fn refused(&self, number: usize) -> usize {
        self.refused.get(&number).copied().unwrap_or(0)
    }

    /// How often the report was too short.
    pub fn short_reports(&self) -> usize {
        self.short_reports
    }
}

fn write_rows(f: &mut fmt::Formatter<'_>, rows: &BTreeMap<&'static str, Tally>) -> fmt::Result {
    for (name, tally) in rows {
        writeln!(
            f,
            "  {name:<28} {:>8} inputs, {:>5.1} in 100 accepted",
            tally.inputs,
            tally.share()
        )?;
    }
    Ok(())
}

impl fmt::Display for Counts {
    fn fmt(&self, f: &mut fmt::Formatter<'_>) -> fmt::Result {
        writeln!(f, "by call:")?;
        write_rows(f, &self.calls)?;
        writeln!(f, "by kind of input:")?;
        write_rows(f, &self.kinds)?;
        writeln!(f, "by refusal:")?;
        for number in REFUSALS {
            writeln!(f, "  {number:>2}: {:>8}", self.refused(number))?;
        }
        writeln!(f, "short reports: {}", self.short_reports)?;
        writeln!(f, "held against a property: {}", self.properties)?;
        let total = self.total();
        write!(
            f,
            "in all: {} inputs, {:.1} in 100 accepted",
            total.inputs,
            total.share()
        )
    }
}
