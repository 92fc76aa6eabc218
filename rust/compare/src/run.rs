//! Runs many cases on all cores, and tells the first failure.

use std::env;
use std::fmt::Display;
use std::num::NonZero;
use std::str::FromStr;
use std::sync::atomic::{AtomicBool, Ordering};
use std::thread;

use crate::buffers::lend_too_little;
use crate::calls::Side;
use crate::case::Case;
use crate::compare::{compare, Difference};
use crate::counts::Counts;
use crate::describe::describe;
use crate::kinds::{Drawn, DRAWN, LISTED};
use crate::random::Random;
use crate::shrink::shorten_case;

/// How many inputs are drawn where HAVTSULEN_CASES is not set.
pub const DEFAULT_CASES: usize = 1_000_000;
const DEFAULT_SEED: u64 = 2026;

/// What is run.
#[derive(Clone, Copy, Debug)]
pub struct Plan {
    /// The seed of the whole run (HAVTSULEN_SEED).
    pub seed: u64,
    /// How many inputs are drawn (HAVTSULEN_CASES); the lists come on top.
    pub cases: usize,
    /// The one case to run, by its index (HAVTSULEN_ONLY).
    pub only: Option<usize>,
}

impl Plan {
    /// The plan that the environment sets.
    pub fn from_environment() -> Plan {
        Plan {
            seed: setting("HAVTSULEN_SEED").unwrap_or(DEFAULT_SEED),
            cases: setting("HAVTSULEN_CASES").unwrap_or(DEFAULT_CASES),
            only: setting("HAVTSULEN_ONLY"),
        }
    }

    /// How many cases there are in all.
    pub fn total(&self) -> usize {
        self.cases + LISTED.iter().map(|list| list.count).sum::<usize>()
    }
}

/// A number in the environment. Anything else there is a mistake of the caller.
fn setting<T: FromStr<Err: Display>>(name: &str) -> Option<T> {
    let text = env::var(name).ok()?;
    Some(
        text.parse()
            .unwrap_or_else(|error| panic!("{name}={text}: {error}")),
    )
}

/// A case of the run.
pub struct Planned {
    /// The kind of input.
    pub kind: &'static str,
    /// Whether it is drawn, and not from a list.
    pub drawn: bool,
    /// The case's own seed.
    pub seed: u64,
    /// The case.
    pub case: Case,
}

/// A kind of drawn inputs, by their weights.
fn pick_kind(random: &mut Random) -> &'static Drawn {
    let mut left = random.below(DRAWN.iter().map(|kind| kind.weight).sum());
    for kind in &DRAWN {
        if left < kind.weight {
            return kind;
        }
        left -= kind.weight;
    }
    unreachable!("the number is below the sum of the weights")
}

/// The case with this index: the lists first, and then drawn ones.
pub fn planned(plan: &Plan, index: usize) -> Planned {
    let seed = Random::new(plan.seed ^ Random::new(index as u64).bits()).bits();
    let mut random = Random::new(seed);
    let mut left = index;
    for list in &LISTED {
        if left < list.count {
            return Planned {
                kind: list.name,
                drawn: false,
                seed,
                case: (list.make)(left, &mut random),
            };
        }
        left -= list.count;
    }
    let kind = pick_kind(&mut random);
    let mut case = (kind.make)(&mut random);
    lend_too_little(&mut random, &mut case);
    Planned {
        kind: kind.name,
        drawn: true,
        seed,
        case,
    }
}

/// The counts of a run: of the lists, and of what was drawn.
#[derive(Clone, Debug, Default)]
pub struct Results {
    /// The lists.
    pub listed: Counts,
    /// What was drawn.
    pub drawn: Counts,
}

/// Runs one case, and counts it.
fn run_case(
    plan: &Plan,
    index: usize,
    sides: &[Side],
    results: &mut Results,
) -> Result<(), String> {
    let planned = planned(plan, index);
    match compare(&planned.case, sides) {
        Ok(outcome) => {
            let number = outcome
                .number
                .expect("an outcome without difference has a number");
            let counts = if planned.drawn {
                &mut results.drawn
            } else {
                &mut results.listed
            };
            counts.add(planned.kind, &planned.case, number);
            Ok(())
        }
        Err(difference) => Err(format!(
            "HAVTSULEN_SEED={} HAVTSULEN_CASES={} HAVTSULEN_ONLY={index}: case seed {}, {}\n{}",
            plan.seed,
            plan.cases,
            planned.seed,
            planned.kind,
            shortened(&planned.case, sides, difference),
        )),
    }
}

/// A difference in words: the shortened case with its answers.
pub fn shortened(case: &Case, sides: &[Side], difference: Difference) -> String {
    let short = shorten_case(case, |case| compare(case, sides).is_err());
    let difference = compare(&short, sides).err().unwrap_or(difference);
    format!(
        "call {}\n{difference}\n{}",
        case.call.name(),
        describe(&short)
    )
}

/// The index of a case that fails, and the failure in words.
type Failure = (usize, String);

/// Runs each `step`th case from `first` on, until one fails.
fn run_some(
    plan: &Plan,
    sides: &[Side],
    (first, step): (usize, usize),
    stop: &AtomicBool,
) -> Result<Results, Failure> {
    let mut results = Results::default();
    for index in (first..plan.total()).step_by(step) {
        if stop.load(Ordering::Relaxed) {
            break;
        }
        if let Err(failure) = run_case(plan, index, sides, &mut results) {
            stop.store(true, Ordering::Relaxed);
            return Err((index, failure));
        }
    }
    Ok(results)
}

/// Runs the plan: the first side is compared with the others. Of several failures the earliest is told.
pub fn run(plan: &Plan, sides: &[Side]) -> Result<Results, String> {
    let mut all = Results::default();
    if let Some(index) = plan.only {
        return run_case(plan, index, sides, &mut all).map(|()| all);
    }
    let threads = thread::available_parallelism().map_or(1, NonZero::get);
    let stop = AtomicBool::new(false);
    let results: Vec<Result<Results, Failure>> = thread::scope(|scope| {
        let stop = &stop;
        let start = |first| scope.spawn(move || run_some(plan, sides, (first, threads), stop));
        let running: Vec<_> = (0..threads).map(start).collect();
        running
            .into_iter()
            .map(|thread| thread.join().expect("a thread ends"))
            .collect()
    });
    let mut failures = Vec::new();
    for result in results {
        match result {
            Ok(part) => {
                all.listed.merge(&part.listed);
                all.drawn.merge(&part.drawn);
            }
            Err(failure) => failures.push(failure),
        }
    }
    match failures.into_iter().min() {
        Some((_, failure)) => Err(failure),
        None => Ok(all),
    }
}
