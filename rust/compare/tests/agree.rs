//! The proved library, its wrapper and the reference answer every generated input alike.

use std::time::Instant;

use compare::calls::SIDES;
use compare::case::Call;
use compare::counts::{Counts, REFUSALS};
use compare::run::{run, Plan};

/// How many inputs are drawn at least; the lists come on top.
const DRAWN: usize = 200_000;
/// How often each refusal comes among them at least, and a report that is too short.
const EACH_REFUSAL: usize = 500;
/// How many in 100 of them are accepted at least, in all and of each call.
const ACCEPTED_IN_100: f64 = 30.0;

fn assert_enough(drawn: &Counts) {
    let inputs = drawn.inputs();
    assert!(inputs >= DRAWN, "only {inputs} inputs drawn");
    let share = drawn.accepted_share();
    assert!(share >= ACCEPTED_IN_100, "{share:.1} in 100 accepted");
    for call in Call::ALL {
        let share = drawn.accepted_share_of(call);
        let name = call.name();
        assert!(
            share >= ACCEPTED_IN_100,
            "{name}: {share:.1} in 100 accepted"
        );
    }
    for number in REFUSALS {
        let times = drawn.refused(number);
        assert!(times >= EACH_REFUSAL, "refusal {number} came {times} times");
    }
    let times = drawn.short_reports();
    assert!(times >= EACH_REFUSAL, "{times} reports were too short");
}

#[test]
fn the_three_sides_agree() {
    let plan = Plan::from_environment();
    let start = Instant::now();
    let results = run(&plan, &SIDES).unwrap_or_else(|failure| panic!("\n{failure}\n"));
    println!("the lists\n{}\n", results.listed);
    println!("drawn with the seed {}\n{}\n", plan.seed, results.drawn);
    println!("{:.1} s", start.elapsed().as_secs_f64());
    if plan.only.is_none() {
        assert_enough(&results.drawn);
    }
}
