//! The least time of several rounds.

use std::hint::black_box;
use std::time::{Duration, Instant};

use compare::compare::outcome_difference;

use crate::row::{Bench, Input, Row, SIDES};

/// A row that is timed: its buffers, and the least time so far of each input and each side.
pub struct Timed<'a> {
    row: &'a mut Row,
    bench: Bench,
    least: Vec<[Duration; 2]>,
}

impl Timed<'_> {
    /// A row before its first round.
    pub fn new(row: &mut Row) -> Timed<'_> {
        Timed {
            bench: Bench::new(row.call),
            least: vec![[Duration::MAX; 2]; row.inputs.len()],
            row,
        }
    }

    /// Times each input once, the sides in turn: which is first changes from round to round.
    pub fn round(&mut self, round: usize) -> Result<(), String> {
        let order = [round % 2, 1 - round % 2];
        for (input, least) in self.row.inputs.iter_mut().zip(&mut self.least) {
            let taken = time_both(&mut self.bench, input, order, self.row.number)
                .map_err(|difference| format!("{}: {difference}", self.row.name))?;
            *least = [0, 1].map(|side| least[side].min(taken[side]));
        }
        Ok(())
    }

    /// The sum of the least times, in nanoseconds.
    pub fn nanoseconds(&self) -> [f64; 2] {
        [0, 1].map(|side| {
            let all: Duration = self.least.iter().map(|least| least[side]).sum();
            all.as_nanos() as f64
        })
    }
}

/// One call of each side in this order, compared.
fn time_both(
    bench: &mut Bench,
    input: &mut Input,
    order: [usize; 2],
    number: usize,
) -> Result<[Duration; 2], String> {
    let mut taken = [Duration::MAX; 2];
    let outcomes = order.map(|side| {
        bench.call(SIDES[side], input, |call, lent| {
            let start = Instant::now();
            let number = call(black_box(lent));
            taken[side] = start.elapsed();
            number
        })
    });
    let [first, second] = &outcomes;
    let difference =
        outcome_difference(first, second).or_else(|| outcome_difference(second, first));
    if let Some(what) = difference {
        return Err(what);
    }
    if first.number != Some(number) {
        return Err(format!("{first} instead of {number}"));
    }
    Ok(taken)
}
