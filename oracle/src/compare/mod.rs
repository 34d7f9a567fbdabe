//! The differential runs: the proved library against the original.

mod disorder_runs;
mod fixing_runs;
mod plan_rows;
mod plan_runs;
mod report;
mod row;
mod sheet_rows;
mod sheet_runs;
mod small_plan_runs;
mod string_runs;
mod symbol_rows;
mod symbol_runs;
mod tally;
mod type_runs;

use crate::inputs::random::Random;
use report::report;
use std::thread;
use tally::Tallies;

/// How many cases passed and how many failed.
pub fn compare(scale: u64, seed: u64) -> (u64, u64) {
    // Each part draws from its own random numbers, so the parts run side by side.
    thread::scope(|scope| {
        let types = scope.spawn(|| {
            let mut tallies = Tallies::new();
            type_runs::compare(&mut tallies, scale, seed);
            fixing_runs::compare(&mut tallies, scale, seed);
            tallies
        });
        let parts = [
            scope.spawn(|| symbol_runs::compare(scale, &mut Random::new(seed))),
            scope.spawn(|| plan_runs::compare(scale, &mut Random::new(seed))),
            scope.spawn(|| sheet_runs::compare(scale, &mut Random::new(seed))),
            scope.spawn(|| string_runs::compare(scale, &mut Random::new(seed))),
        ];
        let types = types.join().expect("the questions about types end");
        let others: Vec<_> = parts
            .into_iter()
            .flat_map(|part| part.join().expect("each part ends"))
            .collect();
        report(&types.0, &others)
    })
}
