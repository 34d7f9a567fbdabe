//! The proved library and the original, timed on the same questions in one process: `tools/bench`.

mod checks;
mod fixing;
mod forms;
mod measure;
mod pairs;
mod plans;
mod records;
mod types;
mod updates;

use crate::inputs::random::Random;
use measure::{measure, measure_ours, Length, Measured, Row};
use std::time::Duration;

/// Short, so that most rounds run without a stop even where other work does too.
const ROUND: Duration = Duration::from_millis(1);

const FULL: Length = Length {
    rounds: 301,
    round: ROUND,
    enough: 5,
};

const QUICK: Length = Length {
    rounds: 75,
    round: ROUND,
    enough: 1,
};

/// Prints a line for each row and whether it meets its aim.
pub fn bench(quick: bool) {
    let length = if quick { QUICK } else { FULL };
    println!("| question | yes | ours, ns | original, ns | ratio | quartiles | aim | |");
    println!("|---|---|---|---|---|---|---|---|");
    let mut count = 0;
    let mut missed = 0;
    rows(&mut |mut row: Row| {
        let measured = measure(&mut row, length);
        count += 1;
        missed += usize::from(print(&row, &measured));
    });
    println!("\n{count} rows, {missed} miss their aim");
}

/// Prints a line for each row, for each shape of chain and for the checks: our nanoseconds a call, and what
/// was asked.
pub fn bench_ours() {
    let mut show = |mut row: Row| {
        let ours = measure_ours(&mut row, QUICK);
        println!("{ours:.2} {}", row.what);
    };
    rows(&mut show);
    pairs::chain_rows(&mut show);
    checks::rows(&mut Random::new(1), &mut show);
}

fn rows(show: &mut dyn FnMut(Row)) {
    let random = &mut Random::new(1);
    pairs::rows(random, show);
    forms::rows(random, show);
    // From a seed of their own, so that the questions of the rows below stay what they were.
    forms::role_rows(&mut Random::new(1), show);
    updates::rows(random, show);
    records::rows(random, show);
    fixing::rows(random, show);
    plans::rows(random, show);
}

/// Nanoseconds, with more places the fewer they are.
fn nanos(value: f64) -> String {
    match value {
        value if value < 100.0 => format!("{value:.1}"),
        value => format!("{value:.0}"),
    }
}

/// A ratio with two places, or with two digits where it is small.
fn share(value: f64) -> String {
    let mut places = 2;
    while places < 9 && value * 10f64.powi(places) < 9.5 {
        places += 1;
    }
    format!("{value:.*}", places as usize)
}

fn print(row: &Row, measured: &Measured) -> bool {
    let [low, ratio, high] = measured.ratio;
    let missed = row.aim.is_some_and(|aim| ratio > aim);
    println!(
        "| {} | {} of {} | {} | {} | {} | {} to {} | {} | {} |",
        row.what,
        row.yes.0,
        row.yes.1,
        nanos(measured.ours),
        nanos(measured.original),
        share(ratio),
        share(low),
        share(high),
        row.aim.map_or(String::new(), |aim| aim.to_string()),
        if missed { "misses" } else { "" },
    );
    missed
}
