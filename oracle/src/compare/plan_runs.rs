//! Plans and walks: the proved library against the original and document 01, on the same words.

use super::plan_rows::Plans;
use super::row::Row;
use super::small_plan_runs;
use crate::inputs::journeys::{journey, other_steps, Journey};
use crate::inputs::random::Random;

pub fn compare(scale: u64, random: &mut Random) -> Vec<Row> {
    let mut plans = Plans::new();
    small_plan_runs::compare(&mut plans);
    for _ in 0..scale * 100_000 {
        along(&mut plans, &journey(random), random);
    }
    plans.rows()
}

/// A random question, outputs too short, and walks along its steps, the plan's and others.
fn along(plans: &mut Plans, journey: &Journey, random: &mut Random) {
    let asked = journey.asked();
    let judged = plans.ask(&asked);
    plans.ask_tightly(&asked, &judged);
    let address = random.once_in(2);
    let (known, members) = (asked.known, asked.members);
    plans.walk(known, asked.steps, address, members, 0).ok();
    if let Ok(made) = &judged {
        let steps = other_steps(random, &made.steps);
        plans.walk(known, &steps, address, members, 0).ok();
        for short in [2, 3] {
            plans.walk(known, &made.steps, address, members, short).ok();
        }
    }
}
