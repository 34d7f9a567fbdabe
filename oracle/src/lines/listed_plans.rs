//! The list's questions about plans and walks.

use super::listed::{Listed, MOST_RECORDS};
use crate::inputs::journeys::{journey, other_steps, Journey};
use crate::inputs::random::Random;
use crate::judge::planning::{judge_plan, judge_walk, plan_told, walk_told, Asked, Members};
use crate::judge::questions::Answer;

/// A question about a plan that is mostly short.
fn short_journey(random: &mut Random) -> Journey {
    loop {
        let made = journey(random);
        let asked = made.asked();
        let records = asked.members.table.len();
        let layers = asked
            .members
            .table
            .iter()
            .map(|symbol| symbol.layers.min(16));
        let words = 3 * layers.sum::<u64>() as usize;
        let size = asked.known.len() + asked.steps.len() + asked.target.len() + words;
        let limit = if random.once_in(20) { 300 } else { 60 };
        if records <= MOST_RECORDS && size <= limit {
            return made;
        }
    }
}

fn of_plan(
    asked: &Asked,
    given: Answer,
    sort: [u64; 2],
    numbers: [u64; 4],
    runs: [&[u64]; 2],
) -> Listed {
    let Members { table, store, .. } = asked.members;
    let mut numbers = numbers.to_vec();
    numbers.push(store.len() as u64);
    Listed {
        given,
        sort,
        runs: [
            asked.known.to_vec(),
            numbers,
            runs[0].to_vec(),
            runs[1].to_vec(),
        ],
        table: table.clone(),
        store: store.clone(),
    }
}

/// A plan, with outputs that mostly suffice.
pub fn plan(random: &mut Random) -> Listed {
    let journey = short_journey(random);
    let asked = journey.asked();
    let judged = judge_plan(&asked);
    let (steps, reported) = match &judged {
        Ok(made) => (made.steps.len(), made.reported.len()),
        Err(_) => (4, 6),
    };
    let rooms = match random.below(12) {
        0 => [steps, reported],
        1 => [steps.max(1) - 1, reported],
        2 => [steps, reported - 1],
        _ => [steps + 3, reported + 2],
    };
    let told = plan_told(&judged, rooms);
    let (fields, outputs) = (&told.fields, &told.outputs);
    let written = match fields[0] {
        0 => [&fields[2..], &outputs[0][..steps], &outputs[1][..reported]].concat(),
        _ => Vec::new(),
    };
    let given = Answer {
        refusal: fields[0],
        value: fields[1],
        written,
    };
    let cut = u64::from(fields[0] == 0 && fields[3] < asked.steps.len() as u64 / 4);
    let sort = [4 * cut + 2 * fields[5] + fields[6], fields[2].min(3)];
    let numbers = [
        asked.depth.into(),
        asked.rounds,
        rooms[0] as u64,
        rooms[1] as u64,
    ];
    of_plan(&asked, given, sort, numbers, [asked.target, asked.steps])
}

/// A walk along a plan's steps, others or those asked.
pub fn walk(random: &mut Random) -> Listed {
    let journey = short_journey(random);
    let asked = journey.asked();
    let steps = match judge_plan(&asked) {
        Ok(made) if random.once_in(2) => made.steps,
        Ok(made) => other_steps(random, &made.steps),
        Err(_) => asked.steps.to_vec(),
    };
    let address = random.once_in(2);
    let judged = judge_walk(asked.known, &steps, address, asked.members);
    let count = judged.as_ref().map_or(6, |t| t.len());
    let room = random.pick(&[count, count - 1, count + 2, count + 2, count + 2, count + 2]);
    let told = walk_told(&judged, room);
    let given = Answer {
        refusal: told.fields[0],
        value: told.fields[1],
        written: match told.fields[0] {
            0 => told.outputs[0][..count].to_vec(),
            _ => Vec::new(),
        },
    };
    let sort = [address.into(), (steps.len() as u64 / 4).min(3)];
    let numbers = [address.into(), room as u64, 0, 0];
    of_plan(&asked, given, sort, numbers, [&[], &steps])
}
