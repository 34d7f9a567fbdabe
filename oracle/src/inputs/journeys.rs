//! Random questions about plans: a table whose members lead back to a Struct or a Word, a known type,
//! and asked steps that mostly fit where the rounds are.

use super::random::Random;
use super::relatives::{coerced, relative};
use super::types::{damaged, good_type, words};
use crate::judge::blank::{blank, KEPT};
use crate::judge::planning::*;
use crate::judge::table::{taken, Symbol, FREE, PART};
use crate::original::words::*;

pub struct Journey {
    known: Vec<u64>,
    steps: Vec<u64>,
    target: Vec<u64>,
    depth: u8,
    rounds: u64,
    members: Members,
}

impl Journey {
    pub fn asked(&self) -> Asked<'_> {
        Asked {
            known: &self.known,
            steps: &self.steps,
            target: &self.target,
            depth: self.depth,
            rounds: self.rounds,
            members: &self.members,
        }
    }
}

/// A type that mostly is well formed and mostly ends with a Struct or a Word.
pub fn leading(random: &mut Random) -> Vec<Layer> {
    let most = random.pick(&[1, 2, 3, 4, 4, 8, 16]);
    let mut t = match random.once_in(3) {
        true => vec![[POINTER, 0, 0]; random.below(most)],
        false => {
            let mut t = good_type(random, most);
            while !decode(&t).is_wellformed() && !random.once_in(200) {
                t = good_type(random, most);
            }
            t.pop();
            t
        }
    };
    t.push(match random.below(24) {
        0 => [INT8, 0, 0],
        1 => [CHAR8, 0, 0],
        2..=8 => [WORD, 1, 8],
        _ => [STRUCT, 1, 0],
    });
    t
}

/// Typed records, some poisoned ones, and free ones after them.
fn records(random: &mut Random, first: u32) -> (Vec<Symbol>, Vec<u64>) {
    let taken = match random.below(200) {
        0 => 128,
        1 => 0,
        _ => 1 + random.below(5),
    };
    let free = if taken < 128 { random.below(3) } else { 0 };
    let mut table = vec![FREE; taken + free];
    let mut store = blank(PART * table.len());
    for slot in 0..taken {
        let t = words(&leading(random));
        store[PART * slot..PART * slot + t.len()].copy_from_slice(&t);
        let state = if random.once_in(60) { 2 } else { 1 };
        table[slot] = Symbol {
            id: first + slot as u32,
            authority: random.once_in(2),
            place: random.next(),
            state,
            layers: t.len() as u64 / 3,
            mark: random.below(2) as u64,
        };
    }
    (table, store)
}

/// Any good step.
fn any_step(random: &mut Random) -> [u64; 4] {
    match random.below(5) as u64 {
        ELEMENT => [ELEMENT, random.below(9) as u64, random.below(3) as u64, 0],
        MEMBER => [MEMBER, random.below(9) as u64, 0, 0],
        AUTODESLICE => [AUTODESLICE, 0, random.below(3) as u64, 0],
        kind => [kind, 0, 0, 0],
    }
}

/// A step that fits behind the Pointers and Views of this type, and where it leads; none at a leaf
/// without members.
pub fn fitting(
    random: &mut Random,
    current: &[Layer],
    first: u32,
    members: &Members,
) -> Option<([u64; 4], Vec<Layer>)> {
    let stripped: Vec<Layer> = current
        .iter()
        .copied()
        .skip_while(|layer| matches!(layer[0], POINTER | VIEW))
        .collect();
    match stripped[0][0] {
        STRUCT | WORD => {
            let count = match random.once_in(60) {
                true => members.table.len() + 1,
                false => taken(&members.table).max(1),
            };
            let id = u64::from(first) + random.below(count) as u64;
            let step = match random.once_in(3) {
                true => [MEMBER, id, 1, random.next()],
                false => [MEMBER, id, 0, 0],
            };
            let next = members.typed(id).and_then(|t| check(t).ok());
            Some((step, next.unwrap_or(stripped)))
        }
        ARRAY..=ARRAYLIKE => {
            let handle = random.next() >> 32;
            let step = [ELEMENT, handle, random.below(3) as u64, 0];
            Some((step, stripped[1..].to_vec()))
        }
        _ => None,
    }
}

pub fn journey(random: &mut Random) -> Journey {
    let first = random.pick(&[0, 1, 7, u32::MAX - 127]);
    let (table, store) = records(random, first);
    let mut members = Members::new(table, store);
    let known = leading(random);
    let mut current = known.clone();
    let mut steps = Vec::new();
    let most = random.pick(&[0, 1, 2, 4, 8, MOST_ASKED]);
    while steps.len() < 4 * most {
        if random.once_in(200) {
            steps.extend(any_step(random));
        }
        match fitting(random, &current, first, &members) {
            Some((step, next)) => {
                steps.extend(step);
                current = next;
            }
            None => break,
        }
    }
    steps.truncate(4 * most);
    let target = target(random, &current);
    let depth = match random.once_in(10) {
        true => random.below(18) as u8,
        false => random.pick(&[0, 0, 0, 0, 1, 1, 1, 2, 3, 255]),
    };
    let rounds = random.pick(&[0, 1, 2, 63, 65, 64, 64, 64, 64, 64, 64, 64]);
    let mut made = Journey {
        known: words(&known),
        steps,
        target: words(&target),
        depth,
        rounds,
        members: Members::new(Vec::new(), Vec::new()),
    };
    if random.once_in(6) {
        members = spoil(random, &mut made, members);
    }
    made.members = members;
    made
}

/// A type that the settling looks at when the rounds end on this one.
pub fn target(random: &mut Random, current: &[Layer]) -> Vec<Layer> {
    let t = match random.below(7) {
        0 => current.to_vec(),
        1 => [&[[POINTER, 0, 0]], current].concat(),
        2 if current.len() > 1 => current[1..].to_vec(),
        3 => leading(random),
        4 => coerced(random, current),
        _ => relative(random, current),
    };
    match t.len() <= 16 && decode(&t).is_wellformed() {
        true => t,
        false if random.once_in(8) => t[t.len().saturating_sub(16)..].to_vec(),
        false => vec![t[t.len() - 1]],
    }
}

/// One or more faults, so that the order of the refusals shows.
fn spoil(random: &mut Random, made: &mut Journey, members: Members) -> Members {
    let faults = 1 + random.below(31);
    if faults & 1 == 1 && random.once_in(2) {
        made.known = damaged(random, &check(&made.known).expect("a type"));
    }
    if faults & 2 == 2 && random.once_in(2) {
        made.target = damaged(random, &check(&made.target).expect("a type"));
    }
    if faults & 4 == 4 {
        made.steps = bad_steps(random, &made.steps);
    }
    if faults & 8 == 8 {
        made.rounds = random.pick(&[65, 64, u64::MAX]);
    }
    if faults & 16 == 16 {
        let (table, store) = out_of_order(random, members.table, members.store);
        return Members::new(table, store);
    }
    members
}

/// Steps with a word changed, cut off in a step, or too many; some of them are good after all.
fn bad_steps(random: &mut Random, steps: &[u64]) -> Vec<u64> {
    let mut all = steps.to_vec();
    let step = any_step(random);
    all.extend(step);
    match random.below(4) {
        0 => all.truncate(random.below(all.len() + 1)),
        1 => all.resize(4 * MOST_ASKED + 4, 0),
        _ => {
            let at = random.below(all.len());
            all[at] = random.pick(&[0, 1, 2, 3, 4, 5, 1 << 32, u64::MAX]);
        }
    }
    all
}

/// A table with a fault, or with none after all.
pub fn out_of_order(
    random: &mut Random,
    mut table: Vec<Symbol>,
    mut store: Vec<u64>,
) -> (Vec<Symbol>, Vec<u64>) {
    if table.is_empty() {
        return (table, blank(random.below(49)));
    }
    let slot = random.below(table.len());
    let other = random.below(table.len());
    match random.below(8) {
        0 => table[slot].state = 3,
        1 => table[slot].state = 0,
        2 => table[slot].id = table[other].id,
        3 => table[slot].layers = random.pick(&[0, 1, 2, 16, 17, 1 << 62, u64::MAX]),
        4 => store[PART * slot + random.below(6)] = random.pick(&[0, 1, 25, u64::MAX]),
        5 => {
            store.pop();
        }
        6 => store.push(KEPT + store.len() as u64),
        _ => {
            let last = table.len() as u32;
            table.extend((last..129).map(|id| Symbol { id, ..FREE }));
            store.resize(PART * table.len(), 0);
        }
    }
    (table, store)
}

/// Steps for the walker beside a plan's: one changed, added or gone, a bad one, or too many.
pub fn other_steps(random: &mut Random, steps: &[u64]) -> Vec<u64> {
    let count = steps.len() / 4;
    let at = 4 * random.below(count + 1);
    let mut all = steps.to_vec();
    match random.below(6) {
        0 => {
            all.splice(at..at, any_step(random));
        }
        1 if at < all.len() => {
            all.splice(at..at + 4, any_step(random));
        }
        2 if at < all.len() => {
            all.drain(at..at + 4);
        }
        3 => all = bad_steps(random, steps),
        4 => {
            let many = random.pick(&[MOST_WALKED, MOST_WALKED + 1]);
            all.resize(4 * many, 0);
        }
        _ => all.truncate(at),
    }
    all
}
