//! The questions about types and their relations.

use super::tally::Tallies;
use crate::inputs::random::Random;
use crate::inputs::relatives::pair;
use crate::inputs::small_types::*;
use crate::inputs::types::*;
use crate::original::words::{BOOL, CHAR8, POINTER, UINT8, VIEW};

pub fn compare(tallies: &mut Tallies, scale: u64, seed: u64) {
    small(tallies);
    long(tallies);
    counts(tallies, &mut Random::new(seed));
    random(tallies, scale, &mut Random::new(seed));
}

/// Every small type, and every pair of small types and of runs of Pointers and Views.
fn small(tallies: &mut Tallies) {
    let layers = all_layers();
    for outer in &layers {
        tallies.ask_one(outer);
        for inner in &layers {
            tallies.ask_one(&words(&[*outer, *inner]));
        }
    }
    for run in runs_of_three() {
        tallies.ask_one(&run);
    }
    let small = small_types(&[0, 1], &[0, 1, 3]);
    for types in [small, types_of_three(), references()] {
        for a in &types {
            for b in &types {
                tallies.ask_two(a, b);
            }
        }
    }
    // Both sides bad: the left one is judged first.
    let bad: Vec<Vec<u64>> = runs_of_three().into_iter().step_by(97).collect();
    for a in &bad {
        for b in bad.iter().step_by(7) {
            tallies.ask_two(a, b);
        }
    }
}

/// Every plain chain up to 16 layers, and pairs of them that differ in kind, length or one layer.
fn long(tallies: &mut Tallies) {
    for chain in turned_chains() {
        tallies.ask_one(&chain);
    }
    let good = [BOOL, 0, 0];
    for chain in spoiled_chains() {
        tallies.ask_one(&chain);
        tallies.ask_two(&chain, &good);
        tallies.ask_two(&good, &chain);
    }
    for (a, b) in near_pairs() {
        tallies.ask_two(&a, &b);
        tallies.ask_two(&b, &a);
    }
    let right = chains([UINT8, 0, 0]);
    for a in chains([CHAR8, 0, 0]) {
        tallies.ask_one(&a);
        for b in &right {
            tallies.ask_two(&a, b);
        }
    }
}

/// Every count of words from 0 to 60, on either side.
fn counts(tallies: &mut Tallies, random: &mut Random) {
    for count in 0..=60 {
        let mut chain: Vec<u64> = [[POINTER, 0, 0], [VIEW, 0, 0]].concat().repeat(10);
        chain.truncate(count);
        let mut closed = chain.clone();
        if count >= 3 {
            closed[count - 3..].copy_from_slice(&[6, 0, 0]);
        }
        let noise = (0..count).map(|_| random.next()).collect();
        let small = (0..count).map(|_| random.below(27) as u64).collect();
        for words in [
            chain,
            closed,
            vec![0; count],
            vec![u64::MAX; count],
            noise,
            small,
        ] {
            tallies.ask_one(&words);
            for other in [&words[..], &[6, 0, 0], &[24, 0, 0], &[]] {
                tallies.ask_two(&words, other);
                tallies.ask_two(other, &words);
            }
        }
    }
}

fn random(tallies: &mut Tallies, scale: u64, random: &mut Random) {
    for _ in 0..scale * 50_000 {
        let one = good_type(random, 16);
        tallies.ask_one(&words(&one));
        tallies.ask_one(&damaged(random, &one));

        let (a, b) = pair(random, 16);
        tallies.ask_two(&words(&a), &words(&b));
        if random.once_in(4) {
            let (bad_a, bad_b) = (damaged(random, &a), damaged(random, &b));
            tallies.ask_two(&bad_a, &words(&b));
            tallies.ask_two(&words(&a), &bad_b);
            tallies.ask_two(&bad_a, &bad_b);
        }
    }
}
