//! Extern fixing.

use super::tally::Tallies;
use crate::inputs::random::Random;
use crate::inputs::small_types::*;
use crate::inputs::types::*;
use crate::judge::questions::FIXING;
use crate::original::words::{ARRAYLIKE, BOOL, POINTER};

pub fn compare(tallies: &mut Tallies, scale: u64, seed: u64) {
    fixing(tallies);
    random_fixing(tallies, scale, &mut Random::new(seed));
}

/// Every type of one to three layers with outputs of every length from 0 to 51 words; then bad runs,
/// every plain chain up to 16 layers, also inside an Arraylike, and every count of words.
fn fixing(tallies: &mut Tallies) {
    let every: Vec<u64> = (0..=51).collect();
    for t in types_to_three() {
        tallies.ask_fixed(&t, &every);
    }
    for t in small_types(&[0, 1, u32::MAX as u64], &[0, 1, 3, u64::MAX]) {
        tallies.ask_fixed(&t, &[2, 3, 5, 6, 9, 51]);
    }
    for run in runs_of_three() {
        tallies.ask_fixed(&run, &[8, 51]);
    }
    let mut long = [turned_chains(), spoiled_chains(), chains([BOOL, 0, 0])].concat();
    let inside = long
        .iter()
        .map(|chain| [&[ARRAYLIKE, 0, 0], &chain[..]].concat());
    long.extend(inside.collect::<Vec<_>>());
    for chain in long {
        let n = chain.len() as u64;
        tallies.ask_fixed(&chain, &[0, n - 3, n - 1, n, n + 2, n + 3, 51]);
    }
    for count in 0..=60 {
        let chain: Vec<u64> = [POINTER, 0, 0].repeat(20)[..count].to_vec();
        for words in [chain, vec![0; count], vec![u64::MAX; count]] {
            tallies.ask_fixed(&words, &[0, 48, 51]);
        }
    }
}

fn random_fixing(tallies: &mut Tallies, scale: u64, random: &mut Random) {
    for _ in 0..scale * 200_000 {
        let t = match random.once_in(2) {
            true => good_type(random, 16),
            false => extern_type(random, 16),
        };
        let t = match random.once_in(8) {
            true => damaged(random, &t),
            false => words(&t),
        };
        tallies.ask(FIXING, &t, &flags(random, t.len()));
    }
}
