//! Random types to ask about.

use super::random::Random;
use crate::original::words::*;

const BIG: u64 = u64::MAX;
const LAST_NAME: u64 = u32::MAX as u64;

pub fn words(layers: &[Layer]) -> Vec<u64> {
    layers.concat()
}

fn name(random: &mut Random) -> u64 {
    random.pick(&[0, 1, 1, 2, 7, LAST_NAME])
}

fn number(random: &mut Random) -> u64 {
    let any = random.next();
    random.pick(&[0, 1, 2, 3, 3, 8, 1 << 32, 1 << 60, 1 << 63, BIG, any])
}

pub fn layer(random: &mut Random, kind: u64) -> Layer {
    match kind {
        ARRAY => [kind, 0, number(random)],
        NAMED | STRUCT => [kind, name(random), 0],
        WORD => [kind, name(random), number(random)],
        UNRESOLVED if random.once_in(2) => [kind, 0, 0],
        UNRESOLVED => [kind, name(random), 1],
        _ => [kind, 0, 0],
    }
}

pub fn leaf(random: &mut Random) -> Layer {
    let kind = match random.below(4) {
        0 => random.pick(&[CHAR8, UINT8]),
        1 => random.pick(&[STRUCT, WORD, UNRESOLVED]),
        _ => INT8 + random.below((BOOL - INT8 + 1) as usize) as u64,
    };
    layer(random, kind)
}

/// A type of so many layers, of any kinds.
fn any_type(random: &mut Random, layers: usize) -> Vec<Layer> {
    let outers: &[u64] = match random.below(3) {
        0 => &[POINTER, VIEW],
        1 => &[POINTER, VIEW, POINTER, VIEW, ARRAY, ARRAYLIKE],
        _ => &OUTERS,
    };
    let mut all = Vec::new();
    for _ in 1..layers {
        let kind = random.pick(outers);
        all.push(layer(random, kind));
    }
    all.push(if random.once_in(10) {
        [0, 0, 0]
    } else {
        leaf(random)
    });
    all
}

/// A well-formed type of so many layers.
fn wellformed_type(random: &mut Random, layers: usize) -> Vec<Layer> {
    let mut outers: &[u64] = &OUTERS;
    let mut all = Vec::new();
    for _ in 1..layers {
        let kind = random.pick(outers);
        all.push(layer(random, kind));
        outers = match kind {
            POINTER | VIEW => &[ARRAY, NAMED, ENDLESS, ARRAYLIKE, POINTER],
            _ => &[ARRAY, NAMED, ARRAYLIKE, POINTER],
        };
    }
    all.push(leaf(random));
    all
}

/// Mostly few layers, sometimes all sixteen.
fn layer_count(random: &mut Random, most: usize) -> usize {
    let most = if random.once_in(4) { most } else { most.min(5) };
    1 + random.below(most)
}

/// A type that passes the checks.
pub fn good_type(random: &mut Random, most: usize) -> Vec<Layer> {
    let layers = layer_count(random, most);
    match random.below(6) {
        // Arrays of arrays, so that sizes are there and pass the limit.
        0 => {
            let mut all: Vec<Layer> = (1..layers).map(|_| layer(random, ARRAY)).collect();
            all.push(leaf(random));
            all
        }
        1 | 2 => any_type(random, layers),
        _ => wellformed_type(random, layers),
    }
}

/// A type that extern fixing mostly accepts; well formed or not.
pub fn extern_type(random: &mut Random, most: usize) -> Vec<Layer> {
    let mut outers: &[u64] = &[ARRAYLIKE, ARRAYLIKE, POINTER, VIEW];
    let mut all = Vec::new();
    for _ in 1..layer_count(random, most) {
        let kind = match random.once_in(12) {
            true => random.pick(&OUTERS),
            false => random.pick(outers),
        };
        all.push(layer(random, kind));
        outers = &[ARRAYLIKE, POINTER];
    }
    let kind = match random.once_in(6) {
        true => random.pick(&[0, 5, 10, BOOL, STRUCT, WORD]),
        false => random.pick(&[1, 2, 3, 4, 6, 7, 8, 9, 11, CHAR8]),
    };
    all.push(layer(random, kind));
    all
}

/// The numbers that fixing is asked with beside a type of so many words: 1 where it is extern, the
/// context, and the output's words, often just enough or one too few.
pub fn flags(random: &mut Random, count: usize) -> Vec<u64> {
    let external = random.below(2) as u64;
    let context = match random.once_in(10) {
        true => random.pick(&[4, 5, BIG]),
        false => random.below(4) as u64,
    };
    let near = (count + random.below(8)).saturating_sub(4);
    let any = random.below(52);
    let room = random.pick(&[near, any, 51, 51]);
    vec![external, context, room as u64]
}

/// Words that may fail the checks: a type with a word changed, cut, extended or out of order.
pub fn damaged(random: &mut Random, layers: &[Layer]) -> Vec<u64> {
    let mut all = words(layers);
    let any = random.next();
    let odd = random.pick(&[0, 1, 2, 20, 22, 25, 26, LAST_NAME, LAST_NAME + 1, BIG, any]);
    match random.below(7) {
        0 | 1 => {
            let at = random.below(all.len());
            all[at] = odd;
        }
        2 => {
            let at = random.below(layers.len());
            all[3 * at] = random.below(27) as u64;
        }
        3 => all.truncate(random.below(all.len() + 1)),
        4 => all.truncate(3 * random.below(layers.len() + 1)),
        5 => {
            for _ in 0..=random.below(4) {
                all.push(random.pick(&[0, 1, 24, odd]));
            }
        }
        _ => {
            let at = 3 * random.below(layers.len() + 1);
            let kind = random.below(25) as u64;
            let more = layer(random, kind);
            all.splice(at..at, more);
        }
    }
    all
}
