//! Close relatives of a type, and pairs of them.

use super::random::Random;
use super::types::{good_type, layer, leaf};
use crate::original::words::*;

/// A close relative: the type after none to three small changes that the relations look at.
pub fn relative(random: &mut Random, layers: &[Layer]) -> Vec<Layer> {
    let mut all = layers.to_vec();
    for _ in 0..random.below(4) {
        change(random, &mut all);
        if all.len() > 16 {
            all.remove(0);
        }
    }
    all
}

fn change(random: &mut Random, all: &mut Vec<Layer>) {
    let last = all.len() - 1;
    let at = random.below(all.len());
    match random.below(12) {
        0 | 1 => match all[last][0] {
            CHAR8 => all[last] = [UINT8, 0, 0],
            UINT8 => all[last] = [CHAR8, 0, 0],
            STRUCT | WORD if random.once_in(2) => all[last] = [UNRESOLVED, all[last][1], 1],
            STRUCT | WORD => all[last] = [UNRESOLVED, 0, 0],
            _ => all[last] = [random.pick(&[CHAR8, UINT8]), 0, 0],
        },
        2 => all.insert(0, [POINTER, 0, 0]),
        3 => all.insert(0, [VIEW, 0, 0]),
        4 if last > 0 => {
            all.remove(0);
        }
        // Arraylike for one array layer, or for all of them.
        5 => match all[at][0] {
            ARRAY | NAMED | SLICE | ENDLESS => all[at] = [ARRAYLIKE, 0, 0],
            SLICE_POINTER => {
                all[at] = [ARRAYLIKE, 0, 0];
                all.insert(at, [POINTER, 0, 0]);
            }
            _ => (),
        },
        6 => {
            for layer in all.iter_mut() {
                if matches!(layer[0], ARRAY | NAMED | ENDLESS) {
                    *layer = [ARRAYLIKE, 0, 0];
                }
            }
        }
        // What the outer layer coerces into, by value or by address.
        7 | 8 if matches!(all[0][0], ARRAY..=SLICE_POINTER) => {
            let shape = random.pick(&[SLICE, SLICE_POINTER, POINTER, VIEW]);
            if matches!(shape, POINTER | VIEW) {
                all[0] = [ENDLESS, 0, 0];
                all.insert(0, [shape, 0, 0]);
            } else {
                all[0] = [shape, 0, 0];
            }
        }
        9 if is_leaf(all[at][0]) => all[at] = leaf(random),
        9 => {
            let kind = random.pick(&OUTERS);
            all[at] = layer(random, kind);
        }
        10 => {
            let kind = all[at][0];
            all[at] = layer(random, kind);
        }
        11 if !is_leaf(all[at][0]) => {
            all.remove(at);
        }
        _ => (),
    }
}

/// What this type coerces into, by value or by address, where its outer kind allows it.
pub fn coerced(random: &mut Random, layers: &[Layer]) -> Vec<Layer> {
    let shapes: &[&[u64]] = match layers[0][0] {
        ARRAY | NAMED => &[
            &[SLICE],
            &[SLICE_POINTER],
            &[VIEW, ENDLESS],
            &[POINTER, ENDLESS],
        ],
        SLICE => &[&[VIEW, ENDLESS]],
        SLICE_POINTER => &[&[POINTER, ENDLESS]],
        STRUCT => return [&[[VIEW, 0, 0]], layers].concat(),
        _ => return layers.to_vec(),
    };
    let mut all: Vec<Layer> = random
        .pick(shapes)
        .iter()
        .map(|kind| [*kind, 0, 0])
        .collect();
    all.extend(&layers[1..]);
    all
}

/// What this type is a concretization of: an Arraylike without, and for some arrays within.
pub fn likened(random: &mut Random, layers: &[Layer]) -> Vec<Layer> {
    let shape: &[u64] = match layers[0][0] {
        ARRAY | NAMED | SLICE | ENDLESS => &[ARRAYLIKE],
        SLICE_POINTER if random.once_in(2) => &[ARRAYLIKE],
        SLICE_POINTER => &[POINTER, ARRAYLIKE],
        _ => &[],
    };
    let mut all: Vec<Layer> = shape.iter().map(|kind| [*kind, 0, 0]).collect();
    let skipped = usize::from(!shape.is_empty());
    for layer in &layers[skipped..] {
        all.push(match layer[0] {
            ARRAY | NAMED | ENDLESS if random.once_in(2) => [ARRAYLIKE, 0, 0],
            STRUCT | WORD if random.once_in(4) => [UNRESOLVED, layer[1], 1],
            _ => *layer,
        });
    }
    all
}

/// Two types that are often related. `most` limits the layers of what they have in common.
pub fn pair(random: &mut Random, most: usize) -> (Vec<Layer>, Vec<Layer>) {
    let common = good_type(random, most);
    let (mut a, mut b) = match random.below(4) {
        0 => (common.clone(), coerced(random, &common)),
        1 => (common.clone(), likened(random, &common)),
        _ => return (relative(random, &common), relative(random, &common)),
    };
    for side in [&mut a, &mut b] {
        if random.once_in(3) {
            change(random, side);
        }
        side.drain(..side.len().saturating_sub(16));
    }
    (a, b)
}
