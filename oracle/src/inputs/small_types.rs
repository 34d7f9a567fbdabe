//! All small types and all plain chains, as words.

use super::types::words;
use crate::original::words::*;

const BIG: u64 = u64::MAX;
const LAST_NAME: u64 = u32::MAX as u64;

/// Every layer of kind 0 to 26 with each of these fields, bad ones included.
pub fn all_layers() -> Vec<Layer> {
    let mut all = Vec::new();
    for kind in 0..=26 {
        for name in [0, 1, LAST_NAME, LAST_NAME + 1] {
            for number in [0, 1, 3, BIG] {
                all.push([kind, name, number]);
            }
        }
    }
    all
}

/// Every good layer with these names and numbers.
fn good_layers(names: &[u64], numbers: &[u64]) -> Vec<Layer> {
    let mut all = Vec::new();
    for kind in 0..=VIEW {
        for name in names {
            for number in numbers {
                all.push([kind, *name, *number]);
            }
        }
    }
    all.retain(is_good);
    all
}

/// Every type of one and of two layers with these names and numbers.
pub fn small_types(names: &[u64], numbers: &[u64]) -> Vec<Vec<u64>> {
    let layers = good_layers(names, numbers);
    let (leaves, outers): (Vec<Layer>, Vec<Layer>) =
        layers.iter().partition(|layer| is_leaf(layer[0]));
    let mut all: Vec<Vec<u64>> = leaves.iter().map(|leaf| leaf.to_vec()).collect();
    for outer in &outers {
        all.extend(leaves.iter().map(|leaf| words(&[*outer, *leaf])));
    }
    all
}

/// Every run of three kinds, each with the first fields that are good.
pub fn runs_of_three() -> Vec<Vec<u64>> {
    let mut all = Vec::new();
    for a in 0..=VIEW {
        for b in 0..=VIEW {
            for c in 0..=VIEW {
                all.push(words(&[[a, 0, 0], [b, 0, 0], [c, 0, 0]]));
            }
        }
    }
    all
}

/// Types of three layers over few leaves, for pairs.
pub fn types_of_three() -> Vec<Vec<u64>> {
    let leaves = [[CHAR8, 0, 0], [UINT8, 0, 0], [STRUCT, 1, 0]];
    let mut all = Vec::new();
    for a in OUTERS {
        for b in OUTERS {
            for c in leaves {
                all.push(words(&[[a, 0, 0], [b, 0, 0], c]));
            }
        }
    }
    all
}

/// Every type of one, two and three layers, each kind with fields of its own.
pub fn types_to_three() -> Vec<Vec<u64>> {
    let layers = good_layers(&[0, 5], &[0, 1, 8]);
    let own = |layer: &&Layer| match layer[0] {
        ARRAY => layer[2] == 8,
        NAMED | STRUCT => layer[1] == 5,
        WORD => layer[1] == 5 && layer[2] == 8,
        UNRESOLVED => layer[1] == 5 || layer[2] == 0,
        _ => true,
    };
    let (leaves, outers): (Vec<Layer>, Vec<Layer>) = layers
        .iter()
        .filter(own)
        .partition(|layer| is_leaf(layer[0]));
    let mut all: Vec<Vec<u64>> = leaves.iter().map(|leaf| leaf.to_vec()).collect();
    let mut from = 0;
    for _ in 0..2 {
        let inner = all[from..].to_vec();
        from = all.len();
        for outer in &outers {
            all.extend(inner.iter().map(|t| [&outer[..], t].concat()));
        }
    }
    all
}

/// One kind over and over, 0 to 15 times, on this leaf.
pub fn chains(leaf: Layer) -> Vec<Vec<u64>> {
    let mut all = Vec::new();
    for kind in OUTERS {
        for times in 0..16 {
            all.push(words(&[vec![[kind, 0, 0]; times], vec![leaf]].concat()));
        }
    }
    all
}

/// Every run of up to six Pointers and Views, around Char8, Uint8 and an Array of Char8.
pub fn references() -> Vec<Vec<u64>> {
    let ends = [
        vec![[CHAR8, 0, 0]],
        vec![[UINT8, 0, 0]],
        vec![[ARRAY, 0, 1], [CHAR8, 0, 0]],
    ];
    let mut all: Vec<Vec<u64>> = ends.iter().map(|end| words(end)).collect();
    let mut from = 0;
    for _ in 0..6 {
        let inner = all[from..].to_vec();
        from = all.len();
        for outer in [[POINTER, 0, 0], [VIEW, 0, 0]] {
            all.extend(inner.iter().map(|t| [&outer[..], t].concat()));
        }
    }
    all
}

/// One kind over and over, then another kind, then a leaf.
pub fn turned_chains() -> Vec<Vec<u64>> {
    let mut all = Vec::new();
    for kind in OUTERS {
        for other in OUTERS {
            for times in 0..15 {
                let end = vec![[other, 0, 0], [CHAR8, 0, 0]];
                all.push(words(&[vec![[kind, 0, 0]; times], end].concat()));
            }
        }
    }
    all
}

/// Chains of 1 to 16 layers, each with a bad layer, a leaf or an outer kind in each place. Of the bad
/// layers the first bad word is each of the three.
pub fn spoiled_chains() -> Vec<Vec<u64>> {
    let spoiled = [
        [25, 0, 0],
        [25, 1, 1],
        [POINTER, 0, 1],
        [POINTER, 1, 1],
        [ARRAY, 1, 1],
        [UNRESOLVED, 1, 0],
        [UNRESOLVED, 1, 2],
        [UNRESOLVED, LAST_NAME + 1, 2],
        [UINT8, 0, 0],
        [VIEW, 0, 0],
    ];
    let mut all = Vec::new();
    for count in 1..=16 {
        for place in 0..count {
            for layer in spoiled {
                let mut chain = vec![[POINTER, 0, 0]; count];
                chain[count - 1] = [CHAR8, 0, 0];
                chain[place] = layer;
                all.push(words(&chain));
            }
        }
    }
    all
}

/// Each chain with itself, and with itself but for one layer, in each place.
pub fn near_pairs() -> Vec<(Vec<u64>, Vec<u64>)> {
    let outers = [
        [ARRAY, 0, 1],
        [NAMED, 1, 0],
        [ARRAYLIKE, 0, 0],
        [POINTER, 0, 0],
        [VIEW, 0, 0],
    ];
    let leaves = [[UINT8, 0, 0], [BOOL, 0, 0]];
    let mut all = Vec::new();
    for chain in chains([CHAR8, 0, 0]) {
        let last = chain.len() / 3 - 1;
        for place in 0..=last {
            let others: &[Layer] = if place == last { &leaves } else { &outers };
            for other in others {
                let mut near = chain.clone();
                near[3 * place..3 * place + 3].copy_from_slice(other);
                all.push((chain.clone(), near));
            }
        }
        all.push((chain.clone(), chain));
    }
    all
}
