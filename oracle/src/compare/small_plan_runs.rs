//! Plans and walks of all small questions: the proved library against the original and document 01.

use super::plan_rows::Plans;
use crate::inputs::types::words;
use crate::judge::blank::blank;
use crate::judge::planning::*;
use crate::judge::table::{Symbol, FREE, PART};
use crate::original::words::*;

pub fn compare(plans: &mut Plans) {
    let (types, members) = (small_types(), few_members());
    unasked(plans, &types, &members);
    asked(plans, &types, &members);
    walks(plans, &types, &members);
    long(plans, &members);
}

/// A record of the type at these words, in its part of the store.
fn typed(id: u32, t: &[u64]) -> (Symbol, Vec<u64>) {
    let mut part = blank(PART);
    part[..t.len()].copy_from_slice(t);
    let symbol = Symbol {
        id,
        state: 1,
        layers: t.len() as u64 / 3,
        ..FREE
    };
    (symbol, part)
}

const INT32: Layer = [3, 0, 0];

/// Members of the ids 1 to 5: Int32, Pointer to Struct, Slice of Int32, an ill-formed type, poison.
fn few_members() -> Members {
    let mut slots = vec![
        typed(1, &INT32),
        typed(2, &words(&[[POINTER, 0, 0], [STRUCT, 1, 0]])),
        typed(3, &words(&[[SLICE, 0, 0], INT32])),
        typed(4, &words(&[[POINTER, 0, 0], [SLICE, 0, 0], INT32])),
        typed(5, &INT32),
        typed(6, &INT32),
    ];
    slots[4].0.state = 2;
    slots[5].0 = FREE;
    let (table, store): (Vec<Symbol>, Vec<Vec<u64>>) = slots.into_iter().unzip();
    Members::new(table, store.concat())
}

/// Steps of every kind and mark, with members of every sort.
const STEPS: [[u64; 4]; 14] = [
    [ELEMENT, 7, 0, 0],
    [ELEMENT, 0, 1, 0],
    [ELEMENT, 7, 2, 0],
    [MEMBER, 1, 0, 0],
    [MEMBER, 2, 1, 0],
    [MEMBER, 3, 1, u64::MAX],
    [MEMBER, 4, 0, 0],
    [MEMBER, 5, 0, 0],
    [MEMBER, 9, 0, 0],
    [AUTODESLICE, 0, 0, 0],
    [AUTODESLICE, 0, 1, 0],
    [AUTODESLICE, 0, 2, 0],
    [AUTODEREF, 0, 0, 0],
    [AUTOVIEW, 0, 0, 0],
];

/// Every list of no, one and two of these steps.
fn small_steps() -> Vec<Vec<u64>> {
    let mut all = vec![Vec::new()];
    for first in STEPS {
        all.push(first.to_vec());
        all.extend(STEPS.iter().map(|second| [first, *second].concat()));
    }
    all
}

/// Types of one and two layers, and well-formed ones of three.
fn small_types() -> Vec<Vec<u64>> {
    let leaves = [
        [0, 0, 0],
        INT32,
        [UINT8, 0, 0],
        [CHAR8, 0, 0],
        [STRUCT, 1, 0],
        [WORD, 1, 4],
        [UNRESOLVED, 0, 0],
    ];
    let outers = OUTERS.map(|kind| [kind, 0, if kind == ARRAY { 3 } else { 0 }]);
    let mut all: Vec<Vec<u64>> = leaves.iter().map(|leaf| leaf.to_vec()).collect();
    for a in outers {
        all.extend(leaves.iter().map(|leaf| words(&[a, *leaf])));
    }
    for a in outers {
        for b in outers {
            for leaf in [INT32, [CHAR8, 0, 0], [STRUCT, 1, 0]] {
                let t = [a, b, leaf];
                if decode(&t).is_wellformed() {
                    all.push(words(&t));
                }
            }
        }
    }
    all
}

const DEPTHS: [u8; 5] = [0, 1, 2, 3, 255];

/// So few that they cut a plan off, the most, one less, and one too many.
const ROUNDS: [u64; 7] = [0, 1, 2, 3, 63, 64, 65];

/// Without asked steps every pair of small types.
fn unasked(plans: &mut Plans, types: &[Vec<u64>], members: &Members) {
    for known in types {
        for target in types {
            for depth in DEPTHS {
                let asked = Asked {
                    known,
                    steps: &[],
                    target,
                    depth,
                    rounds: 64,
                    members,
                };
                let judged = plans.ask(&asked);
                plans.ask_tightly(&asked, &judged);
            }
        }
    }
}

/// Every small type with one and two asked steps.
fn asked(plans: &mut Plans, types: &[Vec<u64>], members: &Members) {
    for known in types {
        for steps in &small_steps()[1..] {
            along(plans, known, steps, types, members);
        }
    }
}

/// For every target, where no round is refused: what refuses it looks at neither target nor depth.
fn along(plans: &mut Plans, known: &[u64], steps: &[u64], types: &[Vec<u64>], members: &Members) {
    let mut ask = |target: &[u64], depth: u8, rounds: u64| {
        plans.ask(&Asked {
            known,
            steps,
            target,
            depth,
            rounds,
            members,
        })
    };
    let refused = matches!(ask(&INT32, 0, 64), Err((4 | 8 | 11, _)));
    for depth in &DEPTHS[..if refused { 2 } else { 5 }] {
        for rounds in ROUNDS {
            ask(&INT32, *depth, rounds).ok();
        }
    }
    if refused {
        return;
    }
    for target in types {
        for depth in DEPTHS {
            ask(target, depth, 64).ok();
        }
    }
}

/// Pointers to Arrays, 15 and 16 layers in all, at every depth that one of them can have: an address
/// of 16 layers is over the limit.
fn long(plans: &mut Plans, members: &Members) {
    for layers in [15, 16] {
        for pointers in 0..layers {
            let mut known = vec![[POINTER, 0, 0]; pointers];
            known.resize(layers - 1, [ARRAY, 0, 3]);
            known.push(INT32);
            let mut slice = known.clone();
            slice[0] = [SLICE_POINTER, 0, 0];
            for target in [vec![INT32], known.clone(), slice] {
                for depth in 0..=17 {
                    let asked = Asked {
                        known: &words(&known),
                        steps: &[],
                        target: &words(&target),
                        depth,
                        rounds: 64,
                        members,
                    };
                    let judged = plans.ask(&asked);
                    plans.ask_tightly(&asked, &judged);
                }
            }
        }
    }
}

/// Every small type along no, one and two steps.
fn walks(plans: &mut Plans, types: &[Vec<u64>], members: &Members) {
    for known in types {
        for steps in &small_steps() {
            for address in [false, true] {
                for short in [0, 2, 3] {
                    plans.walk(known, steps, address, members, short).ok();
                }
            }
        }
    }
}
