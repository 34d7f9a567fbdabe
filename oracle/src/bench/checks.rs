//! The checks 1 to 3, which the original has not: types that pass, and the same with a Void that has a
//! number as their last layer. For `tools/bench against` alone.

use super::measure::{repeated, Row};
use super::types::{count, formed};
use crate::face::type_face::tj_check;
use crate::inputs::random::Random;
use crate::inputs::types::words;
use std::hint::black_box;

pub fn rows(random: &mut Random, show: &mut dyn FnMut(Row)) {
    for layers in [1, 3, 4, 6, 16] {
        let mut types: Vec<Vec<u64>> = (0..32).map(|_| words(&formed(random, layers))).collect();
        let what = format!("check, {}", count(layers, "layer"));
        show(row(what, &types, 0));
        for t in &mut types {
            t[3 * layers - 3..].copy_from_slice(&[0, 0, 1]);
        }
        let what = format!("check, {}, the last word bad", count(layers, "layer"));
        show(row(what, &types, 2));
    }
}

fn row(what: String, types: &[Vec<u64>], refusal: u64) -> Row<'_> {
    let call = |t: &Vec<u64>| unsafe { tj_check(t.as_ptr(), t.len()) };
    for t in types {
        assert_eq!(call(t).refusal, refusal, "{what}: {t:?}");
    }
    let passed = if refusal == 0 { types.len() } else { 0 };
    Row {
        what,
        yes: (passed, types.len()),
        aim: None,
        ours: repeated(types.len(), move || {
            for t in types {
                black_box(call(black_box(t)));
            }
        }),
        original: repeated(types.len(), || ()),
    }
}
