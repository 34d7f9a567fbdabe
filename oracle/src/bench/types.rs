//! Types to ask about, in words and as the original has them.

use crate::inputs::random::Random;
use crate::inputs::relatives::{coerced, likened, relative};
use crate::inputs::types::{good_type, words};
use crate::original::prelude::ValueType;
use crate::original::words::*;

pub struct Type {
    pub words: Vec<u64>,
    pub original: ValueType,
}

impl Type {
    pub fn new(layers: &[Layer]) -> Self {
        Type {
            words: words(layers),
            original: decode(layers),
        }
    }
}

/// A well-formed type of exactly so many layers.
pub fn formed(random: &mut Random, layers: usize) -> Vec<Layer> {
    loop {
        let t = good_type(random, layers);
        if t.len() == layers && decode(&t).is_wellformed() {
            return t;
        }
    }
}

/// A type that some relation may hold to, with about as many layers.
pub fn beside(random: &mut Random, a: &[Layer]) -> Vec<Layer> {
    loop {
        let b = match random.below(7) {
            0 => a.to_vec(),
            1 => coerced(random, a),
            2 => likened(random, a),
            3 => formed(random, a.len()),
            4 => [&[[POINTER, 0, 0]], a].concat(),
            _ => relative(random, a),
        };
        if b.len() <= 16 && b.len().abs_diff(a.len()) <= 1 {
            return b;
        }
    }
}

pub fn count(number: usize, of: &str) -> String {
    format!("{number} {of}{}", if number == 1 { "" } else { "s" })
}
