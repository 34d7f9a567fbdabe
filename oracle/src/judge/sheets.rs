//! Sheets: what a sheet is, by document 01, and what `pairs` is to print of one, by the original's
//! relations.

use std::fmt::Write;

use crate::original::prelude::ValueType;
use crate::original::value_type::ask;
use crate::original::words::{check, decode, Layer, Refusal, MOST_LAYERS};

const MOST_TYPES: u64 = 32;

type Relation = fn(&ValueType, &ValueType) -> bool;

const COLUMNS: [(&str, Relation); 6] = [
    ("equals", ask::equals),
    ("declared", |a, b| a.can_be_declared_as(b)),
    ("concrete", |a, b| a.can_be_concretization_of(b)),
    ("coerces", |a, b| a.can_coerce_into(b)),
    ("address", |a, b| a.can_coerce_address_into(b)),
    ("autoderef", |a, b| a.can_autoderef_into(b)),
];

/// The types of a sheet, or the first refusal: 16, then each type's own in turn.
pub fn read(bytes: &[u8]) -> Result<Vec<Vec<Layer>>, Refusal> {
    let bad = (16, 0);
    if bytes.len() % 8 != 0 {
        return Err(bad);
    }
    let word = |eight: &[u8]| u64::from_le_bytes(eight.try_into().unwrap());
    let words: Vec<u64> = bytes.chunks(8).map(word).collect();
    let bodies = bodies(&words).ok_or(bad)?;
    bodies.into_iter().map(check).collect()
}

/// Each type's words; none where a count is bad or a word is missing or left over.
fn bodies(words: &[u64]) -> Option<Vec<&[u64]>> {
    let (count, rest) = words.split_first()?;
    if !(1..=MOST_TYPES).contains(count) || rest.len() < *count as usize {
        return None;
    }
    let (counts, mut rest) = rest.split_at(*count as usize);
    let mut all = Vec::new();
    for layers in counts {
        if !(1..=MOST_LAYERS as u64).contains(layers) || rest.len() < 3 * *layers as usize {
            return None;
        }
        let (body, behind) = rest.split_at(3 * *layers as usize);
        all.push(body);
        rest = behind;
    }
    rest.is_empty().then_some(all)
}

/// What is printed of any bytes.
pub fn text(bytes: &[u8]) -> String {
    match read(bytes) {
        Ok(types) => table(&types.iter().map(|t| decode(t)).collect::<Vec<_>>()),
        Err((number, _)) => format!("refused {number}\n"),
    }
}

fn table(types: &[ValueType]) -> String {
    let mut text = "left right".to_string();
    for (name, _) in COLUMNS {
        write!(text, " {name}").unwrap();
    }
    text.push('\n');
    for (i, left) in types.iter().enumerate() {
        for (j, right) in types.iter().enumerate() {
            write!(text, "{} {}", i + 1, j + 1).unwrap();
            for (_, holds) in COLUMNS {
                write!(text, " {}", u8::from(holds(left, right))).unwrap();
            }
            text.push('\n');
        }
    }
    text
}
