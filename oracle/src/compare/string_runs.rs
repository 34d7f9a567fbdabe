//! The types of strings: the proved library against the original, for any length and any room.

use super::row::Row;
use crate::face::type_face::{string_literal, string_slice};
use crate::inputs::random::Random;
use crate::judge::questions::Answer;
use crate::original::prelude::ValueType;
use crate::original::words::encode;

pub fn compare(scale: u64, random: &mut Random) -> Vec<Row> {
    let mut rows = ["for_string_literal", "for_string_slice"].map(Row::new);
    for room in 0..=51 {
        for length in lengths() {
            literal(&mut rows[0], length, room);
        }
        slice(&mut rows[1], room);
    }
    for _ in 0..scale * 50_000 {
        let length = random.next() >> random.below(64);
        let room = random.below(12);
        literal(&mut rows[0], length, room);
        slice(&mut rows[1], room);
    }
    rows.into()
}

/// The lengths up to 300, and those around each power of two.
fn lengths() -> Vec<u64> {
    let mut all: Vec<u64> = (0..=300).collect();
    for bit in 9..64 {
        let power = 1 << bit;
        all.extend([power - 1, power, power + 1]);
    }
    all.push(u64::MAX);
    all
}

fn literal(row: &mut Row, length: u64, room: usize) {
    let made = ValueType::for_string_literal(length as usize);
    let found = string_literal(length, room);
    count(row, &made, room, found, || format!("length {length}"));
}

fn slice(row: &mut Row, room: usize) {
    let made = ValueType::for_string_slice();
    let found = string_slice(room);
    count(row, &made, room, found, String::new);
}

/// Counts a case: the original's type, where it fits, and 14, which the original has not, elsewhere.
fn count(
    row: &mut Row,
    made: &ValueType,
    room: usize,
    found: Result<Answer, String>,
    asked: impl Fn() -> String,
) {
    let words = encode(made);
    let (refusal, words) = match words.len() > room {
        true => (14, Vec::new()),
        false => (0, words),
    };
    let expected = Answer {
        refusal,
        value: words.len() as u64,
        written: words,
    };
    row.count(refusal, true);
    if found.as_ref() != Ok(&expected) {
        let asked = asked();
        row.differs(|| {
            format!(
                "  asked     {asked} room {room}\n  the Rust  {expected:?}\n  ours      {found:?}"
            )
        });
    }
}
