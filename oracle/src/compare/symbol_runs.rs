//! The symbol update and the symbol table: the proved library against the original, on the same
//! records and words.

use super::disorder_runs;
use super::row::Row;
use super::symbol_rows::Rows;
use crate::face::symbol_face::Lent;
use crate::inputs::pools::{lone_symbol, Pool};
use crate::inputs::random::Random;
use crate::inputs::relatives::pair;
use crate::inputs::small_types::{small_types, types_of_three};
use crate::inputs::types::{damaged, words};
use crate::judge::symbols::{Asked, Judge, Operation};
use crate::original::words::MOST_LAYERS;

pub fn compare(scale: u64, random: &mut Random) -> Vec<Row> {
    let mut rows = Rows::new("");
    alone(&mut rows, scale, random);
    // Every count of records, and the small ones often.
    for _ in 0..3 * scale {
        for records in 0..=130 {
            play(&mut rows, records, random);
        }
    }
    for _ in 0..1_000 * scale {
        let records = random.below(6);
        play(&mut rows, records, random);
    }
    let mut spoiled = Rows::new(", spoiled");
    disorder_runs::compare(&mut spoiled, scale, random);
    rows.0.extend(spoiled.0);
    rows.0
}

/// Lone symbols: every pair of small types, each with the four authorities and with another name and
/// the symbol's own; then random ones.
fn alone(rows: &mut Rows, scale: u64, random: &mut Random) {
    let names = |authority| [(2, authority, 20), (1, authority, 10)];
    for types in [small_types(&[0, 1], &[0, 3]), types_of_three()] {
        for stored in &types {
            for own in [false, true] {
                let (typed, room) = lone_symbol(Ok(stored), own);
                for offered in &types {
                    for name in [false, true].map(names).concat() {
                        rows.update(&typed, &room, name, offered);
                    }
                }
                let (poisoned, room) = lone_symbol(Err(5), own);
                for name in [false, true].map(names).concat() {
                    rows.update(&poisoned, &room, name, stored);
                }
            }
        }
    }
    for _ in 0..scale * 5_000 {
        let (a, b) = pair(random, 16);
        let authorities = random.below(4);
        let (typed, room) = lone_symbol(Ok(&words(&a)), authorities & 1 == 1);
        let name = random.pick(&names(authorities & 2 == 2));
        rows.update(&typed, &room, name, &words(&b));
        rows.update(&typed, &room, name, &damaged(random, &b));
        let (poisoned, room) = lone_symbol(Err(random.below(2) as u64), true);
        rows.update(&poisoned, &room, name, &damaged(random, &b));
    }
}

/// Up to 200 operations on a table of so many records, which is empty at first, full or in between.
/// After each the id is looked up, with and without authority.
fn play(rows: &mut Rows, records: usize, random: &mut Random) {
    let pool = Pool::new(random, MOST_LAYERS);
    let some = random.below(records + 1);
    let taken = random.pick(&[0, some, records]);
    let (table, store) = pool.table(random, records, taken);
    let mut lent = Lent::new(&table, &store);
    let mut judge = Judge::new(table, store);
    for _ in 0..=random.below(200) {
        let asked = pool.asked(random, records);
        if !rows.ask(&mut judge, &mut lent, &asked) {
            return;
        }
        for authority in [false, true] {
            let again = Asked {
                operation: Operation::Get,
                authority,
                ..asked
            };
            if !rows.ask(&mut judge, &mut lent, &again) {
                return;
            }
        }
    }
    assert!(
        records > 128 || judge.agrees(),
        "the table told is not the map's"
    );
}
