//! Tables and lone symbols that are spoiled in each way that document 01's "in order" names: every
//! operation is refused with 12, and nothing changes. Some edits spoil nothing, those of a field that
//! order does not ask for, and are judged as any table in order.

use super::symbol_rows::Rows;
use crate::face::symbol_face::Lent;
use crate::inputs::pools::Pool;
use crate::inputs::random::Random;
use crate::inputs::small_types::spoiled_chains;
use crate::judge::blank::blank;
use crate::judge::symbols::{Asked, Judge, Operation};
use crate::judge::table::{taken, Symbol, PART};
use crate::original::words::{check, MOST_LAYERS};

const STATES: [u64; 5] = [3, 4, 1 << 32, (1 << 32) + 1, u64::MAX];

/// None of them counts the layers of a type. Three times the last two is 2 and 1, to 64 bits.
const COUNTS: [u64; 8] = [
    0,
    17,
    18,
    1 << 32,
    1 << 63,
    u64::MAX,
    0x5555_5555_5555_5556,
    0xaaaa_aaaa_aaaa_aaab,
];

/// A type, and words of which each check refuses some: no words, a bad layer, an early leaf.
const OFFERED: [&[u64]; 4] = [
    &[16, 0, 0, 12, 0, 0],
    &[],
    &[23, 0, 0, 25, 0, 0],
    &[6, 0, 0, 6, 0, 0],
];

pub fn compare(rows: &mut Rows, scale: u64, random: &mut Random) {
    let chains = spoiled_chains();
    alone(rows, &chains);
    let bad: Vec<&[u64]> = chains.iter().map(|chain| &chain[..]).collect();
    let bad: Vec<&[u64]> = bad.into_iter().filter(|t| check(t).is_err()).collect();
    for records in (0..=4).chain([127, 128]) {
        for taken in 0..=records {
            if records > 4 && ![0, 1, 100, records].contains(&taken) {
                continue;
            }
            let pool = Pool::new(random, MOST_LAYERS);
            let (table, store) = pool.table(random, records, taken);
            for (table, store) in spoiled(&table, &store, random, &bad) {
                ask_all(rows, &pool, &table, &store);
            }
        }
    }
    for records in [129, 130, 200] {
        for taken in [0, 1, 128, records] {
            let pool = Pool::new(random, MOST_LAYERS);
            let (table, store) = pool.table(random, records, taken);
            ask_all(rows, &pool, &table, &store);
        }
    }
    for _ in 0..scale * 100 {
        let pool = Pool::new(random, MOST_LAYERS);
        let records = 1 + random.below(128);
        let taken = random.below(records + 1);
        let (table, store) = pool.table(random, records, taken);
        let all = spoiled(&table, &store, random, &bad);
        for _ in 0..200 {
            let (table, store) = &all[random.below(all.len())];
            let asked = pool.asked(random, records);
            ask(rows, table, store, &asked);
        }
    }
}

fn ask(rows: &mut Rows, table: &[Symbol], store: &[u64], asked: &Asked) {
    let mut judge = Judge::new(table.to_vec(), store.to_vec());
    rows.ask(&mut judge, &mut Lent::new(table, store), asked);
}

/// Every operation, about the first id, the last and one that is nowhere, with and without authority.
fn ask_all(rows: &mut Rows, pool: &Pool, table: &[Symbol], store: &[u64]) {
    use Operation::*;
    let mut all = vec![
        PutNothing,
        PutPoison(0),
        PutPoison(7),
        DeclarePoison(7),
        Get,
    ];
    for offered in OFFERED {
        all.push(PutType(offered.to_vec()));
        all.push(DeclareType(offered.to_vec()));
    }
    let last = taken(table).max(1) - 1;
    for number in [0, last, table.len() + 1] {
        for operation in &all {
            let asked = Asked {
                operation: operation.clone(),
                id: pool.id(number),
                authority: number == last,
                place: 5,
            };
            ask(rows, table, store, &asked);
        }
    }
}

/// A table in order, spoiled in one way at a time: in every slot of a small one, in some of a large.
fn spoiled(
    table: &[Symbol],
    store: &[u64],
    random: &mut Random,
    bad: &[&[u64]],
) -> Vec<(Vec<Symbol>, Vec<u64>)> {
    let records = table.len();
    let taken = taken(table);
    let some = |slot: &usize| records <= 4 || slot % 43 == 0 || slot + 2 >= taken;
    let slots: Vec<usize> = (0..records).filter(some).take(12).collect();
    let mut all = Vec::new();

    let exact = store.len();
    let longer = [store, &blank(PART)].concat();
    for size in [0, 1, exact.max(1) - 1, exact + 1, exact + PART] {
        all.push((table.to_vec(), longer[..size].to_vec()));
    }
    let mut edit = |slot: usize, change: &dyn Fn(&mut Symbol, &mut [u64])| {
        let (mut table, mut store) = (table.to_vec(), store.to_vec());
        change(&mut table[slot], &mut store[PART * slot..]);
        all.push((table, store));
    };
    for slot in slots {
        for state in STATES {
            edit(slot, &|symbol, _| symbol.state = state);
        }
        // A free record before a taken one: this one freed, or one behind the first free taken.
        edit(slot, &|symbol, _| symbol.state = 0);
        edit(slot, &|symbol, _| symbol.state = 2);
        edit(slot, &|symbol, words| {
            words[..3].copy_from_slice(&[6, 0, 0]);
            (symbol.state, symbol.layers) = (1, 1);
        });
        // An id that is there already: of the first, the last or any taken one.
        for other in [0, taken.max(1) - 1, random.below(taken + 1)] {
            edit(slot, &|symbol, _| {
                symbol.id = table[other.min(records - 1)].id
            });
        }
        for count in COUNTS {
            edit(slot, &|symbol, _| symbol.layers = count);
        }
        // Seventeen layers, of which the last stands in the next slot's part.
        edit(slot, &|symbol, words| {
            let long = [[23, 0, 0].repeat(16), vec![6, 0, 0]].concat();
            let fits = long.len().min(words.len());
            words[..fits].copy_from_slice(&long[..fits]);
            symbol.layers = 17;
        });
        let step = if records <= 4 { 5 } else { 41 };
        for chain in bad.iter().step_by(step) {
            edit(slot, &|symbol, words| {
                words[..chain.len()].copy_from_slice(chain);
                symbol.layers = chain.len() as u64 / 3;
            });
        }
    }
    all
}

/// Lone symbols: words of every other count up to 100, other states, counts of layers that are none,
/// and words, some of them no type, in each state.
fn alone(rows: &mut Rows, chains: &[Vec<u64>]) {
    let typed = Symbol {
        id: 1,
        authority: true,
        place: 10,
        state: 1,
        layers: 1,
        mark: 7,
    };
    let mut words = blank(PART);
    words[..3].copy_from_slice(&[6, 0, 0]);
    let mut ask = |symbol: Symbol, words: &[u64]| {
        for offered in OFFERED {
            for name in [(1, true, 10), (2, true, 20), (2, false, 20)] {
                rows.update(&symbol, words, name, offered);
            }
        }
    };
    for state in [0].into_iter().chain(STATES) {
        ask(Symbol { state, ..typed }, &words);
    }
    for count in (0..=100).filter(|count| *count != PART) {
        let other: Vec<u64> = words.iter().cycle().take(count).copied().collect();
        for state in 0..=2 {
            ask(Symbol { state, ..typed }, &other);
        }
    }
    for layers in COUNTS {
        ask(Symbol { layers, ..typed }, &words);
    }
    for chain in chains {
        let layers = chain.len() as u64 / 3;
        let other = [chain, &words[chain.len()..]].concat();
        for state in 0..=2 {
            let symbol = Symbol {
                state,
                layers,
                ..typed
            };
            ask(symbol, &other);
        }
    }
}
