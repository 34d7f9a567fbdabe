//! The list's questions about symbols.

use super::listed::{fields, most, Listed};
use crate::inputs::journeys::out_of_order;
use crate::inputs::pools::{family, lone_symbol, Pool};
use crate::inputs::random::Random;
use crate::inputs::relatives::pair;
use crate::inputs::types::{damaged, words};
use crate::judge::questions::Answer;
use crate::judge::symbols::{update_alone, Judge, Told};
use crate::judge::table::{Symbol, PART};
use crate::original::words::Layer;

/// A record that was stored: its slot, its fields and, of a typed one, its words.
fn stored(slot: usize, symbol: &Symbol, part: &[u64]) -> Vec<u64> {
    let words = match symbol.state {
        1 => &part[..3 * symbol.layers as usize],
        _ => &[],
    };
    [&[slot as u64], &fields(symbol)[..], words].concat()
}

fn answered(told: &Told, written: Vec<u64>) -> Answer {
    Answer {
        refusal: told.refusal,
        value: told.value,
        written,
    }
}

/// A table that mostly has a fault, of as many records.
fn spoiled(random: &mut Random, table: &[Symbol], store: &[u64]) -> (Vec<Symbol>, Vec<u64>) {
    loop {
        let (other, store) = out_of_order(random, table.to_vec(), store.to_vec());
        if other.len() == table.len() {
            return (other, store);
        }
    }
}

/// A type, and one that is declared as it, a concretization of it or coerces into it.
fn related(random: &mut Random, most: usize) -> (Vec<Layer>, Vec<Layer>) {
    let all = family(random, most);
    (all[1 + random.below(2)].clone(), all[0].clone())
}

/// A lone symbol, mostly typed, and what it is offered.
pub fn update(random: &mut Random) -> Listed {
    let most = most(random);
    let (a, b) = match random.once_in(2) {
        true => pair(random, most),
        false => related(random, most),
    };
    let (own, authority) = (random.once_in(2), random.once_in(2));
    let (symbol, store) = match random.once_in(8) {
        true => lone_symbol(Err(random.below(2) as u64), own),
        false => lone_symbol(Ok(&words(&a)), own),
    };
    let (table, store) = match random.once_in(8) {
        true => spoiled(random, &[symbol], &store),
        false => (vec![symbol], store),
    };
    let offered = match random.once_in(8) {
        true => damaged(random, &b),
        false => words(&b),
    };
    let (id, place) = random.pick(&[(1, 10), (2, 20)]);
    let (mut after, mut part) = (table[0], store.clone());
    let told = update_alone(&mut after, &mut part, (id, authority, place), &offered);
    let written = match told.value {
        1.. if told.refusal == 0 => stored(0, &after, &part),
        _ => Vec::new(),
    };
    let numbers = [id.into(), authority.into(), place, 0, store.len() as u64];
    Listed {
        given: answered(&told, written),
        sort: [told.value, table[0].state],
        runs: [offered, numbers.to_vec(), Vec::new(), Vec::new()],
        table,
        store,
    }
}

/// A table that operations are played on.
pub struct Played {
    pool: Pool,
    table: Vec<Symbol>,
    store: Vec<u64>,
}

impl Played {
    pub fn new(random: &mut Random) -> Self {
        let mut pool = Pool::new(random, 4);
        while !pool.has_array() && !random.once_in(4) {
            pool = Pool::new(random, 4);
        }
        let records = random.below(5);
        let taken = random.below(records + 1);
        let (table, store) = pool.table(random, records, taken);
        Played { pool, table, store }
    }

    /// The operation with this number, about the table as it stands or about one with a fault.
    pub fn ask(&self, random: &mut Random, operation: usize) -> Listed {
        let asked = self.pool.asked_to(random, self.table.len(), operation);
        let (table, store) = match random.once_in(12) {
            true => spoiled(random, &self.table, &self.store),
            false => (self.table.clone(), self.store.clone()),
        };
        let mut judge = Judge::new(table.clone(), store.clone());
        let told = judge.tell(&asked);
        let written = match (told.found, told.value) {
            (Some(found), _) => vec![found],
            (None, 1..) if told.refusal == 0 => {
                let slot = judge.slot(asked.id).expect("a record");
                stored(slot, &judge.table[slot], &judge.store[PART * slot..])
            }
            _ => Vec::new(),
        };
        let numbers = [
            asked.id.into(),
            asked.authority.into(),
            asked.place,
            asked.operation.mark(),
            store.len() as u64,
        ];
        let offered = asked.operation.offered().to_vec();
        Listed {
            given: answered(&told, written),
            sort: [told.value, asked.authority.into()],
            runs: [offered, numbers.to_vec(), Vec::new(), Vec::new()],
            table,
            store,
        }
    }

    /// Goes on with what the answer leaves, where it was given of this table.
    pub fn follow(&mut self, line: &Listed) {
        let written = &line.given.written;
        if line.table != self.table || line.store != self.store || written.len() < 7 {
            return;
        }
        let slot = written[0] as usize;
        self.table[slot] = Symbol {
            id: written[1] as u32,
            authority: written[2] == 1,
            place: written[3],
            state: written[4],
            layers: written[5],
            mark: written[6],
        };
        let words = &written[7..];
        self.store[PART * slot..PART * slot + words.len()].copy_from_slice(words);
    }
}
