//! Random symbols: a lone one, and tables with the operations on them.

use super::random::Random;
use super::relatives::{coerced, likened, relative};
use super::types::{damaged, good_type, words};
use crate::judge::blank::blank;
use crate::judge::symbols::{Asked, Operation};
use crate::judge::table::{Symbol, FREE, PART};
use crate::original::words::{decode, Layer, ARRAY, ARRAYLIKE, NAMED, SLICE};

/// A symbol with the id 1, typed or poisoned, with its 48 words.
pub fn lone_symbol(stored: Result<&[u64], u64>, authority: bool) -> (Symbol, Vec<u64>) {
    let mut room = blank(PART);
    let (state, layers, mark) = match stored {
        Ok(stored) => {
            room[..stored.len()].copy_from_slice(stored);
            // A mark from before.
            (1, stored.len() as u64 / 3, 77)
        }
        // A count from before.
        Err(mark) => (2, 99, mark),
    };
    let symbol = Symbol {
        id: 1,
        authority,
        place: 10,
        state,
        layers,
        mark,
    };
    (symbol, room)
}

/// The ids and the types that one table and the operations on it share. The types are families of
/// relatives, and an id has one family, so that updates are often accepted.
pub struct Pool {
    most: usize,
    first: u32,
    apart: u32,
    families: [Vec<Vec<Layer>>; 2],
}

/// A well-formed type, one that it is declared as or a concretization of, one that it coerces into,
/// and one that is close.
pub fn family(random: &mut Random, most: usize) -> Vec<Vec<Layer>> {
    let mut one = good_type(random, most);
    while !decode(&one).is_wellformed() {
        one = good_type(random, most);
    }
    let mut less = likened(random, &one);
    if random.once_in(2) && matches!(one[0][0], ARRAY | NAMED | SLICE) {
        less = one.clone();
        less[0] = [ARRAYLIKE, 0, 0];
    }
    let mut all = vec![one.clone(), less, coerced(random, &one)];
    all.push(relative(random, &one));
    for layers in &mut all {
        layers.drain(..layers.len().saturating_sub(16));
    }
    all
}

impl Pool {
    /// Types of at most so many layers, and of one or two more where a relative has them.
    pub fn new(random: &mut Random, most: usize) -> Self {
        let any = random.next() as u32;
        Pool {
            most,
            first: random.pick(&[0, 1, u32::MAX - 2, any]),
            // Odd, so that no id comes again.
            apart: random.pick(&[1, u32::MAX, 0x0101_0101, any | 1]),
            families: [family(random, most), family(random, most)],
        }
    }

    /// Whether a type may replace one that is stored: an array does so for an Arraylike.
    pub fn has_array(&self) -> bool {
        let mut first = self.families.iter().map(|family| family[0][0][0]);
        first.any(|kind| matches!(kind, ARRAY | NAMED | SLICE))
    }

    pub fn id(&self, number: usize) -> u32 {
        let step = self.apart.wrapping_mul(number as u32);
        self.first.wrapping_add(step)
    }

    /// A type for this id; those that come later in the family are the less concrete ones.
    fn layers(&self, random: &mut Random, number: usize, first: usize) -> Vec<Layer> {
        let family = &self.families[number % 2];
        match random.below(12) {
            0 => good_type(random, self.most),
            1 => self.families[(number + 1) % 2][0].clone(),
            _ => family[first + random.below(family.len() - first)].clone(),
        }
    }

    fn offered(&self, random: &mut Random, number: usize, first: usize) -> Vec<u64> {
        let layers = self.layers(random, number, first);
        match random.once_in(12) {
            true => damaged(random, &layers),
            false => words(&layers),
        }
    }

    /// Any operation, mostly about one of so many ids.
    #[cfg(face)]
    pub fn asked(&self, random: &mut Random, ids: usize) -> Asked {
        let operation = match random.below(20) {
            0 => 1,
            1 => 3,
            2 => 5,
            3 => 6,
            4..=8 => 4,
            _ => 2,
        };
        self.asked_to(random, ids, operation)
    }

    /// The operation with this number.
    pub fn asked_to(&self, random: &mut Random, ids: usize, operation: usize) -> Asked {
        use Operation::*;
        let number = match random.once_in(8) {
            true => ids + random.below(2),
            false => random.below(ids.max(1)),
        };
        let operation = match operation {
            1 => PutNothing,
            2 => PutType(self.offered(random, number, 0)),
            3 => PutPoison(mark(random)),
            4 => DeclareType(self.offered(random, number, 1)),
            5 => DeclarePoison(mark(random)),
            _ => Get,
        };
        Asked {
            operation,
            id: self.id(number),
            authority: random.once_in(2),
            place: place(random),
        }
    }

    /// A table in order with so many records, and its store. What order says nothing of is anything:
    /// the ids and fields of free records, a poisoned one's layers, a typed one's mark.
    pub fn table(
        &self,
        random: &mut Random,
        records: usize,
        taken: usize,
    ) -> (Vec<Symbol>, Vec<u64>) {
        let mut table = vec![FREE; records];
        let mut store = blank(PART * records);
        for slot in 0..records {
            let any = random.next();
            let mut symbol = Symbol {
                id: self.id(slot),
                authority: random.once_in(2),
                place: place(random),
                state: 0,
                layers: random.pick(&[0, 1, 16, 17, u64::MAX, any]),
                mark: mark(random),
            };
            if slot >= taken {
                symbol.id = self.id(random.below(records));
            } else if random.once_in(4) {
                symbol.state = 2;
            } else {
                let stored = words(&self.layers(random, slot, 1));
                symbol.state = 1;
                symbol.layers = stored.len() as u64 / 3;
                store[PART * slot..PART * slot + stored.len()].copy_from_slice(&stored);
            }
            table[slot] = symbol;
        }
        (table, store)
    }
}

fn mark(random: &mut Random) -> u64 {
    let any = random.next();
    random.pick(&[0, 0, 1, 99, u64::MAX, any])
}

fn place(random: &mut Random) -> u64 {
    let any = random.next();
    random.pick(&[0, 1, 10, u64::MAX, any])
}
