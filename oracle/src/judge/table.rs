//! A symbol table with its store: when it is in order, by document 01, and the original's records of it.

use crate::original::prelude::ValueType;
use crate::original::typer::ask::Record;
use crate::original::words::{check, decode, encode};

/// include/trestlejay.h, tj_symbol.
#[repr(C)]
#[derive(Debug, Clone, Copy, PartialEq)]
pub struct Symbol {
    pub id: u32,
    pub authority: bool,
    pub place: u64,
    pub state: u64,
    pub layers: u64,
    pub mark: u64,
}

pub const FREE: Symbol = Symbol {
    id: 0,
    authority: false,
    place: 0,
    state: 0,
    layers: 0,
    mark: 0,
};

/// The most words of a type: each slot's part of the store.
pub const PART: usize = 48;

/// Document 01: "A table is in order when".
pub fn in_order(table: &[Symbol], store: &[u64]) -> bool {
    let taken = taken(table);
    let good = |slot: usize| {
        let symbol = &table[slot];
        symbol.state <= 2
            && table[..slot].iter().all(|other| other.id != symbol.id)
            && (symbol.state != 1 || stored(symbol, &store[PART * slot..]).is_some())
    };
    table.len() <= 128
        && store.len() == PART * table.len()
        && table[taken..].iter().all(|symbol| symbol.state == 0)
        && (0..taken).all(good)
}

/// How many records stand before the first free one.
pub fn taken(table: &[Symbol]) -> usize {
    table.iter().take_while(|symbol| symbol.state != 0).count()
}

/// The type of a typed record, if its words pass the checks.
fn stored(symbol: &Symbol, part: &[u64]) -> Option<ValueType> {
    if symbol.layers > 16 {
        return None;
    }
    let layers = check(&part[..3 * symbol.layers as usize]).ok()?;
    Some(decode(&layers))
}

/// The original's record of a taken one that is in order.
pub fn record(symbol: &Symbol, part: &[u64]) -> Record {
    Record {
        id: symbol.id,
        authority: symbol.authority,
        place: symbol.place,
        stored: match symbol.state {
            1 => Ok(stored(symbol, part).expect("a type")),
            _ => Err(symbol.mark),
        },
    }
}

/// A record that was written to, and its type over the front of its part.
pub fn write(record: &Record, symbol: &mut Symbol, part: &mut [u64]) {
    let (state, layers, mark) = match &record.stored {
        Ok(stored) => {
            let words = encode(stored);
            part[..words.len()].copy_from_slice(&words);
            (1, words.len() as u64 / 3, 0)
        }
        Err(mark) => (2, 0, *mark),
    };
    *symbol = Symbol {
        id: record.id,
        authority: record.authority,
        place: record.place,
        state,
        layers,
        mark,
    };
}

/// The original's records of a table in order.
pub fn records(table: &[Symbol], store: &[u64]) -> Vec<Record> {
    let taken = &table[..taken(table)];
    let all = taken.iter().enumerate();
    all.map(|(slot, symbol)| record(symbol, &store[PART * slot..]))
        .collect()
}
