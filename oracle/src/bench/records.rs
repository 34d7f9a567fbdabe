//! Put and get on tables.

use super::measure::{kept, renewed, Row, Side};
use super::types::{beside, formed, Type};
use crate::face::symbol_face::{tj_get_symbol, tj_put_type};
use crate::inputs::random::Random;
use crate::judge::symbols::update_alone;
use crate::judge::table::{record, Symbol, PART};
use crate::original::prelude::Identifier;
use crate::original::typer::ask::{Record, Table};
use crate::original::typer::timed;
use crate::original::words::*;
use std::hint::black_box;

const CALLS: usize = 64;

pub fn rows(random: &mut Random, show: &mut dyn FnMut(Row)) {
    for records in [8, 32, 128] {
        let held = Held::new(random, records);
        show(put_row(&held));
        show(get_row(&held));
    }
}

/// A full table, every eighth record poisoned, and what is asked of it: puts that leave it as it is, and
/// gets, one in eight of them of an id that is not there.
struct Held {
    table: Vec<Symbol>,
    store: Vec<u64>,
    records: Vec<Record>,
    puts: Vec<(Identifier, Type)>,
    accepted: usize,
    gets: Vec<Identifier>,
}

impl Held {
    fn new(random: &mut Random, count: usize) -> Self {
        let mut held = Held {
            table: Vec::new(),
            store: vec![0; PART * count],
            records: Vec::new(),
            puts: Vec::new(),
            accepted: 0,
            gets: Vec::new(),
        };
        for slot in 0..count {
            let layers = 1 + random.below(6);
            let t = formed(random, layers).concat();
            let part = &mut held.store[PART * slot..];
            part[..t.len()].copy_from_slice(&t);
            let symbol = Symbol {
                id: random.next() as u32,
                authority: random.once_in(2),
                place: 10,
                state: if slot % 8 == 7 { 2 } else { 1 },
                layers: t.len() as u64 / 3,
                mark: 0,
            };
            held.records.push(record(&symbol, part));
            held.table.push(symbol);
        }
        for place in 0..CALLS {
            held.ask_put(random, place % 4 == 3);
            let id = match place % 8 {
                7 => random.next() as u32,
                _ => held.table[random.below(count)].id,
            };
            held.gets.push(Identifier::new(id, random.once_in(2), 20));
        }
        held
    }

    /// A put that is accepted and changes nothing, or that conflicts.
    fn ask_put(&mut self, random: &mut Random, conflicts: bool) {
        let wanted = if conflicts { (7, 0) } else { (0, 0) };
        loop {
            let slot = random.below(self.table.len());
            let (mut symbol, place) = (self.table[slot], PART * slot);
            let mut part = self.store[place..place + PART].to_vec();
            let stored = check(&part[..3 * symbol.layers as usize]).expect("a type");
            let offered = beside(random, &stored);
            if !decode(&offered).is_wellformed() {
                continue;
            }
            let name = Identifier::new(symbol.id, random.once_in(2), 20);
            let offered = Type::new(&offered);
            let asked = (name.resolution_id, name.is_authoritative, 20);
            let told = update_alone(&mut symbol, &mut part, asked, &offered.words);
            if (told.refusal, told.value) == wanted {
                self.accepted += usize::from(!conflicts);
                self.puts.push((name, offered));
                return;
            }
        }
    }
}

fn put_row(held: &Held) -> Row<'_> {
    let (mut table, mut store) = (held.table.clone(), held.store.clone());
    let mut original = Table::new(&held.records);
    let ours = move || {
        kept(CALLS, |told| {
            for (name, offered) in &held.puts {
                // The table, its store and the offered words are apart.
                told.push(unsafe {
                    tj_put_type(
                        table.as_mut_ptr(),
                        table.len(),
                        store.as_mut_ptr(),
                        store.len(),
                        name.resolution_id,
                        name.is_authoritative,
                        name.location.place,
                        offered.words.as_ptr(),
                        offered.words.len(),
                    )
                });
            }
        })
    };
    let original = move || {
        let offered: Vec<_> = held.puts.iter().map(|put| put.1.original.clone()).collect();
        let mut offered = offered.into_iter();
        kept(CALLS, |told| {
            for ((name, _), offered) in held.puts.iter().zip(offered.by_ref()) {
                told.push(timed::put(&mut original, name, offered));
            }
        })
    };
    row(held, "put", held.accepted, renewed(ours), renewed(original))
}

fn get_row(held: &Held) -> Row<'_> {
    let original = Table::new(&held.records);
    let there = |name: &&Identifier| original.record(name.resolution_id).is_some();
    let found = held.gets.iter().filter(there).count();
    let ours = move || {
        let (table, store) = black_box((&held.table, &held.store));
        kept(CALLS, |told| {
            for name in &held.gets {
                let mut slot = 0;
                // As above.
                let raw = unsafe {
                    tj_get_symbol(
                        table.as_ptr(),
                        table.len(),
                        store.as_ptr(),
                        store.len(),
                        name.resolution_id,
                        name.is_authoritative,
                        &mut slot,
                    )
                };
                told.push((raw.value, slot));
            }
        })
    };
    let original = move || {
        kept(CALLS, |told| {
            for name in &held.gets {
                told.push(timed::get(&original, name));
            }
        })
    };
    row(held, "get", found, renewed(ours), renewed(original))
}

fn row<'a>(held: &Held, what: &str, yes: usize, ours: Side<'a>, original: Side<'a>) -> Row<'a> {
    Row {
        what: format!("{what}, {} records", held.table.len()),
        yes: (yes, CALLS),
        aim: Some(20.0),
        ours,
        original,
    }
}
