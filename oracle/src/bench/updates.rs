//! The update of a lone symbol.

use super::measure::{kept, renewed, Row};
use super::types::{beside, formed, Type};
use crate::face::symbol_face::tj_update_symbol;
use crate::inputs::random::Random;
use crate::judge::symbols::update_alone;
use crate::judge::table::{record, Symbol, PART};
use crate::original::prelude::Identifier;
use crate::original::typer::ask::Record;
use crate::original::typer::timed::{self, Lone};
use crate::original::words::*;

const CALLS: usize = 64;

pub fn rows(random: &mut Random, show: &mut dyn FnMut(Row)) {
    let lines = [
        ("kept", (0, 0)),
        ("type replaced", (0, 1)),
        ("both replaced", (0, 2)),
        ("conflicting", (7, 0)),
    ];
    let mut all = Vec::new();
    for (name, line) in lines {
        let updates: Vec<Update> = (0..16).map(|_| Update::new(random, line)).collect();
        show(update_row(
            &format!("update, {name}"),
            None,
            &updates,
            false,
        ));
        all.extend(updates);
    }
    show(update_row("update, all four", Some(1.0), &all, false));
    show(update_row(
        "update, all four, offered type cloned",
        None,
        &all,
        true,
    ));
}

/// A lone symbol with its words, a name and an offered type.
struct Update {
    symbol: Symbol,
    words: [u64; PART],
    record: Record,
    name: Identifier,
    offered: Type,
    line: (u64, u64),
}

impl Update {
    /// One to which this line applies.
    fn new(random: &mut Random, line: (u64, u64)) -> Self {
        loop {
            let layers = 1 + random.below(6);
            let a = formed(random, layers);
            let b = beside(random, &a);
            let (stored, offered) = if random.once_in(2) { (a, b) } else { (b, a) };
            if !decode(&stored).is_wellformed() || !decode(&offered).is_wellformed() {
                continue;
            }
            let made = Update::of(random, &stored, &offered, line);
            let (mut symbol, mut words) = (made.symbol, made.words);
            let name = (made.name.resolution_id, made.name.is_authoritative, 20);
            let told = update_alone(&mut symbol, &mut words, name, &made.offered.words);
            if (told.refusal, told.value) == line {
                return made;
            }
        }
    }

    fn of(random: &mut Random, stored: &[Layer], offered: &[Layer], line: (u64, u64)) -> Self {
        let mut words = [0; PART];
        words[..3 * stored.len()].copy_from_slice(&stored.concat());
        let symbol = Symbol {
            id: 1,
            authority: random.once_in(2),
            place: 10,
            state: if random.once_in(8) { 2 } else { 1 },
            layers: stored.len() as u64,
            mark: 0,
        };
        Update {
            symbol,
            words,
            record: record(&symbol, &words),
            name: Identifier::new(2, random.once_in(2), 20),
            offered: Type::new(offered),
            line,
        }
    }

    fn ours(&self, symbol: &mut Symbol, words: &mut [u64; PART]) -> (u64, u64) {
        let name = &self.name;
        let offered = &self.offered.words;
        // The symbol, its words and the offered ones are apart.
        let raw = unsafe {
            tj_update_symbol(
                symbol,
                words.as_mut_ptr(),
                PART,
                name.resolution_id,
                name.is_authoritative,
                name.location.place,
                offered.as_ptr(),
                offered.len(),
            )
        };
        (raw.refusal, raw.value)
    }
}

/// Each call has a symbol of its own, made before; `cloned` puts the clone of the offered type, which
/// the original takes by value, into its time.
fn update_row<'a>(what: &str, aim: Option<f64>, all: &'a [Update], cloned: bool) -> Row<'a> {
    for update in all {
        let (mut symbol, mut words) = (update.symbol, update.words);
        assert!(
            update.ours(&mut symbol, &mut words) == update.line,
            "{what}"
        );
    }
    let each = || all.iter().cycle().take(CALLS);
    let ours = move || {
        let mut lent: Vec<_> = each().map(|one| (one.symbol, one.words)).collect();
        kept(CALLS, |told| {
            for (one, (symbol, words)) in each().zip(&mut lent) {
                told.push(one.ours(symbol, words));
            }
        })
    };
    let original = move || {
        let mut lent: Vec<_> = each().map(|one| Lone::new(&one.record)).collect();
        if cloned {
            return kept(CALLS, |told| {
                for (one, lone) in each().zip(&mut lent) {
                    told.push(timed::update(lone, &one.name, one.offered.original.clone()));
                }
            });
        }
        let offered: Vec<_> = each().map(|one| one.offered.original.clone()).collect();
        let mut offered = offered.into_iter();
        kept(CALLS, |told| {
            for ((one, lone), offered) in each().zip(&mut lent).zip(offered.by_ref()) {
                told.push(timed::update(lone, &one.name, offered));
            }
        })
    };
    Row {
        what: what.into(),
        yes: (all.iter().filter(|one| one.line.0 == 0).count(), all.len()),
        aim,
        ours: renewed(ours),
        original: renewed(original),
    }
}
