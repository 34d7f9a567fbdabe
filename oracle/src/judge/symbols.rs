//! The symbol update and the symbol table, as the original's own map has them. The original has no
//! slots, no store and no limit: a record's slot is where it was inserted, and the refusals 12 and 13
//! are written from document 01.

use super::table::{in_order, record, records, taken, write, Symbol, PART};
use crate::original::prelude::{Identifier, ValueType};
use crate::original::typer::ask::{update, Record, Table};
use crate::original::words::{check, decode, Refusal};

#[derive(Debug, Clone, PartialEq)]
pub enum Operation {
    PutNothing,
    PutType(Vec<u64>),
    PutPoison(u64),
    DeclareType(Vec<u64>),
    DeclarePoison(u64),
    Get,
}

impl Operation {
    /// Its place in the header's section Symbols, after the update, which is 0.
    #[cfg(face)]
    pub fn number(&self) -> usize {
        match self {
            Operation::PutNothing => 1,
            Operation::PutType(_) => 2,
            Operation::PutPoison(_) => 3,
            Operation::DeclareType(_) => 4,
            Operation::DeclarePoison(_) => 5,
            Operation::Get => 6,
        }
    }

    /// The offered words; none where no type is offered.
    pub fn offered(&self) -> &[u64] {
        match self {
            Operation::PutType(words) | Operation::DeclareType(words) => words,
            _ => &[],
        }
    }

    /// The mark of the poison, else 0.
    pub fn mark(&self) -> u64 {
        match self {
            Operation::PutPoison(mark) | Operation::DeclarePoison(mark) => *mark,
            _ => 0,
        }
    }
}

#[derive(Debug, Clone, PartialEq)]
pub struct Asked {
    pub operation: Operation,
    pub id: u32,
    pub authority: bool,
    pub place: u64,
}

/// An answer's two fields, and what get finds.
#[derive(Debug, Clone, Copy, PartialEq)]
pub struct Told {
    pub refusal: u64,
    pub value: u64,
    pub found: Option<u64>,
}

impl Told {
    fn accepted(value: u64, found: Option<u64>) -> Self {
        Told {
            refusal: 0,
            value,
            found,
        }
    }

    fn refused((refusal, value): Refusal) -> Self {
        Told {
            refusal,
            value,
            found: None,
        }
    }
}

/// Which line of the update applies: 0 nothing changes, 1 the type replaced, 2 the identifier too.
/// The name is asked with another id, which no line looks at, so that the outcome tells.
fn line(old: &Record, authority: bool, offered: &ValueType) -> Result<u64, u64> {
    let name = Identifier::new(!old.id, authority, !old.place);
    let new = update(old, &name, offered)?;
    Ok(match (new == *old, new.id == old.id) {
        (true, _) => 0,
        (false, true) => 1,
        (false, false) => 2,
    })
}

/// The update of a lone symbol with its words.
pub fn update_alone(
    symbol: &mut Symbol,
    words: &mut [u64],
    (id, authority, place): (u32, bool, u64),
    offered: &[u64],
) -> Told {
    let offered = match check(offered) {
        Ok(layers) => decode(&layers),
        Err(refusal) => return Told::refused(refusal),
    };
    if symbol.state == 0 || !in_order(&[*symbol], words) {
        return Told::refused((12, 0));
    }
    let old = record(symbol, words);
    match update(&old, &Identifier::new(id, authority, place), &offered) {
        Err(number) => Told::refused((number, 0)),
        Ok(new) => {
            let value = line(&old, authority, &offered).expect("an accepted update");
            if value > 0 {
                write(&new, symbol, words);
            }
            Told::accepted(value, None)
        }
    }
}

/// The original's map, with the table and the store that it must be told in.
pub struct Judge {
    pub table: Vec<Symbol>,
    pub store: Vec<u64>,
    original: Table,
}

impl Judge {
    pub fn new(table: Vec<Symbol>, store: Vec<u64>) -> Self {
        let records = match in_order(&table, &store) {
            true => records(&table, &store),
            false => Vec::new(),
        };
        Judge {
            table,
            store,
            original: Table::new(&records),
        }
    }

    /// The map holds what the table tells, and nothing else.
    pub fn agrees(&self) -> bool {
        let records = records(&self.table, &self.store);
        records.len() == self.original.len()
            && records
                .iter()
                .all(|record| self.original.record(record.id).as_ref() == Some(record))
    }

    pub fn tell(&mut self, asked: &Asked) -> Told {
        use Operation::*;
        let put = match &asked.operation {
            PutNothing | Get => None,
            PutPoison(mark) | DeclarePoison(mark) => Some(Err(*mark)),
            PutType(words) | DeclareType(words) => match check(words) {
                Ok(layers) => Some(Ok(decode(&layers))),
                Err(refusal) => return Told::refused(refusal),
            },
        };
        if !in_order(&self.table, &self.store) {
            return Told::refused((12, 0));
        }
        let name = Identifier::new(asked.id, asked.authority, asked.place);
        let old = self.original.record(asked.id);
        let free = taken(&self.table);
        match (&asked.operation, put) {
            (Get, _) => self.get(&name),
            (_, Some(_)) if old.is_none() && free == self.table.len() => Told::refused((13, 0)),
            (DeclareType(_) | DeclarePoison(_), Some(value)) => {
                self.original.forward_declare(&name, value);
                self.changed(asked.id, if old.is_none() { 3 } else { 4 })
            }
            (_, put) => {
                let value = match (&old, &put) {
                    (_, None) => Ok(0),
                    (None, _) => Ok(3),
                    (_, Some(Err(_))) => Ok(4),
                    (Some(old), Some(Ok(offered))) => line(old, asked.authority, offered),
                };
                match (self.original.put(&name, put), value) {
                    (Ok(()), Ok(value)) => self.changed(asked.id, value),
                    (Err(number), _) => Told::refused((number, 0)),
                    (Ok(()), Err(number)) => panic!("{number} for an accepted update"),
                }
            }
        }
    }

    /// Writes what the map now holds under the id; an insertion takes the first free record.
    fn changed(&mut self, id: u32, value: u64) -> Told {
        if value > 0 {
            let slot = self.slot(id).unwrap_or(taken(&self.table));
            let record = self.original.record(id).expect("a record");
            write(
                &record,
                &mut self.table[slot],
                &mut self.store[PART * slot..],
            );
        }
        Told::accepted(value, None)
    }

    fn get(&self, name: &Identifier) -> Told {
        match self.original.get(name) {
            None => Told::accepted(0, None),
            Some(Ok(_)) => {
                let slot = self.slot(name.resolution_id).expect("a record");
                Told::accepted(1, Some(slot as u64))
            }
            Some(Err(mark)) => Told::accepted(2, Some(mark)),
        }
    }

    pub fn slot(&self, id: u32) -> Option<usize> {
        let mut slots = self.table.iter();
        slots.position(|symbol| symbol.state != 0 && symbol.id == id)
    }
}
