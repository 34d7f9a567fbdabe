//! The proved library's C face: include/trestlejay.h, section Symbols. Everything that is lent stands
//! between guards.

use super::type_face::{Raw, GUARD};
use crate::judge::blank::KEPT;
use crate::judge::symbols::{Asked, Operation, Told};
use crate::judge::table::Symbol;

extern "C" {
    pub fn tj_update_symbol(
        symbol: *mut Symbol,
        words: *mut u64,
        nwords: usize,
        id: u32,
        authority: bool,
        place: u64,
        offered: *const u64,
        n: usize,
    ) -> Raw;
    pub fn tj_put_nothing(
        table: *mut Symbol,
        nt: usize,
        store: *mut u64,
        ns: usize,
        id: u32,
        authority: bool,
        place: u64,
    ) -> Raw;
    pub fn tj_get_symbol(
        table: *const Symbol,
        nt: usize,
        store: *const u64,
        ns: usize,
        id: u32,
        authority: bool,
        found: *mut u64,
    ) -> Raw;
    pub fn tj_put_type(
        table: *mut Symbol,
        nt: usize,
        store: *mut u64,
        ns: usize,
        id: u32,
        authority: bool,
        place: u64,
        offered: *const u64,
        n: usize,
    ) -> Raw;
    pub fn tj_forward_declare_type(
        table: *mut Symbol,
        nt: usize,
        store: *mut u64,
        ns: usize,
        id: u32,
        authority: bool,
        place: u64,
        offered: *const u64,
        n: usize,
    ) -> Raw;
    pub fn tj_put_poison(
        table: *mut Symbol,
        nt: usize,
        store: *mut u64,
        ns: usize,
        id: u32,
        authority: bool,
        place: u64,
        mark: u64,
    ) -> Raw;
    pub fn tj_forward_declare_poison(
        table: *mut Symbol,
        nt: usize,
        store: *mut u64,
        ns: usize,
        id: u32,
        authority: bool,
        place: u64,
        mark: u64,
    ) -> Raw;
}

const GUARD_RECORD: Symbol = Symbol {
    id: 0x6a75_6172,
    authority: true,
    place: GUARD,
    state: 1,
    layers: 16,
    mark: GUARD,
};

/// Words between guards.
fn guarded(words: &[u64]) -> Vec<u64> {
    [&[GUARD], words, &[GUARD]].concat()
}

/// A table and its store, or a lone symbol and its words, as they are lent.
pub struct Lent {
    records: Vec<Symbol>,
    store: Vec<u64>,
}

impl Lent {
    pub fn new(table: &[Symbol], store: &[u64]) -> Self {
        Lent {
            records: [&[GUARD_RECORD], table, &[GUARD_RECORD]].concat(),
            store: guarded(store),
        }
    }

    pub fn table(&self) -> &[Symbol] {
        &self.records[1..self.records.len() - 1]
    }

    pub fn store(&self) -> &[u64] {
        &self.store[1..self.store.len() - 1]
    }

    pub fn guards_are_kept(&self) -> bool {
        let records = [self.records[0], self.records[self.records.len() - 1]];
        let words = [self.store[0], self.store[self.store.len() - 1]];
        records == [GUARD_RECORD; 2] && words == [GUARD; 2]
    }

    /// The library's answer, or what it did to words that it had no business with.
    pub fn ask(&mut self, asked: &Asked) -> Result<Told, String> {
        use Operation::*;
        let (nt, ns) = (self.table().len(), self.store().len());
        let (id, authority, place) = (asked.id, asked.authority, asked.place);
        let offered = guarded(asked.operation.offered());
        let mut lent = offered.clone();
        let n = lent.len() - 2;
        let mut found = [GUARD, KEPT, GUARD];

        // Every place is inside its vector, between the guards; the four are apart.
        let raw = unsafe {
            let table = self.records.as_mut_ptr().add(1);
            let store = self.store.as_mut_ptr().add(1);
            let t = lent.as_mut_ptr().add(1);
            match asked.operation {
                PutNothing => tj_put_nothing(table, nt, store, ns, id, authority, place),
                Get => {
                    let out = found.as_mut_ptr().add(1);
                    tj_get_symbol(table, nt, store, ns, id, authority, out)
                }
                PutType(_) => tj_put_type(table, nt, store, ns, id, authority, place, t, n),
                DeclareType(_) => {
                    tj_forward_declare_type(table, nt, store, ns, id, authority, place, t, n)
                }
                PutPoison(mark) => tj_put_poison(table, nt, store, ns, id, authority, place, mark),
                DeclarePoison(mark) => {
                    tj_forward_declare_poison(table, nt, store, ns, id, authority, place, mark)
                }
            }
        };
        if lent != offered || found[0] != GUARD || found[2] != GUARD {
            return Err("a lent word or one beside it is changed".into());
        }
        Ok(Told {
            refusal: raw.refusal,
            value: raw.value,
            found: (found[1] != KEPT).then_some(found[1]),
        })
    }

    /// The update of the only record, lent as a lone symbol.
    pub fn update(
        &mut self,
        (id, authority, place): (u32, bool, u64),
        offered: &[u64],
    ) -> Result<Told, String> {
        let n = self.store().len();
        let before = guarded(offered);
        let mut lent = before.clone();
        // As above.
        let raw = unsafe {
            let symbol = self.records.as_mut_ptr().add(1);
            let words = self.store.as_mut_ptr().add(1);
            let t = lent.as_mut_ptr().add(1);
            tj_update_symbol(symbol, words, n, id, authority, place, t, offered.len())
        };
        if lent != before {
            return Err("an offered word or one beside it is changed".into());
        }
        Ok(Told {
            refusal: raw.refusal,
            value: raw.value,
            found: None,
        })
    }
}
