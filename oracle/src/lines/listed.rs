//! A line of the list about symbols or plans: the question's number, what is lent for it, and the answer.

use crate::inputs::random::Random;
use crate::judge::blank::blank;
use crate::judge::questions::Answer;
use crate::judge::table::{Symbol, PART};

/// The questions' numbers: those of the header's section Symbols, in its order, then of its section
/// Plans.
pub const UPDATE: usize = 32;
pub const PUT_NOTHING: usize = 33;
pub const PUT_TYPE: usize = 34;
pub const PUT_POISON: usize = 35;
pub const DECLARE_TYPE: usize = 36;
pub const DECLARE_POISON: usize = 37;
pub const GET: usize = 38;
pub const AUTODEREF: usize = 39;
pub const WALK: usize = 40;

/// What `test_replay` has room for: records of a table, and words of a store.
pub const MOST_RECORDS: usize = 8;
const MOST_STORED: usize = PART * MOST_RECORDS + PART;

/// A question with what is lent, and the original's answer.
pub struct Listed {
    pub given: Answer,
    /// What sets apart answers that are no refusal.
    pub sort: [u64; 2],
    /// The type offered or known, the numbers, the target, the steps.
    pub runs: [Vec<u64>; 4],
    pub table: Vec<Symbol>,
    pub store: Vec<u64>,
}

impl Listed {
    /// The table's records, each with its fields and the words that stand in its part of the store.
    pub fn records(&self) -> Vec<u64> {
        assert!(self.table.len() <= MOST_RECORDS && self.store.len() <= MOST_STORED);
        let mut all = vec![self.table.len() as u64];
        let clear = blank(self.store.len());
        for (slot, symbol) in self.table.iter().enumerate() {
            let end = self.store.len().min(PART * slot + PART);
            let start = end.min(PART * slot);
            let is_set = |word: &usize| self.store[*word] != clear[*word];
            let last = (start..end).rfind(is_set).map_or(start, |word| word + 1);
            all.extend(fields(symbol));
            all.push((last - start) as u64);
            all.extend(&self.store[start..last]);
        }
        all
    }
}

pub fn fields(symbol: &Symbol) -> [u64; 6] {
    [
        symbol.id.into(),
        symbol.authority.into(),
        symbol.place,
        symbol.state,
        symbol.layers,
        symbol.mark,
    ]
}

/// Types are kept short, so that the list is.
pub fn most(random: &mut Random) -> usize {
    match random.once_in(8) {
        true => 16,
        false => 4,
    }
}
