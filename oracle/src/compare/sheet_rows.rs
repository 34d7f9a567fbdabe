//! Counts the cases of sheets.

use super::row::Row;
use std::collections::BTreeMap;

/// The cases, and how often each number was told.
pub struct Sheets {
    pub row: Row,
    numbers: BTreeMap<u64, u64>,
}

impl Sheets {
    pub fn new(name: &str) -> Self {
        Sheets {
            row: Row::new(name),
            numbers: BTreeMap::new(),
        }
    }

    pub fn count(&mut self, refusal: u64, differs: bool, told: impl Fn() -> String) {
        self.row.count(refusal, true);
        if refusal != 0 {
            *self.numbers.entry(refusal).or_default() += 1;
        }
        if differs {
            self.row.differs(told);
        }
    }

    pub fn print(&self) {
        let told = self
            .numbers
            .iter()
            .map(|(n, times)| format!("{n}: {times}"));
        let told = told.collect::<Vec<_>>().join(", ");
        println!("refusals of {}: {told}", self.row.name);
    }
}
