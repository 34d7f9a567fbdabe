//! Counts the looks that passed and those that failed.

use std::fmt::Debug;

#[derive(Default)]
pub struct Smoke {
    pub passed: u64,
    pub failed: u64,
}

impl Smoke {
    pub fn same<T: PartialEq + Debug>(&mut self, what: &str, found: T, expected: T) {
        if found == expected {
            self.passed += 1;
        } else {
            self.failed += 1;
            println!("{what}: {found:?}, not {expected:?}");
        }
    }
}
