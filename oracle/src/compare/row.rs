//! Counts the cases of one function.

#[derive(Default)]
pub struct Row {
    pub name: String,
    pub cases: u64,
    pub changes: u64,
    pub refusals: u64,
    pub differences: u64,
    pub first: Option<String>,
}

impl Row {
    pub fn new(name: &str) -> Self {
        Row {
            name: name.into(),
            ..Row::default()
        }
    }

    /// A case, by its refusal, 0 for none, and whether anything came of it.
    pub fn count(&mut self, refusal: u64, changes: bool) {
        self.cases += 1;
        match refusal {
            0 => self.changes += u64::from(changes),
            _ => self.refusals += 1,
        }
    }

    /// A difference; the first is kept.
    pub fn differs(&mut self, told: impl FnOnce() -> String) {
        self.differences += 1;
        self.first.get_or_insert_with(told);
    }
}
