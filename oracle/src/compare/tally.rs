//! Counts the cases of the questions about types.

use crate::face::type_face;
use crate::judge::questions::{answer, Answer, FIXING, QUESTIONS, RELATIONS, STORED, WIDTHS};

/// The cases of one question.
#[derive(Default)]
pub struct Tally {
    pub cases: u64,
    pub yes: u64,
    pub refusals: u64,
    pub differences: u64,
    pub smallest: Option<Difference>,
}

pub struct Difference {
    pub a: Vec<u64>,
    pub b: Vec<u64>,
    pub expected: Answer,
    pub found: Result<Answer, String>,
}

impl Tally {
    /// A case. Of the differences the smallest is kept.
    fn count(&mut self, a: &[u64], b: &[u64], expected: Answer, found: Result<Answer, String>) {
        self.cases += 1;
        if expected.refusal != 0 {
            self.refusals += 1;
        } else if expected.value != 0 || !expected.written.is_empty() {
            self.yes += 1;
        }
        if found.as_ref() == Ok(&expected) {
            return;
        }
        self.differences += 1;
        let size = |d: &Difference| d.a.len() + d.b.len();
        let smaller = |d: &Difference| a.len() + b.len() < size(d);
        if self.smallest.as_ref().map_or(true, smaller) {
            self.smallest = Some(Difference {
                a: a.to_vec(),
                b: b.to_vec(),
                expected,
                found,
            });
        }
    }
}

/// Asks both sides the questions about types, and counts the cases of each.
pub struct Tallies(pub Vec<Tally>);

impl Tallies {
    pub fn new() -> Self {
        Tallies(QUESTIONS.iter().map(|_| Tally::default()).collect())
    }

    pub fn ask(&mut self, question: usize, a: &[u64], b: &[u64]) {
        let expected = answer(question, a, b);
        let found = type_face::answer(question, a, b);
        self.0[question].count(a, b, expected, found);
    }

    /// Every question about one type, the stored size with every width.
    pub fn ask_one(&mut self, a: &[u64]) {
        for question in (0..RELATIONS).filter(|question| *question != STORED) {
            self.ask(question, a, &[]);
        }
        for width in WIDTHS {
            self.ask(STORED, a, &[width]);
        }
    }

    pub fn ask_two(&mut self, a: &[u64], b: &[u64]) {
        for question in RELATIONS..FIXING {
            self.ask(question, a, b);
        }
    }

    /// Extern and not, in every context and in two that are none, with outputs of these lengths.
    pub fn ask_fixed(&mut self, t: &[u64], rooms: &[u64]) {
        for external in [0, 1] {
            for context in [0, 1, 2, 3, 4, u64::MAX] {
                for room in rooms {
                    self.ask(FIXING, t, &[external, context, *room]);
                }
            }
        }
    }
}
