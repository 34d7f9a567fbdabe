//! Plans over tables of few and of many records.

use super::measure::{kept, renewed, Row, Spent};
use super::types::{count, Type};
use crate::face::plan_face::{tj_autoderef, RawPlan};
use crate::inputs::journeys::{fitting, leading, target};
use crate::inputs::random::Random;
use crate::judge::planning::{judge_plan, Asked, Members};
use crate::judge::table::{record, Symbol, PART};
use crate::original::prelude::{
    set_rounds, Expression, Poison, Reference, ReferenceStep, ValueType,
};
use crate::original::typer::ask::{Record, Step, Table};
use crate::original::typer::timed;
use crate::original::words::*;

const CALLS: usize = 32;
const ROUNDS: u64 = 64;
/// The first record's id; the others follow.
const FIRST: u32 = 100;

pub fn rows(random: &mut Random, show: &mut dyn FnMut(Row)) {
    for (records, aim) in [(8, 1.0), (128, 20.0)] {
        let held = Held::new(random, records);
        for steps in [1, 4, 16] {
            let asked: Vec<_> = (0..CALLS)
                .map(|place| Question::new(random, &held, steps, place % 8 == 7))
                .collect();
            let what = format!("plans, {}, {records} records", count(steps, "asked step"));
            show(row(what.clone(), Some(aim), &held, &asked, Sort::Plain));
            if records == 8 {
                let cloned = format!("{what}, all cloned");
                show(row(cloned, None, &held, &asked, Sort::Cloned));
                let less = format!("{what}, less the ending");
                show(row(less, None, &held, &asked, Sort::Less));
            }
        }
    }
}

/// A full table of members that lead back to a Struct or a Word. The last record is poisoned: the
/// original ends by putting a type under the base of the reference, and there that changes nothing.
struct Held {
    members: Members,
    records: Vec<Record>,
    base: u32,
}

impl Held {
    fn new(random: &mut Random, count: usize) -> Self {
        let (mut table, mut store) = (Vec::new(), vec![0; PART * count]);
        let mut records = Vec::new();
        for slot in 0..count {
            let t = few_layers(random).concat();
            let part = &mut store[PART * slot..];
            part[..t.len()].copy_from_slice(&t);
            let symbol = Symbol {
                id: FIRST + slot as u32,
                authority: random.once_in(2),
                place: 10,
                state: if slot + 1 == count { 2 } else { 1 },
                layers: t.len() as u64 / 3,
                mark: 0,
            };
            records.push(record(&symbol, part));
            table.push(symbol);
        }
        Held {
            members: Members::new(table, store),
            base: FIRST + count as u32 - 1,
            records,
        }
    }
}

fn few_layers(random: &mut Random) -> Vec<Layer> {
    loop {
        let t = leading(random);
        if t.len() <= 6 && decode(&t).is_wellformed() {
            return t;
        }
    }
}

struct Question {
    known: Type,
    words: Vec<u64>,
    target: Type,
    depth: u8,
    reference: Reference,
}

impl Question {
    /// One whose asked steps are all taken, or that ends with an address of a temporary address. What
    /// the original panics at is left out.
    fn new(random: &mut Random, held: &Held, steps: usize, refused: bool) -> Self {
        loop {
            let made = Question::any(random, held, steps);
            let judged = judge_plan(&made.put(held));
            let number = match &judged {
                Ok(plan) if plan.taken as usize == steps => 0,
                Ok(_) => continue,
                Err((number, _)) => *number,
            };
            if number == if refused { 9 } else { 0 } {
                let own = made.ours(held, &mut ([0; 576], [0; PART]));
                assert!(own.refusal == number, "a plan");
                return made;
            }
        }
    }

    fn any(random: &mut Random, held: &Held, steps: usize) -> Self {
        let (known, asked, end) = journey(random, held, steps);
        let depth = random.pick(&[0, 0, 0, 1, 1, 2]);
        Question {
            known: Type::new(&known),
            words: asked.concat(),
            target: Type::new(&target(random, &end)),
            depth,
            reference: timed::reference(held.base, &asked, depth),
        }
    }

    fn put<'a>(&'a self, held: &'a Held) -> Asked<'a> {
        Asked {
            known: &self.known.words,
            steps: &self.words,
            target: &self.target.words,
            depth: self.depth,
            rounds: ROUNDS,
            members: &held.members,
        }
    }

    fn ours(&self, held: &Held, (steps, reported): &mut ([u64; 576], [u64; PART])) -> RawPlan {
        let (known, target) = (&self.known.words, &self.target.words);
        let Members { table, store, .. } = &held.members;
        // Each slice is of a vector or an array of its own.
        unsafe {
            tj_autoderef(
                known.as_ptr(),
                known.len(),
                self.words.as_ptr(),
                self.words.len(),
                target.as_ptr(),
                target.len(),
                self.depth,
                ROUNDS,
                table.as_ptr(),
                table.len(),
                store.as_ptr(),
                store.len(),
                steps.as_mut_ptr(),
                steps.len(),
                reported.as_mut_ptr(),
                reported.len(),
            )
        }
    }

    fn ready(&self) -> (Reference, ValueType, ValueType) {
        let (known, target) = (&self.known.original, &self.target.original);
        (self.reference.clone(), known.clone(), target.clone())
    }
}

/// A known type, as many fitting steps as can be, and the type where they end.
fn journey(random: &mut Random, held: &Held, steps: usize) -> (Vec<Layer>, Vec<Step>, Vec<Layer>) {
    let known = few_layers(random);
    let (mut asked, mut end) = (Vec::new(), known.clone());
    while asked.len() < steps {
        match fitting(random, &end, FIRST, &held.members) {
            Some((step, next)) => {
                asked.push(step);
                end = next;
            }
            None => break,
        }
    }
    (known, asked, end)
}

/// Whether the original's time has the clones of what it takes by value, and whether what it does after
/// the plan is made is taken off.
#[derive(Clone, Copy, PartialEq)]
enum Sort {
    Plain,
    Cloned,
    Less,
}

fn row<'a>(
    what: String,
    aim: Option<f64>,
    held: &'a Held,
    all: &'a [Question],
    sort: Sort,
) -> Row<'a> {
    let mut lent = ([0; 576], [0; PART]);
    let given = |one: &&Question| one.ours(held, &mut lent).refusal == 0;
    let yes = all.iter().filter(given).count();
    let mut table = Table::new(&held.records);
    set_rounds(ROUNDS as usize);
    Row {
        what,
        yes: (yes, all.len()),
        aim,
        ours: renewed(move || {
            kept(all.len(), |told| {
                for one in all {
                    told.push(one.ours(held, &mut lent));
                }
            })
        }),
        original: renewed(move || original(all, &mut table, sort)),
    }
}

fn original(all: &[Question], table: &mut Table, sort: Sort) -> Spent {
    if sort == Sort::Cloned {
        return kept(all.len(), |told| {
            for one in all {
                let (reference, known, target) = one.ready();
                told.push(timed::plan(reference, known, target, table));
            }
        });
    }
    let mut ready = all
        .iter()
        .map(Question::ready)
        .collect::<Vec<_>>()
        .into_iter();
    let mut made = Vec::new();
    let mut spent = kept(all.len(), |told| {
        for (reference, known, target) in ready.by_ref() {
            told.push(timed::plan(reference, known, target, table));
        }
        std::mem::swap(told, &mut made);
    });
    if sort == Sort::Less {
        spent.time = spent.time.saturating_sub(ending(made).time);
    }
    spent
}

/// What the original does after these plans are made.
fn ending(made: Vec<Expression>) -> Spent {
    let made: Vec<_> = made.into_iter().filter_map(plan_of).collect();
    kept(made.len(), |told| {
        for (reported, steps, address) in &made {
            told.push(timed::ending(reported, steps, *address));
        }
    })
}

/// The reported type, the steps and the address of a plan that was given.
fn plan_of(made: Expression) -> Option<(ValueType, Vec<ReferenceStep>, bool)> {
    match made {
        Expression::Autocoerce { expression, .. } => plan_of(*expression),
        Expression::Deref {
            reference,
            deref_type: Some(Ok(reported)),
        } => Some((reported, reference.steps, reference.address_depth == 1)),
        Expression::Poison(Poison::Error(_)) => None,
        other => panic!("an expression that autoderef cannot make: {other:?}"),
    }
}
