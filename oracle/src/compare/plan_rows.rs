//! Asks both sides for plans and walks, and counts the cases.

use super::row::Row;
use crate::face::plan_face;
use crate::judge::planning::*;
use crate::original::prelude::ValueType;
use crate::original::typer::ask::Step;
use crate::original::words::*;
use std::collections::BTreeMap;
use std::fmt::Display;

/// The cases of both functions, and of the plans given how many the walker goes to their end.
pub struct Plans {
    plan: Row,
    walk: Row,
    /// How often each number was told.
    numbers: [[u64; 18]; 2],
    /// How often each number of rounds was asked for, by questions that are good but for that.
    rounds: BTreeMap<u64, u64>,
    given: u64,
    arrived: u64,
    excepted: u64,
}

fn told(asked: &Asked) -> String {
    format!(
        "  known     {:?}\n  asked     {:?}\n  target    {:?}\n  depth     {}, {} rounds\n  {}",
        asked.known,
        asked.steps,
        asked.target,
        asked.depth,
        asked.rounds,
        table_told(asked.members)
    )
}

fn table_told(members: &Members) -> String {
    format!(
        "table     {:?}\n  store     {:?}",
        members.table, members.store
    )
}

fn count(row: &mut Row, expected: &Told, found: &Result<Told, String>, asked: impl Fn() -> String) {
    row.count(expected.fields[0], true);
    if found.as_ref() != Ok(expected) {
        row.differs(|| {
            format!(
                "  the Rust  {expected:?}\n  ours      {found:?}\n{}",
                asked()
            )
        });
    }
}

impl Plans {
    pub fn new() -> Self {
        Plans {
            plan: Row::new("autoderef"),
            walk: Row::new("walk"),
            numbers: [[0; 18]; 2],
            rounds: BTreeMap::new(),
            given: 0,
            arrived: 0,
            excepted: 0,
        }
    }

    /// Prints what was counted beside the cases.
    pub fn rows(self) -> Vec<Row> {
        println!(
            "{} plans given: the walker arrives at the reported type of {}, {} are of the exception",
            self.given, self.arrived, self.excepted
        );
        println!("good questions by rounds: {}", counts(&self.rounds));
        for (name, numbers) in ["autoderef", "walk"].iter().zip(self.numbers) {
            let told = (1..18).zip(&numbers[1..]).filter(|(_, count)| **count > 0);
            println!("refusals of {name}: {}", counts(told));
        }
        println!();
        vec![self.plan, self.walk]
    }

    /// Asks for a plan, and walks it where it is given.
    pub fn ask(&mut self, asked: &Asked) -> Result<Planned, Refusal> {
        let judged = judge_plan(asked);
        let rooms = match &judged {
            Ok(made) => [made.steps.len() + 3, made.reported.len() + 2],
            Err(_) => [4, 7],
        };
        self.ask_into(asked, &judged, rooms);
        if is_good_question(asked, &judged) {
            *self.rounds.entry(asked.rounds).or_default() += 1;
        }
        if let Ok(made) = &judged {
            self.demand(asked, made);
        }
        judged
    }

    fn ask_into(&mut self, asked: &Asked, judged: &Result<Planned, Refusal>, rooms: [usize; 2]) {
        let expected = plan_told(judged, rooms);
        let found = plan_face::plan(asked, rooms);
        self.numbers[0][expected.fields[0] as usize] += 1;
        count(&mut self.plan, &expected, &found, || told(asked));
    }

    /// Asks again with outputs that just suffice, and with either of them a word shorter.
    pub fn ask_tightly(&mut self, asked: &Asked, judged: &Result<Planned, Refusal>) {
        let Ok(made) = judged else {
            return;
        };
        let (steps, reported) = (made.steps.len(), made.reported.len());
        self.ask_into(asked, judged, [steps, reported]);
        self.ask_into(asked, judged, [steps, reported - 1]);
        if steps > 0 {
            self.ask_into(asked, judged, [steps - 1, reported]);
            self.ask_into(asked, judged, [steps - 1, reported - 1]);
        }
    }

    pub fn walk(
        &mut self,
        known: &[u64],
        steps: &[u64],
        address: bool,
        members: &Members,
        short: usize,
    ) -> Result<Vec<u64>, Refusal> {
        let judged = judge_walk(known, steps, address, members);
        let room = judged.as_ref().map_or(5, |t| t.len() + 2) - short;
        let expected = walk_told(&judged, room);
        let found = plan_face::walk(known, steps, address, members, room);
        self.numbers[1][expected.fields[0] as usize] += 1;
        count(&mut self.walk, &expected, &found, || {
            let table = table_told(members);
            format!(
                "  known     {known:?}\n  steps     {steps:?}\n  address   {address}\n  {table}"
            )
        });
        judged
    }

    /// The walker takes the plan's steps and arrives at the reported type, but for the exception.
    fn demand(&mut self, asked: &Asked, made: &Planned) {
        let ended = self.walk(asked.known, &made.steps, made.address, asked.members, 0);
        self.given += 1;
        match ended {
            Ok(t) if t == made.reported => self.arrived += 1,
            Ok(t) if is_excepted(asked, made, &t) => self.excepted += 1,
            ended => self
                .plan
                .differs(|| format!("  {made:?}\n  walked to {ended:?}\n{}", told(asked))),
        }
        if !takes_in_order(asked, made) {
            self.plan.differs(|| format!("  {made:?}\n{}", told(asked)));
        }
    }
}

fn counts<'a, N: Display>(all: impl IntoIterator<Item = (N, &'a u64)>) -> String {
    let told = all
        .into_iter()
        .map(|(number, count)| format!("{number}: {count}"));
    told.collect::<Vec<_>>().join(", ")
}

/// Whether nothing was refused before the rounds, their number aside.
fn is_good_question(asked: &Asked, judged: &Result<Planned, Refusal>) -> bool {
    match judged {
        Err((5, _)) => judge_plan(&Asked {
            rounds: 0,
            ..*asked
        })
        .is_ok(),
        Err((number, _)) => (8..12).contains(number),
        Ok(_) => true,
    }
}

/// Where a walk may end on another type than the reported one: the depth is 0, the walk ended on a
/// View, no line but (vii) applied, and the reported type is that View fully dereferenced.
fn is_excepted(asked: &Asked, made: &Planned, ended: &[u64]) -> bool {
    let of = |words: &[u64]| -> ValueType { decode(&check(words).expect("a type")) };
    let (view, target) = (of(ended), of(asked.target));
    let earlier = target.pointer_depth() == 0
        && (view == target
            || view.get_viewee_type().as_ref() == Some(&target)
            || view.can_coerce_into(&target));
    asked.depth == 0
        && ended[0] == VIEW
        && !earlier
        && !made.address
        && !made.coerced
        && made.reported == encode(&view.fully_dereferenced())
}

/// Whether the plan's Elements and Members are, marks aside, the first taken steps of those asked.
fn takes_in_order(asked: &Asked, made: &Planned) -> bool {
    let unmarked = |step: &[u64]| match step[0] {
        ELEMENT => [ELEMENT, step[1], 0, 0],
        _ => [step[0], step[1], step[2], step[3]],
    };
    let own: Vec<Step> = made.steps.chunks(4).map(unmarked).collect();
    let own = own.iter().filter(|step| step[0] <= MEMBER);
    own.copied().eq(asked
        .steps
        .chunks(4)
        .map(unmarked)
        .take(made.taken as usize))
}
