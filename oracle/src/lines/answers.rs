//! The fixed list of the original's answers, for replay without Rust. README.md has the format.

use super::listed::*;
use super::listed_plans::{plan, walk};
use super::listed_symbols::{update, Played};
use crate::inputs::random::Random;
use crate::inputs::relatives::pair;
use crate::inputs::types::*;
use crate::judge::questions::{answer, Answer, FIXING, QUESTIONS, RELATIONS, STORED, WIDTHS};
use std::collections::HashMap;

/// So many inputs are tried for a line; the one whose answer was rarest so far is kept, so that
/// yes, no and refused come about equally often.
const TRIES: usize = 20;

/// What `test_replay` has room for: the most numbers of a line.
const ROOM: usize = 1024;

/// What a turn asks after one question of each number about types: operations on one table, each about
/// what the one before left, then lone symbols, plans and walks. With those about types these are 64.
fn later() -> Vec<usize> {
    let played = [
        PUT_TYPE,
        PUT_TYPE,
        DECLARE_TYPE,
        PUT_TYPE,
        GET,
        PUT_TYPE,
        PUT_POISON,
        GET,
        PUT_NOTHING,
        PUT_TYPE,
        DECLARE_POISON,
        PUT_TYPE,
        DECLARE_TYPE,
        GET,
    ];
    [&played[..], &[UPDATE; 6], &[AUTODEREF; 9], &[WALK; 3]].concat()
}

/// What answers of one sort have in common: bad words are one sort, whatever is wrong with them.
type Sort = (usize, u64, [u64; 2]);

fn sort(question: usize, given: &Answer, beside: [u64; 2]) -> Sort {
    match given.refusal {
        0 => (question, 0, beside),
        1..=3 => (question, 1, [0; 2]),
        other if question == STORED => (question, other, beside),
        other => (question, other, [0; 2]),
    }
}

/// How often each sort is in the list.
struct Seen(HashMap<Sort, u64>);

impl Seen {
    /// The rarest of some inputs.
    fn rarest<T>(&mut self, tries: impl Iterator<Item = (Sort, T)>) -> T {
        let count = |(sort, _): &(Sort, T)| self.0.get(sort).copied();
        let (sort, kept) = tries.min_by_key(count).expect("an input");
        *self.0.entry(sort).or_default() += 1;
        kept
    }
}

/// The questions take turns.
pub fn answers(count: usize, seed: u64) -> String {
    let mut random = Random::new(seed);
    let mut seen = Seen(HashMap::new());
    let mut played = Played::new(&mut random);
    let mut list = String::new();
    let later = later();
    for line in 0..count {
        let place = line % (QUESTIONS.len() + later.len());
        if place == 0 {
            played = Played::new(&mut random);
        }
        list += &match place.checked_sub(QUESTIONS.len()) {
            None => {
                let turn = line / (QUESTIONS.len() + later.len());
                about_types(place, turn, &mut random, &mut seen)
            }
            Some(place) => about_lent(later[place], &mut random, &mut seen, &mut played),
        };
    }
    list
}

/// Of a stored size the inputs have the widths in turn, and what is answered with each is a sort of its own.
fn about_types(question: usize, turn: usize, random: &mut Random, seen: &mut Seen) -> String {
    let tries = (0..TRIES).map(|i| {
        let (a, mut b) = input(question, random);
        if question == STORED {
            b = vec![WIDTHS[(turn + i) % WIDTHS.len()]];
        }
        let given = answer(question, &a, &b);
        let beside = match question {
            STORED => [given.value, b[0]],
            _ => [given.value, given.written.len() as u64],
        };
        let sort = sort(question, &given, beside);
        (sort, (given, a, b))
    });
    let (given, a, b) = seen.rarest(tries);
    text(question, &given, &[a, b], &[])
}

fn about_lent(
    question: usize,
    random: &mut Random,
    seen: &mut Seen,
    played: &mut Played,
) -> String {
    let tries = (0..TRIES).map(|_| {
        let line = match question {
            UPDATE => update(random),
            AUTODEREF => plan(random),
            WALK => walk(random),
            _ => played.ask(random, question - UPDATE),
        };
        (sort(question, &line.given, line.sort), line)
    });
    let line: Listed = seen.rarest(tries);
    if (PUT_NOTHING..=GET).contains(&question) {
        played.follow(&line);
    }
    text(question, &line.given, &line.runs, &line.records())
}

/// Types are kept short, so that the list is.
fn input(question: usize, random: &mut Random) -> (Vec<u64>, Vec<u64>) {
    let most = most(random);
    if question == FIXING {
        let t = extern_type(random, most);
        let t = if random.once_in(6) {
            damaged(random, &t)
        } else {
            words(&t)
        };
        let beside = flags(random, t.len());
        return (t, beside);
    }
    let (a, b) = pair(random, most);
    let a = match random.once_in(6) {
        true => damaged(random, &a),
        false => words(&a),
    };
    let b = match random.once_in(10) {
        _ if question < RELATIONS => Vec::new(),
        true => damaged(random, &b),
        false => words(&b),
    };
    (a, b)
}

fn text(question: usize, given: &Answer, runs: &[Vec<u64>], rest: &[u64]) -> String {
    let mut line = vec![question as u64, given.refusal, given.value];
    for run in [&given.written].into_iter().chain(runs) {
        line.push(run.len() as u64);
        line.extend(run);
    }
    line.extend(rest);
    assert!(
        line.len() <= ROOM,
        "more numbers than `test_replay` has room for"
    );
    let line: Vec<String> = line.iter().map(u64::to_string).collect();
    line.join(" ") + "\n"
}
