//! Plans and walks as document 01 has them. The plan is the original's `autoderef`. What the original
//! has not is written from document 01: the checks of words, steps, rounds and table, the form of the
//! types, the room of the outputs, and the plain walker.

use super::blank::blank;
use super::table::{in_order, record, taken, Symbol, PART};
use crate::original::typer::ask::{plan, Plan, Record, Step};
use crate::original::words::*;

/// The steps' kinds.
pub const ELEMENT: u64 = 0;
pub const MEMBER: u64 = 1;
pub const AUTODESLICE: u64 = 2;
pub const AUTODEREF: u64 = 3;
pub const AUTOVIEW: u64 = 4;

/// The most steps that a plan is asked for, and that the walker takes.
pub const MOST_ASKED: usize = 32;
pub const MOST_WALKED: usize = 128;

/// A table with its store, and the original's records of it.
pub struct Members {
    pub table: Vec<Symbol>,
    pub store: Vec<u64>,
    is_in_order: bool,
    /// With the ill-formed types poisoned, since the original would go on from them.
    records: Vec<Record>,
    ill_formed: Vec<u32>,
}

impl Members {
    pub fn new(table: Vec<Symbol>, store: Vec<u64>) -> Self {
        let is_in_order = in_order(&table, &store);
        let (mut records, mut ill_formed) = (Vec::new(), Vec::new());
        let slots = if is_in_order { taken(&table) } else { 0 };
        for slot in 0..slots {
            let mut member = record(&table[slot], &store[PART * slot..]);
            if member.stored.as_ref().is_ok_and(|t| !t.is_wellformed()) {
                ill_formed.push(member.id);
                member.stored = Err(0);
            }
            records.push(member);
        }
        Members {
            table,
            store,
            is_in_order,
            records,
            ill_formed,
        }
    }

    /// The words of the typed record with this id.
    pub fn typed(&self, id: u64) -> Option<&[u64]> {
        let held = |symbol: &Symbol| symbol.state == 1 && u64::from(symbol.id) == id;
        let slot = self.table.iter().position(held)?;
        let part = &self.store[PART * slot..];
        Some(&part[..3 * self.table[slot].layers as usize])
    }
}

/// What `autoderef` is asked, but for the outputs.
#[derive(Clone, Copy)]
pub struct Asked<'a> {
    pub known: &'a [u64],
    pub steps: &'a [u64],
    pub target: &'a [u64],
    pub depth: u8,
    pub rounds: u64,
    pub members: &'a Members,
}

/// A plan in words.
#[derive(Debug, Clone, PartialEq)]
pub struct Planned {
    pub steps: Vec<u64>,
    pub taken: u64,
    pub reported: Vec<u64>,
    pub address: bool,
    pub coerced: bool,
}

/// The fields of a plan or of an answer, and the outputs afterwards.
#[derive(Debug, PartialEq)]
pub struct Told {
    pub fields: Vec<u64>,
    pub outputs: Vec<Vec<u64>>,
}

fn written(words: &[u64], room: usize) -> Vec<u64> {
    let mut all = blank(room);
    all[..words.len()].copy_from_slice(words);
    all
}

/// The judgement as the plan's fields, for outputs with so many words.
pub fn plan_told(judged: &Result<Planned, Refusal>, rooms: [usize; 2]) -> Told {
    let fits = |made: &&Planned| made.steps.len() <= rooms[0] && made.reported.len() <= rooms[1];
    match judged.as_ref().map(|made| Some(made).filter(fits)) {
        Ok(Some(made)) => Told {
            fields: vec![
                0,
                0,
                made.steps.len() as u64 / 4,
                made.taken,
                made.reported.len() as u64 / 3,
                made.address.into(),
                made.coerced.into(),
            ],
            outputs: vec![
                written(&made.steps, rooms[0]),
                written(&made.reported, rooms[1]),
            ],
        },
        refused => {
            let (number, place) = refused.err().copied().unwrap_or((14, 0));
            Told {
                fields: vec![number, place, 0, 0, 0, 0, 0],
                outputs: rooms.map(blank).to_vec(),
            }
        }
    }
}

/// The judgement as an answer, for an output with so many words.
pub fn walk_told(judged: &Result<Vec<u64>, Refusal>, room: usize) -> Told {
    match judged.as_ref().map(|t| Some(t).filter(|t| t.len() <= room)) {
        Ok(Some(t)) => Told {
            fields: vec![0, t.len() as u64],
            outputs: vec![written(t, room)],
        },
        refused => {
            let (number, place) = refused.err().copied().unwrap_or((14, 0));
            Told {
                fields: vec![number, place],
                outputs: vec![blank(room)],
            }
        }
    }
}

fn is_good_step(step: &[u64]) -> bool {
    let [kind, handle, mark, number] = *step else {
        return false;
    };
    let is_handle = handle <= u64::from(u32::MAX);
    match kind {
        ELEMENT => is_handle && mark <= 2 && number == 0,
        MEMBER => is_handle && (mark == 1 || mark == 0 && number == 0),
        AUTODESLICE => handle == 0 && mark <= 2 && number == 0,
        AUTODEREF | AUTOVIEW => [handle, mark, number] == [0; 3],
        _ => false,
    }
}

fn good_steps(words: &[u64], most: usize) -> Result<Vec<Step>, Refusal> {
    if words.len() > 4 * most || !words.chunks(4).all(is_good_step) {
        return Err((5, 0));
    }
    let steps = words.chunks(4).map(|w| [w[0], w[1], w[2], w[3]]);
    Ok(steps.collect())
}

/// The plan, or the first refusal but for 14.
pub fn judge_plan(asked: &Asked) -> Result<Planned, Refusal> {
    let known = decode(&check(asked.known)?);
    let target = decode(&check(asked.target)?);
    let steps = good_steps(asked.steps, MOST_ASKED)?;
    if asked.rounds > 64 {
        return Err((5, 0));
    }
    if !asked.members.is_in_order {
        return Err((12, 0));
    }
    if !known.is_wellformed() || !target.is_wellformed() {
        return Err((4, 0));
    }
    let members = asked.members;
    let made = |steps: &[Step]| {
        let (depth, rounds) = (asked.depth, asked.rounds as usize);
        plan(&known, steps, &target, depth, rounds, &members.records)
    };
    let made = match made(&steps) {
        Err(11) => Err(without_type(&steps, members, |steps| {
            made(steps) == Err(11)
        })),
        made => made,
    };
    let made = in_words(&made.map_err(|number| (number, 0))?);
    if made.reported.len() > PART {
        return Err((15, 0));
    }
    Ok(made)
}

fn in_words(made: &Plan) -> Planned {
    Planned {
        steps: made.steps.concat(),
        taken: made.taken as u64,
        reported: encode(&made.reported),
        address: made.address,
        coerced: made.coerced,
    }
}

/// The number of rounds that met a member without a type to go on from: the first asked steps that
/// fail so end with that member.
fn without_type(steps: &[Step], members: &Members, fails: impl Fn(&[Step]) -> bool) -> u64 {
    let met = (0..steps.len()).find(|last| fails(&steps[..=*last]));
    let met = steps[met.expect("a step that fails")];
    let id = met[1] as u32;
    match members.ill_formed.contains(&id) {
        true => 4,
        false => 11,
    }
}

/// The plain walker: the type reached, or the first refusal but for 14.
pub fn judge_walk(
    known: &[u64],
    steps: &[u64],
    address: bool,
    members: &Members,
) -> Result<Vec<u64>, Refusal> {
    let mut current = check(known)?;
    let steps = good_steps(steps, MOST_WALKED)?;
    if !members.is_in_order {
        return Err((12, 0));
    }
    for (place, step) in steps.iter().enumerate() {
        current = go(&current, step, members).ok_or((8, place as u64))?;
    }
    if address {
        current.insert(0, [POINTER, 0, 0]);
    }
    match current.len() {
        0..=16 => Ok(current.concat()),
        _ => Err((15, 0)),
    }
}

/// Document 01: "The walker".
fn go(current: &[Layer], step: &Step, members: &Members) -> Option<Vec<Layer>> {
    let rest = &current[1..];
    let inner = rest.first().map(|layer| layer[0]);
    match (step[0], current[0][0], step[2]) {
        (AUTODEREF, POINTER, _) | (AUTOVIEW, VIEW, _) => Some(rest.to_vec()),
        (AUTODESLICE, SLICE, 0) | (AUTODESLICE, SLICE_POINTER, 1) => {
            Some([&[[ARRAYLIKE, 0, 0]], rest].concat())
        }
        (ELEMENT, ARRAY | NAMED | ENDLESS | ARRAYLIKE, _) => Some(rest.to_vec()),
        (ELEMENT, POINTER | VIEW, _) if inner == Some(ARRAYLIKE) => Some(rest[1..].to_vec()),
        (MEMBER, STRUCT | WORD, _) => Some(check(members.typed(step[1])?).expect("a type")),
        _ => None,
    }
}
