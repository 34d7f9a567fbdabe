//! The proved library's C face: include/trestlejay.h, section Plans. Everything that is lent stands
//! between guards.

use super::type_face::{Raw, GUARD};
use crate::judge::blank::blank;
use crate::judge::planning::{Asked, Members, Told};
use crate::judge::table::{Symbol, FREE};

/// include/trestlejay.h, tj_plan.
#[repr(C)]
pub struct RawPlan {
    pub refusal: u64,
    pub value: u64,
    pub steps: u64,
    pub taken: u64,
    pub layers: u64,
    pub address: bool,
    pub coerced: bool,
}

extern "C" {
    pub fn tj_autoderef(
        known: *const u64,
        nknown: usize,
        asked: *const u64,
        nasked: usize,
        target: *const u64,
        ntarget: usize,
        address_depth: u8,
        rounds: u64,
        table: *const Symbol,
        nt: usize,
        store: *const u64,
        ns: usize,
        steps: *mut u64,
        nsteps: usize,
        r#type: *mut u64,
        ntype: usize,
    ) -> RawPlan;
    pub fn tj_walk(
        known: *const u64,
        nknown: usize,
        steps: *const u64,
        nsteps: usize,
        address: bool,
        table: *const Symbol,
        nt: usize,
        store: *const u64,
        ns: usize,
        out: *mut u64,
        nout: usize,
    ) -> Raw;
}

/// Runs of words in one vector, with a guard before, between and after; and a table between records.
struct Lent {
    words: Vec<u64>,
    starts: Vec<usize>,
    table: Vec<Symbol>,
}

impl Lent {
    fn new(runs: &[&[u64]], table: &[Symbol]) -> Self {
        let mut words = vec![GUARD];
        let mut starts = Vec::new();
        for run in runs {
            starts.push(words.len());
            words.extend(*run);
            words.push(GUARD);
        }
        Lent {
            words,
            starts,
            table: [&[FREE], table, &[FREE]].concat(),
        }
    }

    fn run(&mut self, run: usize) -> *mut u64 {
        // A start is a place in the vector, at a guard where the run is empty.
        unsafe { self.words.as_mut_ptr().add(self.starts[run]) }
    }

    fn table(&mut self) -> *const Symbol {
        // There is a record before and one after.
        unsafe { self.table.as_mut_ptr().add(1) }
    }

    /// What stands in the runs from this one on; the words before them, every guard and the table
    /// must be as they were.
    fn outputs(self, from: usize, before: &Lent, sizes: &[usize]) -> Result<Vec<Vec<u64>>, String> {
        let mut words = self.words.clone();
        let mut outputs = Vec::new();
        for (start, size) in self.starts[from..].iter().zip(sizes) {
            let output = *start..start + size;
            outputs.push(words[output.clone()].to_vec());
            words[output.clone()].copy_from_slice(&before.words[output]);
        }
        match words == before.words && self.table == before.table {
            true => Ok(outputs),
            false => Err("a lent word, a record or one beside them is changed".into()),
        }
    }
}

/// The library's plan, with outputs of so many words, or what it did to words that it had no
/// business with.
pub fn plan(asked: &Asked, rooms: [usize; 2]) -> Result<Told, String> {
    let Members { table, store, .. } = asked.members;
    let [steps, reported] = rooms.map(blank);
    let runs: [&[u64]; 6] = [
        asked.known,
        asked.steps,
        asked.target,
        store,
        &steps,
        &reported,
    ];
    let before = Lent::new(&runs, table);
    let mut lent = Lent::new(&runs, table);
    let raw = unsafe {
        tj_autoderef(
            lent.run(0),
            asked.known.len(),
            lent.run(1),
            asked.steps.len(),
            lent.run(2),
            asked.target.len(),
            asked.depth,
            asked.rounds,
            lent.table(),
            table.len(),
            lent.run(3),
            store.len(),
            lent.run(4),
            rooms[0],
            lent.run(5),
            rooms[1],
        )
    };
    Ok(Told {
        fields: vec![
            raw.refusal,
            raw.value,
            raw.steps,
            raw.taken,
            raw.layers,
            raw.address.into(),
            raw.coerced.into(),
        ],
        outputs: lent.outputs(4, &before, &rooms)?,
    })
}

/// The library's walk, likewise.
pub fn walk(
    known: &[u64],
    steps: &[u64],
    address: bool,
    members: &Members,
    room: usize,
) -> Result<Told, String> {
    let Members { table, store, .. } = members;
    let out = blank(room);
    let runs: [&[u64]; 4] = [known, steps, store, &out];
    let before = Lent::new(&runs, table);
    let mut lent = Lent::new(&runs, table);
    let raw = unsafe {
        tj_walk(
            lent.run(0),
            known.len(),
            lent.run(1),
            steps.len(),
            address,
            lent.table(),
            table.len(),
            lent.run(2),
            store.len(),
            lent.run(3),
            room,
        )
    };
    Ok(Told {
        fields: vec![raw.refusal, raw.value],
        outputs: lent.outputs(3, &before, &[room])?,
    })
}
