//! The lines of the program `test_plans`, as the original plans them: the same questions in the same order.

use crate::inputs::types::words;
use crate::judge::planning::*;
use crate::judge::table::{Symbol, FREE, PART};
use crate::original::words::*;
use std::fmt::Write;

const HEADING: &str = "known asked target depth rounds: taken address coerced steps type\n";

const INT32: Layer = [3, 0, 0];
const OF_STRUCT: Layer = [STRUCT, 5, 0];
const OF_CHAR8: Layer = [CHAR8, 0, 0];
const POINTER_TO: Layer = [POINTER, 0, 0];
const VIEW_OF: Layer = [VIEW, 0, 0];
const SLICE_OF: Layer = [SLICE, 0, 0];
const SLICE_POINTER_TO: Layer = [SLICE_POINTER, 0, 0];
const ENDLESS_OF: Layer = [ENDLESS, 0, 0];
const ARRAYLIKE_OF: Layer = [ARRAYLIKE, 0, 0];
const ARRAY_OF: Layer = [ARRAY, 0, 3];

const TYPES: [&[Layer]; 26] = [
    &[INT32],
    &[OF_CHAR8],
    &[OF_STRUCT],
    &[[WORD, 5, 8]],
    &[[0, 0, 0]],
    &[[3, 0, 1]],
    &[SLICE_OF, INT32],
    &[SLICE_OF, OF_CHAR8],
    &[SLICE_OF, OF_STRUCT],
    &[SLICE_POINTER_TO, INT32],
    &[SLICE_POINTER_TO, OF_STRUCT],
    &[ENDLESS_OF, INT32],
    &[ARRAYLIKE_OF, INT32],
    &[POINTER_TO, INT32],
    &[VIEW_OF, INT32],
    &[POINTER_TO, OF_STRUCT],
    &[VIEW_OF, OF_STRUCT],
    &[POINTER_TO, POINTER_TO, INT32],
    &[POINTER_TO, POINTER_TO, OF_STRUCT],
    &[VIEW_OF, POINTER_TO, INT32],
    &[POINTER_TO, ARRAYLIKE_OF, INT32],
    &[VIEW_OF, ARRAYLIKE_OF, OF_STRUCT],
    &[POINTER_TO, ENDLESS_OF, INT32],
    &[POINTER_TO, ARRAY_OF, INT32],
    &[VIEW_OF, ARRAY_OF, OF_STRUCT],
    &[POINTER_TO, SLICE_OF, INT32],
];

/// The types of the members 1 to 7; that of 3 is poisoned, that of 4 ill formed.
const MEMBERS: [&[Layer]; 7] = [
    &[INT32],
    &[POINTER_TO, POINTER_TO, OF_STRUCT],
    &[INT32],
    &[POINTER_TO, SLICE_OF, INT32],
    &[SLICE_OF, OF_CHAR8],
    &[VIEW_OF, ARRAY_OF, OF_STRUCT],
    &[OF_STRUCT],
];

const fn member(id: u64) -> [u64; 4] {
    [MEMBER, id, 0, 0]
}

const fn element(handle: u64) -> [u64; 4] {
    [ELEMENT, handle, 0, 0]
}

const ASKED: [&[[u64; 4]]; 15] = [
    &[],
    &[element(7)],
    &[element(7), element(8)],
    &[member(1)],
    &[member(2)],
    &[member(2), member(2), member(1)],
    &[member(3)],
    &[member(4)],
    &[member(8)],
    &[member(5), element(9)],
    &[member(6), element(9), member(1)],
    &[element(7), member(1)],
    &[element(7), member(2), member(7)],
    &[[AUTODEREF, 0, 0, 0]],
    &[[5, 0, 0, 0]],
];

/// A step and the half of another.
const HALF: [u64; 6] = [ELEMENT, 7, 0, 0, MEMBER, 0];

fn asked_words() -> Vec<Vec<u64>> {
    let mut all: Vec<Vec<u64>> = ASKED.iter().map(|steps| steps.concat()).collect();
    all.push(HALF.to_vec());
    all
}

/// The table of the first so many members, or with more than those free ones, always with the store of
/// all seven.
fn members(records: usize) -> Members {
    let mut table = vec![FREE; MEMBERS.len()];
    let mut store = vec![0; PART * MEMBERS.len()];
    for (slot, t) in MEMBERS.iter().enumerate() {
        table[slot] = Symbol {
            id: slot as u32 + 1,
            state: if slot == 2 { 2 } else { 1 },
            layers: t.len() as u64,
            ..FREE
        };
        store[PART * slot..PART * slot + 3 * t.len()].copy_from_slice(&words(t));
    }
    table.resize(records, FREE);
    Members::new(table, store)
}

/// What the program lends for the steps and for the type.
const ROOMS: [usize; 2] = [576, 48];

pub fn plans() -> String {
    let mut lines = Lines {
        text: HEADING.into(),
        members: members(MEMBERS.len()),
        asked: asked_words(),
    };
    for i in 0..TYPES.len() {
        (0..lines.asked.len()).for_each(|j| lines.line(i, j, 0, 0, 64, ROOMS));
    }
    for i in 0..TYPES.len() {
        for k in 0..TYPES.len() {
            (0..3).for_each(|depth| lines.line(i, 0, k, depth, 64, ROOMS));
        }
    }
    lines.text += "rounds\n";
    (0..67).for_each(|rounds| lines.line(18, 5, 0, 0, rounds, ROOMS));
    lines.counts();
    lines.rooms();
    lines.deep();
    lines.disorder();
    lines.text
}

struct Lines {
    text: String,
    members: Members,
    asked: Vec<Vec<u64>>,
}

impl Lines {
    /// A question by its places in the lists.
    fn line(&mut self, i: usize, j: usize, k: usize, depth: u8, rounds: u64, rooms: [usize; 2]) {
        let told = told(
            &Asked {
                known: &words(TYPES[i]),
                steps: &self.asked[j],
                target: &words(TYPES[k]),
                depth,
                rounds,
                members: &self.members,
            },
            rooms,
        );
        writeln!(self.text, "{i} {j} {k} {depth} {rounds}:{told}").unwrap();
    }

    /// Members that lead back, more and more of them.
    fn counts(&mut self) {
        self.text += "asked\n";
        let sweep = [
            (2, 7, 124, 64),
            (2, 7, 128, 64),
            (2, 7, 132, 64),
            (18, 2, 128, 62),
            (18, 2, 128, 63),
            (18, 2, 128, 64),
            (18, 2, 128, 65),
        ];
        for (i, id, count, rounds) in sweep {
            let t = words(TYPES[i]);
            let steps = member(id).repeat(count / 4);
            let told = self.told(&t, &steps, &t, 0, rounds);
            writeln!(
                self.text,
                " {count} words of members, {rounds} rounds:{told}"
            )
            .unwrap();
        }
    }

    /// With less and less room.
    fn rooms(&mut self) {
        self.text += "room\n";
        for (room, wide) in (0..10).flat_map(|room| (0..5).map(move |wide| (room, wide))) {
            write!(self.text, " {room} {wide} words lent, ").unwrap();
            self.line(23, 1, 0, 0, 64, [room, wide]);
        }
    }

    /// Fifteen Pointers around an Int32.
    fn deep(&mut self) {
        self.text += "depth\n";
        let known = [POINTER_TO.repeat(15), INT32.to_vec()].concat();
        for depth in [0, 1, 14, 15, 16, 17, 255] {
            let told = self.told(&known, &[], &INT32, depth, 64);
            writeln!(self.text, "16 layers at {depth}:{told}").unwrap();
        }
    }

    /// A store that is not of so many records.
    fn disorder(&mut self) {
        self.text += "records\n";
        for records in [0, 6, 7, 8, 129] {
            self.members = members(records);
            let told = self.told(&INT32, &[], &INT32, 0, 64);
            writeln!(self.text, " {records} records:{told}").unwrap();
        }
    }

    fn told(&self, known: &[u64], steps: &[u64], target: &[u64], depth: u8, rounds: u64) -> String {
        let asked = Asked {
            known,
            steps,
            target,
            depth,
            rounds,
            members: &self.members,
        };
        told(&asked, ROOMS)
    }
}

/// As the program writes a plan.
fn told(asked: &Asked, rooms: [usize; 2]) -> String {
    let told = plan_told(&judge_plan(asked), rooms);
    let [refusal, place, steps, taken, layers, address, coerced] = told.fields[..] else {
        panic!("a plan has seven fields")
    };
    if refusal != 0 {
        return format!(" !{refusal}@{place}");
    }
    let steps = grouped(&told.outputs[0][..4 * steps as usize], 4);
    let reported = grouped(&told.outputs[1][..3 * layers as usize], 3);
    format!(" {taken} {address} {coerced} steps{steps} type{reported}")
}

fn grouped(words: &[u64], size: usize) -> String {
    let mut text = String::new();
    for group in words.chunks(size) {
        text += " |";
        group.iter().for_each(|word| text += &format!(" {word}"));
    }
    text
}
