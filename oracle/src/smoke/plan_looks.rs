//! The looks at plans.

use super::count::Smoke;
use super::few_types::*;
use crate::original::prelude::ValueType;
use crate::original::typer::ask::{plan, Plan, Step};

const ELEMENT: Step = [0, 7, 0, 0];
const MEMBER: Step = [1, 2, 0, 0];
const AUTODEREF: Step = [3, 0, 0, 0];
const AUTOVIEW: Step = [4, 0, 0, 0];

fn made(steps: &[Step], taken: usize, reported: &ValueType) -> Result<Plan, u64> {
    Ok(Plan {
        steps: steps.to_vec(),
        taken,
        reported: reported.clone(),
        address: false,
        coerced: false,
    })
}

fn go(
    known: &ValueType,
    asked: &[Step],
    target: &ValueType,
    depth: u8,
    rounds: usize,
) -> Result<Plan, u64> {
    plan(known, asked, target, depth, rounds, &[])
}

pub fn plans(smoke: &mut Smoke) {
    settled(smoke);
    members(smoke);
    rounds(smoke);
    agreed(smoke);
}

fn settled(smoke: &mut Smoke) {
    let int = int32();
    let char8 = of(&CHAR8);
    let slice = in_layer(16, &char8);
    let array = of(&[[14, 0, 3], INT32].concat());
    let slice_pointer = in_layer(17, &int);
    let endless = pointer(&in_layer(18, &int));
    smoke.same(
        "a view",
        go(&view(&int), &[], &int, 0, 64),
        made(&[AUTOVIEW], 0, &int),
    );
    let sliced = [[2, 0, 0, 0], [0, 7, 1, 0]];
    smoke.same(
        "a slice",
        go(&slice, &[ELEMENT], &char8, 0, 64),
        made(&sliced, 1, &char8),
    );
    smoke.same(
        "one round",
        go(&pointer(&array), &[ELEMENT], &int, 0, 1),
        made(&[AUTODEREF], 0, &array),
    );
    smoke.same(
        "slice pointer",
        go(&slice_pointer, &[], &endless, 1, 64),
        Err(10),
    );
    let mut address = made(&[], 0, &pointer(&int)).unwrap();
    address.address = true;
    smoke.same("depth 2", go(&int, &[], &pointer(&int), 2, 64), Ok(address));
    smoke.same(
        "temporary address",
        go(&int, &[], &pointer(&pointer(&int)), 2, 64),
        Err(9),
    );
    let mut coerced = made(&[], 0, &array).unwrap();
    coerced.coerced = true;
    smoke.same(
        "coerced",
        go(&array, &[], &in_layer(16, &int), 0, 64),
        Ok(coerced),
    );
    smoke.same("no step fits", go(&int, &[ELEMENT], &int, 0, 64), Err(8));
    smoke.same(
        "asked Autoderef",
        go(&int, &[AUTODEREF], &int, 0, 64),
        Err(8),
    );
}

fn members(smoke: &mut Smoke) {
    let (int, structure) = (int32(), of(&[20, 1, 0]));
    smoke.same(
        "member absent",
        go(&structure, &[MEMBER], &int, 0, 64),
        Err(11),
    );
    let poisoned = [record(2, true, Err(0))];
    smoke.same(
        "member poisoned",
        plan(&structure, &[MEMBER], &int, 0, 64, &poisoned),
        Err(11),
    );
    let member = [record(2, true, Ok(int.clone()))];
    smoke.same(
        "member",
        plan(&structure, &[MEMBER], &int, 0, 64, &member),
        made(&[MEMBER], 1, &int),
    );
    smoke.same(
        "no rounds",
        plan(&structure, &[MEMBER], &int, 0, 0, &member),
        made(&[], 0, &structure),
    );
}

/// docs/DIFFERENCES.md: the number of rounds.
fn rounds(smoke: &mut Smoke) {
    let structure = of(&[20, 1, 0]);
    let deep = (0..15).fold(structure.clone(), |inner, _| pointer(&inner));
    let member = [record(2, true, Ok(deep.clone()))];
    let taken = |members: usize, rounds| {
        let asked = vec![MEMBER; members];
        let made = plan(&deep, &asked, &structure, 0, rounds, &member);
        made.map(|made| made.taken)
    };
    smoke.same("five members, 64 rounds", taken(5, 64), Ok(4));
    smoke.same("five members, 254 rounds", taken(5, 254), Ok(5));
    smoke.same("sixteen members, 254 rounds", taken(16, 254), Ok(15));
}

/// docs/SURPRISES.md.
fn agreed(smoke: &mut Smoke) {
    let (int, slice_pointer) = (int32(), in_layer(17, &int32()));
    smoke.same(
        "a view of a pointer",
        go(&view(&pointer(&int)), &[], &pointer(&int), 0, 64),
        made(&[], 0, &int),
    );
    let void = of(&[0, 0, 0]);
    let mut address = made(&[], 0, &pointer(&void)).unwrap();
    address.address = true;
    smoke.same("void", go(&void, &[], &int, 1, 64), Ok(address));
    smoke.same(
        "a slice pointer at depth 0",
        go(&slice_pointer, &[], &slice_pointer, 0, 64),
        Err(10),
    );
}
