//! The looks at symbols.

use super::count::Smoke;
use super::few_types::*;
use crate::original::prelude::Identifier;
use crate::original::typer::ask::{update, Table};

fn name(authority: bool) -> Identifier {
    Identifier::new(5, authority, 20)
}

pub fn updates(smoke: &mut Smoke) {
    let array = of(&[[14, 0, 3], INT32].concat());
    let arraylike = in_layer(19, &int32());
    let bad = pointer(&in_layer(16, &int32()));

    let poisoned = record(5, true, Err(8));
    smoke.same(
        "poisoned",
        update(&poisoned, &name(true), &bad),
        Ok(poisoned.clone()),
    );
    let typed = record(5, false, Ok(array.clone()));
    smoke.same(
        "offered ill formed",
        update(&typed, &name(true), &bad),
        Err(4),
    );
    let ill = record(5, false, Ok(bad.clone()));
    smoke.same(
        "stored ill formed",
        update(&ill, &name(true), &int32()),
        Err(4),
    );
    smoke.same(
        "concretization",
        update(&typed, &name(true), &arraylike),
        Ok(typed.clone()),
    );
    smoke.same("conflict", update(&typed, &name(true), &int32()), Err(7));
    let declared = record(5, true, Ok(arraylike.clone()));
    let replaced = record(5, true, Ok(array.clone()));
    smoke.same(
        "type replaced",
        update(&declared, &name(false), &array),
        Ok(replaced),
    );
    let inferred = record(5, false, Ok(arraylike.clone()));
    let mut both = record(5, true, Ok(array.clone()));
    both.place = 20;
    smoke.same(
        "both replaced",
        update(&inferred, &name(true), &array),
        Ok(both),
    );
    smoke.same(
        "no authority",
        update(&inferred, &name(false), &array),
        Err(7),
    );
}

pub fn table(smoke: &mut Smoke) {
    let array = of(&[[14, 0, 3], INT32].concat());
    let bad = pointer(&in_layer(16, &int32()));

    let mut table = Table::default();
    smoke.same("put nothing", table.put(&name(true), None), Ok(()));
    smoke.same(
        "nothing there",
        (table.len(), table.get(&name(true))),
        (0, None),
    );
    smoke.same(
        "put ill formed",
        table.put(&name(false), Some(Ok(bad.clone()))),
        Ok(()),
    );
    smoke.same("get", table.get(&name(false)), Some(Ok(bad.clone())));
    smoke.same("put poison", table.put(&name(false), Some(Err(9))), Ok(()));
    smoke.same("get poison", table.get(&name(true)), Some(Err(9)));
    smoke.same("get plain poison", table.get(&name(false)), Some(Err(0)));
    table.poison(&name(true), 0);
    smoke.same("poisoned again", table.get(&name(true)), Some(Err(0)));
    table.forward_declare(&name(true), Ok(array.clone()));
    let mut forward = record(5, true, Ok(array));
    forward.place = 20;
    smoke.same("declared", table.record(5), Some(forward));
    smoke.same(
        "put conflict",
        table.put(&name(true), Some(Ok(int32()))),
        Err(7),
    );
    table.poison(&Identifier::new(6, false, 0), 3);
    smoke.same("inserted", table.len(), 2);
}
