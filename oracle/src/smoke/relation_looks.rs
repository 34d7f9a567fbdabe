//! The looks at relations.

use super::count::Smoke;
use super::few_types::*;
use crate::judge::questions::{answer, RELATIONS};
use crate::original::value_type::ask;

pub fn relations(smoke: &mut Smoke) {
    // The sheet of document 01 and the table that it prints, identical, like and sub-autoderefs aside.
    let array = [[14, 0, 3], CHAR8].concat();
    let slice = [[16, 0, 0], UINT8].concat();
    let table = [
        (&array, &array, [1, 1, 1, 0, 1]),
        (&array, &slice, [0, 0, 0, 1, 1]),
        (&slice, &array, [0, 0, 0, 0, 0]),
        (&slice, &slice, [1, 1, 1, 0, 1]),
    ];
    for (a, b, expected) in table {
        let found = [1, 3, 4, 5, 6].map(|relation| answer(RELATIONS + relation, a, b).value);
        smoke.same("the table of document 01", found, expected);
    }
    let slice_pointer = [[17, 0, 0], UINT8].concat();
    smoke.same(
        "by address",
        answer(RELATIONS + 5, &array, &slice_pointer).value,
        2,
    );
    let (char8, uint8) = (of(&CHAR8), of(&UINT8));
    smoke.same("Char8 is Uint8", ask::equals(&char8, &uint8), true);
    smoke.same("its alias", ask::is_alias_of(&char8, &uint8), true);
    smoke.same("not back", ask::is_alias_of(&uint8, &char8), false);
    smoke.same("not declared as", char8.can_be_declared_as(&uint8), false);
    smoke.same(
        "like",
        ask::is_like(&of(&array), &in_layer(19, &char8)),
        true,
    );
    smoke.same(
        "sub-autoderefs",
        ask::can_subautoderef_into(&view(&char8), &uint8),
        true,
    );
    smoke.same("identical", answer(RELATIONS, &array, &array).value, 1);
    smoke.same(
        "the right one bad",
        answer(RELATIONS, &array, &[3]).refusal,
        1,
    );
    smoke.same("inner", ask::is_wellformed_inner(&view(&char8)), false);
    smoke.same(
        "element",
        ask::is_wellformed_element(&in_layer(18, &char8)),
        false,
    );
}
