//! The looks at extern fixing.

use super::count::Smoke;
use super::few_types::*;
use crate::original::typer::ask::{externalize, fix};

pub fn externs(smoke: &mut Smoke) {
    let arraylike = in_layer(19, &int32());
    let endless = in_layer(18, &int32());
    let structure = of(&[20, 1, 0]);
    smoke.same("extern", fix(&arraylike, true, 1), Ok(view(&endless)));
    smoke.same(
        "not extern",
        fix(&arraylike, false, 1),
        Ok(in_layer(16, &int32())),
    );
    smoke.same(
        "SlicePointer",
        fix(&pointer(&arraylike), false, 0),
        Ok(in_layer(17, &int32())),
    );
    for (context, expected) in [
        (0, Ok(structure.clone())),
        (1, Ok(view(&structure))),
        (2, Ok(view(&structure))),
        (3, Ok(structure.clone())),
        (4, Err((5, 0))),
    ] {
        smoke.same(
            "a Struct's context",
            fix(&structure, false, context),
            expected,
        );
    }
    smoke.same("Struct in extern", fix(&structure, true, 0), Err((6, 0)));
    smoke.same(
        "externalized",
        externalize(&pointer(&arraylike)),
        Ok(pointer(&endless)),
    );
    smoke.same("Bool in extern", externalize(&of(&[13, 0, 0])), Err(6));
    smoke.same(
        "ill formed",
        externalize(&in_layer(19, &view(&int32()))),
        Err(4),
    );
}
