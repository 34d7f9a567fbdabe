//! Questions about one type: whether it is well formed, and the seven roles.

use super::measure::{repeated, Row};
use super::types::{count, Type};
use crate::face::type_face::*;
use crate::inputs::random::Random;
use crate::inputs::types::good_type;
use crate::original::prelude::ValueType;
use crate::original::words::decode;
use std::hint::black_box;

type Ours = unsafe extern "C" fn(*const u64, usize) -> Raw;
type Original = fn(&ValueType) -> bool;

const WELL_FORMED: [(Ours, Original); 1] = [(tj_is_wellformed, ValueType::is_wellformed)];

const ROLES: [(Ours, Original); 7] = [
    (tj_can_be_sized, ValueType::can_be_sized),
    (tj_can_be_struct_member, ValueType::can_be_struct_member),
    (tj_can_be_word_member, ValueType::can_be_word_member),
    (tj_can_be_constant, ValueType::can_be_constant),
    (tj_can_be_variable, ValueType::can_be_variable),
    (tj_can_be_parameter, ValueType::can_be_parameter),
    (tj_can_be_returned, ValueType::can_be_returned),
];

pub fn rows(random: &mut Random, show: &mut dyn FnMut(Row)) {
    for layers in [1, 4, 16] {
        let types = some_types(random, layers);
        let what = format!("well formed, {}", count(layers, "layer"));
        show(row(what, &WELL_FORMED, &types));
    }
}

/// Each of the seven asked of every type of a row; the types are well formed or not, as they come.
pub fn role_rows(random: &mut Random, show: &mut dyn FnMut(Row)) {
    for layers in [1, 4, 16] {
        let types: Vec<Type> = (0..32).map(|_| any_type(random, layers)).collect();
        let what = format!("the seven roles, {}", count(layers, "layer"));
        show(row(what, &ROLES, &types));
    }
}

fn any_type(random: &mut Random, layers: usize) -> Type {
    loop {
        let t = good_type(random, layers);
        if t.len() == layers {
            return Type::new(&t);
        }
    }
}

/// Every other one well formed, where there are others.
fn some_types(random: &mut Random, layers: usize) -> Vec<Type> {
    let mut types = Vec::new();
    while types.len() < 32 {
        let wanted = types.len() % 2 == 0;
        for tries in 0.. {
            let t = good_type(random, layers);
            let is_wanted = decode(&t).is_wellformed() == wanted || tries > 2_000;
            if t.len() == layers && is_wanted {
                types.push(Type::new(&t));
                break;
            }
        }
    }
    types
}

fn call(entry: Ours, t: &Type) -> Raw {
    unsafe { entry(t.words.as_ptr(), t.words.len()) }
}

fn row<'a>(what: String, questions: &'a [(Ours, Original)], types: &'a [Type]) -> Row<'a> {
    let mut yes = 0;
    for t in types {
        for (entry, asked) in questions {
            let original = asked(&t.original);
            let own = call(*entry, t);
            assert!(
                (own.refusal, own.value) == (0, original.into()),
                "{what}: {:?}",
                t.words
            );
            yes += usize::from(original);
        }
    }
    let calls = types.len() * questions.len();
    Row {
        what,
        yes: (yes, calls),
        aim: None,
        ours: repeated(calls, move || {
            for (entry, _) in questions {
                let entry = black_box(*entry);
                for t in types {
                    black_box(call(entry, t));
                }
            }
        }),
        original: repeated(calls, move || {
            for (_, asked) in questions {
                let asked = black_box(*asked);
                for t in types {
                    black_box(asked(&t.original));
                }
            }
        }),
    }
}
