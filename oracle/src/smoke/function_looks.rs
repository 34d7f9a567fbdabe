//! A look at every function of value_type.rs. Which functions there are is read off its text, so one that
//! is not called here is told.

use super::count::Smoke;
use super::few_types::*;
use crate::original::prelude::ValueType;
use crate::original::value_type::ask;

const TEXT: &str = include_str!("../../penne/value_type.rs");

/// The names of the functions that the text has.
fn functions() -> Vec<&'static str> {
    TEXT.lines()
        .filter_map(|line| {
            let line = line.trim_start();
            let line = line.strip_prefix("pub ").unwrap_or(line);
            line.strip_prefix("fn ")?.split('(').next()
        })
        .collect()
}

struct Looks<'a> {
    smoke: &'a mut Smoke,
    called: Vec<&'static str>,
}

/// Calls a function, compares what it returns, and notes its name. `ask` has the private ones.
macro_rules! look {
    ($looks:ident, $of:ident :: $name:ident ( $($given:expr),* ), $expected:expr) => {
        $looks.called.push(stringify!($name));
        $looks.smoke.same(stringify!($name), $of::$name($($given),*), $expected);
    };
}

pub fn every_function(smoke: &mut Smoke) {
    let mut looks = Looks {
        smoke,
        called: Vec::new(),
    };
    outsides(&mut looks);
    roles(&mut looks);
    parts(&mut looks);
    numbers(&mut looks);
    relations(&mut looks);
    coercions(&mut looks);
    strings(&mut looks);
    let Looks { smoke, called } = looks;
    let all = functions();
    smoke.same("how many functions there are", all.len(), 36);
    let missing: Vec<&str> = all.into_iter().filter(|f| !called.contains(f)).collect();
    smoke.same("functions that are not called", missing, vec![]);
}

fn outsides(looks: &mut Looks) {
    let (void, char8, uint8) = (of(&[0, 0, 0]), of(&CHAR8), of(&UINT8));
    let (slice, slice_pointer) = (in_layer(16, &char8), in_layer(17, &char8));
    look!(looks, ValueType::is_void(&void), true);
    look!(looks, ValueType::is_void(&char8), false);
    look!(looks, ValueType::is_integral(&uint8), true);
    look!(looks, ValueType::is_integral(&char8), false);
    look!(looks, ValueType::is_signed(&int32()), true);
    look!(looks, ValueType::is_signed(&uint8), false);
    look!(looks, ValueType::is_bitfield(&uint8), true);
    look!(looks, ValueType::is_bitfield(&int32()), false);
    look!(looks, ValueType::is_slice_pointer(&slice_pointer), true);
    look!(looks, ValueType::is_slice_pointer(&slice), false);
    look!(looks, ValueType::is_wellformed(&slice), true);
    look!(looks, ValueType::is_wellformed(&pointer(&slice)), false);
    look!(looks, ask::is_wellformed_inner(&pointer(&char8)), true);
    look!(looks, ask::is_wellformed_inner(&view(&char8)), false);
    look!(looks, ask::is_wellformed_element(&char8), true);
    look!(looks, ask::is_wellformed_element(&void), false);
    look!(looks, ask::can_be_element(&pointer(&void)), true);
    look!(looks, ask::can_be_element(&slice), false);
}

/// Of each role a type that has it and one that has not.
fn roles(looks: &mut Looks) {
    let (slice, array) = (in_layer(16, &int32()), of(&[[14, 0, 3], INT32].concat()));
    let (void, structure) = (of(&[0, 0, 0]), of(&[20, 1, 0]));
    look!(looks, ValueType::can_be_sized(&array), true);
    look!(looks, ValueType::can_be_sized(&slice), false);
    look!(looks, ValueType::can_be_struct_member(&array), true);
    look!(looks, ValueType::can_be_struct_member(&slice), false);
    look!(looks, ValueType::can_be_word_member(&int32()), true);
    look!(looks, ValueType::can_be_word_member(&array), false);
    look!(looks, ValueType::can_be_constant(&view(&array)), true);
    look!(looks, ValueType::can_be_constant(&slice), false);
    look!(looks, ValueType::can_be_variable(&slice), true);
    look!(looks, ValueType::can_be_variable(&view(&array)), false);
    look!(looks, ValueType::can_be_parameter(&slice), true);
    look!(looks, ValueType::can_be_parameter(&array), false);
    look!(looks, ValueType::can_be_returned(&void), true);
    look!(looks, ValueType::can_be_returned(&structure), false);
}

fn parts(looks: &mut Looks) {
    let int = int32();
    let (slice, both) = (in_layer(16, &int), pointer(&view(&int)));
    look!(looks, ValueType::get_element_type(&slice), Some(int32()));
    look!(looks, ValueType::get_element_type(&both), None);
    look!(looks, ValueType::get_pointee_type(&both), Some(view(&int)));
    look!(looks, ValueType::get_pointee_type(&slice), None);
    look!(
        looks,
        ValueType::get_viewee_type(&view(&int)),
        Some(int32())
    );
    look!(looks, ValueType::get_viewee_type(&both), None);
    look!(looks, ValueType::fully_dereferenced(&both), int32());
    look!(looks, ValueType::fully_dereferenced(&slice), slice.clone());
}

fn numbers(looks: &mut Looks) {
    let (int8, both) = (of(&[1, 0, 0]), pointer(&view(&int32())));
    let slice_pointer = pointer(&in_layer(17, &int8));
    look!(looks, ValueType::pointer_depth(&both), 1);
    look!(looks, ValueType::pointer_depth(&slice_pointer), 2);
    look!(looks, ask::add_pointer_depth(&both, 5), 6);
    look!(
        looks,
        ValueType::known_size_in_bytes_as_word_member(&int32()),
        Some(4)
    );
    look!(
        looks,
        ValueType::known_size_in_bytes_as_word_member(&both),
        None
    );
    look!(looks, ValueType::min_i128(&int8), -128);
    look!(looks, ValueType::min_i128(&both), 0);
    look!(looks, ValueType::max_u128(&int8), 127);
    look!(looks, ValueType::max_u128(&both), u64::MAX as u128);
}

/// Of each relation two types that stand so to each other and two that do not.
fn relations(looks: &mut Looks) {
    let (char8, uint8) = (of(&CHAR8), of(&UINT8));
    let array = of(&[[14, 0, 3], CHAR8].concat());
    let arraylike = in_layer(19, &char8);
    look!(looks, ask::is_alias_of(&char8, &uint8), true);
    look!(looks, ask::is_alias_of(&uint8, &char8), false);
    look!(looks, ask::equals(&char8, &uint8), true);
    look!(looks, ask::equals(&array, &arraylike), false);
    look!(looks, ask::is_like(&array, &arraylike), true);
    look!(looks, ask::is_like(&arraylike, &array), false);
    look!(
        looks,
        ValueType::can_be_declared_as(&array, &arraylike),
        true
    );
    look!(
        looks,
        ValueType::can_be_declared_as(&arraylike, &array),
        false
    );
    look!(
        looks,
        ValueType::can_be_concretization_of(&array, &arraylike),
        true
    );
    look!(
        looks,
        ValueType::can_be_concretization_of(&arraylike, &array),
        false
    );
}

fn coercions(looks: &mut Looks) {
    let (char8, uint8) = (of(&CHAR8), of(&UINT8));
    let (array, slice) = (of(&[[14, 0, 3], CHAR8].concat()), in_layer(16, &uint8));
    let slice_pointer = in_layer(17, &char8);
    look!(looks, ValueType::can_coerce_into(&array, &slice), true);
    look!(looks, ValueType::can_coerce_into(&slice, &array), false);
    look!(
        looks,
        ValueType::can_coerce_address_into(&array, &slice_pointer),
        true
    );
    look!(
        looks,
        ValueType::can_coerce_address_into(&array, &slice),
        false
    );
    look!(looks, ValueType::can_autoderef_into(&array, &slice), true);
    look!(looks, ValueType::can_autoderef_into(&char8, &char8), false);
    look!(
        looks,
        ask::can_subautoderef_into(&view(&char8), &uint8),
        true
    );
    look!(looks, ask::can_subautoderef_into(&char8, &uint8), false);
}

fn strings(looks: &mut Looks) {
    let (array, slice) = (of(&[[14, 0, 3], CHAR8].concat()), in_layer(16, &of(&CHAR8)));
    look!(looks, ValueType::for_string_literal(3), array.clone());
    look!(looks, ValueType::for_string_slice(), slice.clone());
}
