//! The private questions of value_type.rs, made callable. This is a child of the module that holds
//! the original's text.

use super::{Identifier, ValueType};

pub fn is_alias_of<I: Identifier>(a: &ValueType<I>, b: &ValueType<I>) -> bool {
    a.is_alias_of(b)
}

pub fn equals<I: Identifier>(a: &ValueType<I>, b: &ValueType<I>) -> bool {
    a.equals(b)
}

pub fn is_like<I: Identifier>(a: &ValueType<I>, b: &ValueType<I>) -> bool {
    a.is_like(b)
}

pub fn can_subautoderef_into<I: Identifier>(a: &ValueType<I>, b: &ValueType<I>) -> bool {
    a.can_subautoderef_into(b)
}

pub fn is_wellformed_inner<I: Identifier>(a: &ValueType<I>) -> bool {
    a.is_wellformed_inner()
}

pub fn can_be_element<I: Identifier>(a: &ValueType<I>) -> bool {
    a.can_be_element()
}

pub fn add_pointer_depth<I: Identifier>(a: &ValueType<I>, total: usize) -> usize {
    a.add_pointer_depth(total)
}

pub fn is_wellformed_element<I: Identifier>(a: &ValueType<I>) -> bool {
    a.is_wellformed_element()
}
