//! The functions cut out of typer.rs as they are timed: nothing is converted, copied or caught around
//! them, and what they return is handed on whole, so that it can be dropped outside of the time. This
//! is a child of the module that holds the original's text.

use super::ask::{step, symbol, Record, Step, Table};
use super::{build_type_of_reference, do_update_symbol, fix_type_for_flags, FixContext, Symbol};
use crate::original::prelude::*;

/// A symbol that stands alone.
pub struct Lone(Symbol);

impl Lone {
    pub fn new(record: &Record) -> Self {
        Lone(symbol(record))
    }
}

#[inline(never)]
pub fn update(lone: &mut Lone, name: &Identifier, offered: ValueType) -> Result<(), Error> {
    do_update_symbol(&mut lone.0, name, offered)
}

#[inline(never)]
pub fn put(table: &mut Table, name: &Identifier, offered: ValueType) -> Result<(), Error> {
    table.0.put_symbol(name, Some(Ok(offered)))
}

#[inline(never)]
pub fn get(table: &Table, name: &Identifier) -> Option<Poisonable<ValueType>> {
    table.0.get_symbol(name)
}

/// A type to be fixed, in its context.
pub struct Declared(ValueType, FixContext);

impl Declared {
    pub fn new(value_type: ValueType, context: u64) -> Self {
        let context = match context {
            0 => FixContext::Const,
            1 => FixContext::Parameter,
            2 => FixContext::Returned,
            3 => FixContext::Member,
            _ => panic!("no context {context}"),
        };
        Declared(value_type, context)
    }
}

#[inline(never)]
pub fn fix(
    declared: Declared,
    flags: &EnumSet<DeclarationFlag>,
    place: &Location,
) -> Result<ValueType, Error> {
    fix_type_for_flags(declared.0, declared.1, flags, place, place)
}

/// The reference of a plan's question. `autoderef` ends by putting a type under its base.
pub fn reference(base: u32, asked: &[Step], address_depth: u8) -> Reference {
    Reference {
        base: Ok(Identifier::new(base, false, 0)),
        steps: asked.iter().map(step).collect(),
        address_depth,
        location: Location::default(),
        location_of_unaddressed: Location::default(),
    }
}

#[inline(never)]
pub fn plan(
    reference: Reference,
    known: ValueType,
    target: ValueType,
    table: &mut Table,
) -> Expression {
    reference.autoderef(known, target, &mut table.0)
}

/// What `autoderef` does after the plan is made, but for the put: the type of the whole reference.
#[inline(never)]
pub fn ending(reported: &ValueType, steps: &[ReferenceStep], address: bool) -> ValueType {
    let built = build_type_of_reference(Some(Ok(reported.clone())), steps, address);
    built.and_then(Result::ok).expect("a type")
}
