//! Calls each original function once or more, and looks at answers that document 01 names.

mod count;
mod extern_looks;
mod few_types;
mod function_looks;
mod plan_looks;
mod relation_looks;
mod symbol_looks;
mod type_looks;

use count::Smoke;

/// How many looks passed and how many failed.
pub fn smoke() -> (u64, u64) {
    let mut smoke = Smoke::default();
    type_looks::words(&mut smoke);
    type_looks::bad_words(&mut smoke);
    type_looks::types(&mut smoke);
    type_looks::stored_sizes(&mut smoke);
    function_looks::every_function(&mut smoke);
    relation_looks::relations(&mut smoke);
    symbol_looks::updates(&mut smoke);
    symbol_looks::table(&mut smoke);
    extern_looks::externs(&mut smoke);
    plan_looks::plans(&mut smoke);
    (smoke.passed, smoke.failed)
}
