//! What stands around the functions cut out of Penne's typer.rs: our own text, in the shapes of
//! Penne's common.rs and error.rs, and no more than those functions touch.

use super::value_type;
use std::cell::Cell;

pub type ValueType = value_type::ValueType<Identifier>;
pub type Poisonable<T> = Result<T, Poison>;

/// A record's place.
#[derive(Debug, Clone, PartialEq, Default)]
pub struct Location {
    pub place: u64,
}

#[derive(Debug, Clone)]
pub struct Identifier {
    pub name: String,
    pub location: Location,
    pub resolution_id: u32,
    pub is_authoritative: bool,
}

impl Identifier {
    pub fn new(resolution_id: u32, is_authoritative: bool, place: u64) -> Self {
        Identifier {
            name: String::new(),
            location: Location { place },
            resolution_id,
            is_authoritative,
        }
    }
}

impl value_type::Identifier for Identifier {}

/// Document 01: names are compared by their id alone. (Penne's own comparison goes by the location
/// where the left id is 0.)
impl PartialEq for Identifier {
    fn eq(&self, other: &Identifier) -> bool {
        self.resolution_id == other.resolution_id
    }
}

#[derive(Debug, Clone)]
pub enum Poison {
    Error(Error),
    Poisoned,
}

#[derive(Debug, Clone)]
pub enum Error {
    ConflictingTypes {
        name: String,
        current_type: ValueType,
        previous_type: ValueType,
        location: Location,
        previous: Location,
    },
    AddressOfTemporaryAddress {
        location: Location,
        location_of_unaddressed: Location,
        type_of_unaddressed: ValueType,
    },
    TypeNotAllowedInExtern {
        value_type: ValueType,
        location_of_type: Location,
        location_of_declaration: Location,
    },
    /// Not in Penne: stands for the error of a record with this poison mark.
    Marked { mark: u64 },
}

#[derive(Debug, Clone)]
pub enum Expression {
    Deref {
        reference: Reference,
        deref_type: Option<Poisonable<ValueType>>,
    },
    Autocoerce {
        expression: Box<Expression>,
        coerced_type: ValueType,
    },
    Poison(Poison),
    /// Not in Penne: stands for the argument of an Element step with this handle.
    Argument {
        handle: u32,
    },
}

#[derive(Debug, Clone)]
pub enum DesliceOffset {
    ArrayByView,
    ArrayByPointer,
    Length,
}

#[derive(Debug, Clone)]
pub enum ReferenceStep {
    Element {
        argument: Box<Expression>,
        is_endless: Option<bool>,
    },
    Member {
        member: Identifier,
        offset: Option<usize>,
    },
    Autodeslice {
        offset: DesliceOffset,
    },
    Autoderef,
    Autoview,
}

#[derive(Debug, Clone)]
pub struct Reference {
    pub base: Poisonable<Identifier>,
    pub steps: Vec<ReferenceStep>,
    pub address_depth: u8,
    pub location: Location,
    pub location_of_unaddressed: Location,
}

#[derive(Debug, Clone)]
pub struct Member {
    pub name: Poisonable<Identifier>,
    pub value_type: Poisonable<ValueType>,
    pub location_of_type: Location,
}

#[derive(Debug, Clone, Copy, PartialEq, Eq)]
pub enum DeclarationFlag {
    External,
}

/// Stands for the enumset crate's, with its one question that is asked.
pub struct EnumSet<T>(pub Vec<T>);

impl<T: PartialEq> EnumSet<T> {
    pub fn contains(&self, value: T) -> bool {
        self.0.contains(&value)
    }
}

thread_local! {
    static ROUNDS: Cell<usize> = const { Cell::new(0) };
}

/// Stands for MAX_NUM_AUTODEREF_STEPS, which the rules make an argument.
pub fn rounds() -> usize {
    ROUNDS.get()
}

pub fn set_rounds(rounds: usize) {
    ROUNDS.set(rounds);
}
