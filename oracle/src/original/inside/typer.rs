//! The functions cut out of typer.rs, made callable. This is a child of the module that holds the
//! original's text. Where the original panics, document 01's number is given instead.

use super::{do_update_symbol, externalize_type, fix_type_for_flags, FixContext, Symbol, Typer};
use crate::original::caught::caught;
use crate::original::prelude::*;
use crate::original::words::{encode, Refusal};

/// A record that is typed or, by its mark, poisoned.
#[derive(Debug, Clone, PartialEq)]
pub struct Record {
    pub id: u32,
    pub authority: bool,
    pub place: u64,
    pub stored: Result<ValueType, u64>,
}

/// Mark 0 is plain poison.
fn poison(mark: u64) -> Poison {
    match mark {
        0 => Poison::Poisoned,
        mark => Poison::Error(Error::Marked { mark }),
    }
}

fn mark(poison: &Poison) -> u64 {
    match poison {
        Poison::Poisoned => 0,
        Poison::Error(Error::Marked { mark }) => *mark,
        Poison::Error(error) => panic!("poison that was never lent: {error:?}"),
    }
}

pub(super) fn symbol(record: &Record) -> Symbol {
    Symbol {
        identifier: Identifier::new(record.id, record.authority, record.place),
        value_type: record.stored.clone().map_err(poison),
    }
}

fn record(symbol: &Symbol) -> Record {
    Record {
        id: symbol.identifier.resolution_id,
        authority: symbol.identifier.is_authoritative,
        place: symbol.identifier.location.place,
        stored: match &symbol.value_type {
            Ok(stored) => Ok(stored.clone()),
            Err(poison) => Err(mark(poison)),
        },
    }
}

fn number(error: &Error) -> u64 {
    match error {
        Error::TypeNotAllowedInExtern { .. } => 6,
        Error::ConflictingTypes { .. } => 7,
        Error::AddressOfTemporaryAddress { .. } => 9,
        Error::Marked { .. } => panic!("an error that Penne has not"),
    }
}

/// The record after the update.
pub fn update(old: &Record, name: &Identifier, offered: &ValueType) -> Result<Record, u64> {
    let mut symbol = symbol(old);
    match caught(|| do_update_symbol(&mut symbol, name, offered.clone())) {
        Ok(Ok(())) => Ok(record(&symbol)),
        Ok(Err(error)) => Err(number(&error)),
        Err(number) => Err(number),
    }
}

/// A typer of which only the symbol table is used.
#[derive(Default)]
pub struct Table(pub(super) Typer);

impl Table {
    pub fn new(records: &[Record]) -> Self {
        let mut typer = Typer::default();
        for record in records {
            typer.symbols.insert(record.id, symbol(record));
        }
        Table(typer)
    }

    pub fn record(&self, id: u32) -> Option<Record> {
        self.0.symbols.get(&id).map(record)
    }

    pub fn len(&self) -> usize {
        self.0.symbols.len()
    }

    /// A type, a poison mark, or nothing.
    pub fn put(
        &mut self,
        name: &Identifier,
        put: Option<Result<ValueType, u64>>,
    ) -> Result<(), u64> {
        let put = put.map(|value| value.map_err(poison));
        match caught(|| self.0.put_symbol(name, put)) {
            Ok(Ok(())) => Ok(()),
            Ok(Err(error)) => Err(number(&error)),
            Err(number) => Err(number),
        }
    }

    pub fn poison(&mut self, name: &Identifier, mark: u64) {
        self.0.poison_symbol(name, poison(mark))
    }

    pub fn forward_declare(&mut self, name: &Identifier, value: Result<ValueType, u64>) {
        self.0.forward_declare_symbol(name, value.map_err(poison))
    }

    pub fn get(&self, name: &Identifier) -> Option<Result<ValueType, u64>> {
        let found = self.0.get_symbol(name)?;
        Some(found.map_err(|poison| mark(&poison)))
    }
}

/// What is not fixed: a number, and its place. That of 6 follows from the part that the original's
/// error names, since every layer of the type given is one of its own or outside of it.
fn not_fixed(value_type: &ValueType, error: &Error) -> Refusal {
    let place = match error {
        Error::TypeNotAllowedInExtern { value_type: part, .. } => {
            (encode(value_type).len() - encode(part).len()) / 3
        }
        _ => 0,
    };
    (number(error), place as u64)
}

/// Contexts in document 01's numbers, which are not the order of the enum.
pub fn fix(value_type: &ValueType, external: bool, context: u64) -> Result<ValueType, Refusal> {
    let context = match context {
        0 => FixContext::Const,
        1 => FixContext::Parameter,
        2 => FixContext::Returned,
        3 => FixContext::Member,
        _ => return Err((5, 0)),
    };
    let flags = EnumSet(if external {
        vec![DeclarationFlag::External]
    } else {
        Vec::new()
    });
    let none = Location::default();
    match caught(|| fix_type_for_flags(value_type.clone(), context, &flags, &none, &none)) {
        Ok(fixed) => fixed.map_err(|error| not_fixed(value_type, &error)),
        Err(number) => Err((number, 0)),
    }
}

pub fn externalize(value_type: &ValueType) -> Result<ValueType, u64> {
    let none = Location::default();
    match caught(|| externalize_type(value_type.clone(), &none, &none)) {
        Ok(fixed) => fixed.map_err(|error| number(&error)),
        Err(number) => Err(number),
    }
}

pub type Step = [u64; 4];

#[derive(Debug, Clone, PartialEq)]
pub struct Plan {
    pub steps: Vec<Step>,
    pub taken: usize,
    pub reported: ValueType,
    pub address: bool,
    pub coerced: bool,
}

/// A good asked step, from its words.
pub(super) fn step(words: &Step) -> ReferenceStep {
    match words[0] {
        0 => ReferenceStep::Element {
            argument: Box::new(Expression::Argument {
                handle: words[1] as u32,
            }),
            is_endless: match words[2] {
                0 => None,
                1 => Some(false),
                2 => Some(true),
                mark => panic!("an Element with mark {mark}"),
            },
        },
        1 => ReferenceStep::Member {
            member: Identifier::new(words[1] as u32, false, 0),
            offset: (words[2] == 1).then_some(words[3] as usize),
        },
        2 => ReferenceStep::Autodeslice {
            offset: match words[2] {
                0 => DesliceOffset::ArrayByView,
                1 => DesliceOffset::ArrayByPointer,
                2 => DesliceOffset::Length,
                mark => panic!("an Autodeslice with mark {mark}"),
            },
        },
        3 => ReferenceStep::Autoderef,
        4 => ReferenceStep::Autoview,
        kind => panic!("a step of kind {kind}"),
    }
}

fn step_words(step: &ReferenceStep) -> Step {
    match step {
        ReferenceStep::Element {
            argument,
            is_endless,
        } => {
            let handle = match argument.as_ref() {
                Expression::Argument { handle } => *handle as u64,
                other => panic!("an argument that was never lent: {other:?}"),
            };
            let mark = match is_endless {
                None => 0,
                Some(false) => 1,
                Some(true) => 2,
            };
            [0, handle, mark, 0]
        }
        ReferenceStep::Member { member, offset } => [
            1,
            member.resolution_id as u64,
            offset.is_some() as u64,
            offset.unwrap_or(0) as u64,
        ],
        ReferenceStep::Autodeslice { offset } => {
            let mark = match offset {
                DesliceOffset::ArrayByView => 0,
                DesliceOffset::ArrayByPointer => 1,
                DesliceOffset::Length => 2,
            };
            [2, 0, mark, 0]
        }
        ReferenceStep::Autoderef => [3, 0, 0, 0],
        ReferenceStep::Autoview => [4, 0, 0, 0],
    }
}

/// The plan that `autoderef` makes. The original ends by putting the type of the whole reference
/// into the table; here it does so in a copy, under an id that no record has, so that this last
/// act is always accepted and never seen.
pub fn plan(
    known: &ValueType,
    asked: &[Step],
    target: &ValueType,
    address_depth: u8,
    rounds: usize,
    members: &[Record],
) -> Result<Plan, u64> {
    let mut table = Table::new(members);
    let free = (0..=u32::MAX).find(|id| table.record(*id).is_none());
    let reference = Reference {
        base: Ok(Identifier::new(free.unwrap(), false, 0)),
        steps: asked.iter().map(step).collect(),
        address_depth,
        location: Location::default(),
        location_of_unaddressed: Location::default(),
    };
    set_rounds(rounds);
    let (known, target) = (known.clone(), target.clone());
    let made = caught(|| reference.autoderef(known, target, &mut table.0))?;
    let (made, coerced) = match made {
        Expression::Autocoerce { expression, .. } => (*expression, true),
        made => (made, false),
    };
    match made {
        Expression::Deref {
            reference,
            deref_type: Some(Ok(reported)),
        } => {
            let steps: Vec<Step> = reference.steps.iter().map(step_words).collect();
            Ok(Plan {
                // The original adds no Element and no Member of its own.
                taken: steps.iter().filter(|step| step[0] <= 1).count(),
                steps,
                reported,
                address: reference.address_depth == 1,
                coerced,
            })
        }
        Expression::Poison(Poison::Error(error)) => Err(number(&error)),
        other => panic!("an expression that autoderef cannot make: {other:?}"),
    }
}
