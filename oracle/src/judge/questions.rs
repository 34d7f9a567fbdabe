//! The questions of the header's sections Types, Relations and Extern fixing, in its order, each
//! answered by the original.

use crate::original::prelude::ValueType;
use crate::original::typer::ask::fix;
use crate::original::value_type::ask;
use crate::original::words::{check, decode, encode, stored_size, Layer, Refusal};

#[derive(Debug, Clone, PartialEq)]
pub struct Answer {
    pub refusal: u64,
    pub value: u64,
    /// What the outputs get; empty where they are kept.
    pub written: Vec<u64>,
}

pub enum Question {
    Number(fn(&ValueType) -> u64),
    Role(fn(&ValueType) -> bool),
    /// An inner type, as the word at which it starts, or 0 for none.
    Inner(fn(&ValueType) -> Option<ValueType>),
    /// Written where there is one.
    Size(fn(&ValueType) -> Option<u64>),
    /// The same, with pointers of so many bytes; the error is a refusal.
    Stored(fn(&[Layer], u64) -> Result<Option<u64>, u64>),
    /// Written as low and high half.
    Halves(fn(&ValueType) -> u128),
    /// 1 for yes; of `coerces`, one of three numbers.
    Relation(fn(&ValueType, &ValueType) -> u64),
    /// The type made is written from the output's first word on.
    Fix(fn(&ValueType, bool, u64) -> Result<ValueType, Refusal>),
}

use Question::{Fix, Halves, Inner, Number, Relation, Role, Size, Stored};

pub const QUESTIONS: [(&str, Question); 32] = [
    ("check", Number(|t| encode(t).len() as u64 / 3)),
    ("is_wellformed", Role(|t| t.is_wellformed())),
    ("is_void", Role(|t| t.is_void())),
    ("is_integral", Role(|t| t.is_integral())),
    ("is_signed", Role(|t| t.is_signed())),
    ("is_bitfield", Role(|t| t.is_bitfield())),
    ("is_slice_pointer", Role(|t| t.is_slice_pointer())),
    ("can_be_sized", Role(|t| t.can_be_sized())),
    ("can_be_struct_member", Role(|t| t.can_be_struct_member())),
    ("can_be_word_member", Role(|t| t.can_be_word_member())),
    ("can_be_constant", Role(|t| t.can_be_constant())),
    ("can_be_variable", Role(|t| t.can_be_variable())),
    ("can_be_parameter", Role(|t| t.can_be_parameter())),
    ("can_be_returned", Role(|t| t.can_be_returned())),
    ("get_element_type", Inner(|t| t.get_element_type())),
    ("get_pointee_type", Inner(|t| t.get_pointee_type())),
    ("get_viewee_type", Inner(|t| t.get_viewee_type())),
    (
        "fully_dereferenced",
        Inner(|t| Some(t.fully_dereferenced())),
    ),
    ("pointer_depth", Number(|t| t.pointer_depth() as u64)),
    (
        "known_size_in_bytes_as_word_member",
        Size(|t| {
            t.known_size_in_bytes_as_word_member()
                .map(|size| size as u64)
        }),
    ),
    ("stored_size", Stored(stored_size)),
    ("min_i128", Halves(|t| t.min_i128() as u128)),
    ("max_u128", Halves(|t| t.max_u128())),
    ("identical", Relation(|a, b| (a == b).into())),
    ("equals", Relation(|a, b| ask::equals(a, b).into())),
    ("is_like", Relation(|a, b| ask::is_like(a, b).into())),
    (
        "can_be_declared_as",
        Relation(|a, b| a.can_be_declared_as(b).into()),
    ),
    (
        "can_be_concretization_of",
        Relation(|a, b| a.can_be_concretization_of(b).into()),
    ),
    ("coerces", Relation(coerces)),
    (
        "can_autoderef_into",
        Relation(|a, b| a.can_autoderef_into(b).into()),
    ),
    (
        "can_subautoderef_into",
        Relation(|a, b| ask::can_subautoderef_into(a, b).into()),
    ),
    ("fix_type_for_flags", Fix(fix)),
];

/// Asked of a type and a width.
pub const STORED: usize = 20;

/// The two widths, and some that are none.
pub const WIDTHS: [u64; 8] = [4, 8, 0, 1, 2, 5, 16, u64::MAX];

/// Those before are asked of one type, those from here on of two.
pub const RELATIONS: usize = 23;

/// Asked of a type and three numbers: 1 where it is extern, the context, the output's words.
pub const FIXING: usize = 31;

/// The answer to a question about the words a and, for a relation, b; for the stored size, b is the width;
/// for fixing, the numbers.
pub fn answer(question: usize, a: &[u64], b: &[u64]) -> Answer {
    let refused = |(refusal, value)| Answer {
        refusal,
        value,
        written: Vec::new(),
    };
    let layers = match check(a) {
        Ok(layers) => layers,
        Err(refusal) => return refused(refusal),
    };
    let left = decode(&layers);
    let (value, written) = match &QUESTIONS[question].1 {
        Number(ask) => (ask(&left), Vec::new()),
        Role(ask) => (ask(&left) as u64, Vec::new()),
        Inner(ask) => (
            ask(&left).map_or(0, |inner| start_of(&inner, a)),
            Vec::new(),
        ),
        Size(ask) => sized(ask(&left)),
        Stored(ask) => match ask(&layers, b[0]) {
            Ok(size) => sized(size),
            Err(number) => return refused((number, 0)),
        },
        Halves(ask) => {
            let whole = ask(&left);
            (0, vec![whole as u64, (whole >> 64) as u64])
        }
        Relation(ask) => match check(b) {
            Ok(layers) => (ask(&left, &decode(&layers)), Vec::new()),
            Err(refusal) => return refused(refusal),
        },
        // The original knows neither 15 nor 14.
        Fix(ask) => match ask(&left, b[0] == 1, b[1]).map(|made| encode(&made)) {
            Ok(made) if made.len() > 48 => return refused((15, 0)),
            Ok(made) if made.len() as u64 > b[2] => return refused((14, 0)),
            Ok(made) => (made.len() as u64, made),
            Err(refusal) => return refused(refusal),
        },
    };
    Answer {
        refusal: 0,
        value,
        written,
    }
}

/// 1 and the size, or 0 and nothing.
fn sized(size: Option<u64>) -> (u64, Vec<u64>) {
    (size.is_some() as u64, size.into_iter().collect())
}

/// 0 where a type does not coerce into another, 1 as a value, 2 by its address. The original has two
/// questions for it, and both are asked of every pair.
pub fn coerces(a: &ValueType, b: &ValueType) -> u64 {
    match (a.can_coerce_into(b), a.can_coerce_address_into(b)) {
        (false, false) => 0,
        (true, false) => 1,
        (false, true) => 2,
        (true, true) => panic!("both of the original's questions say yes"),
    }
}

/// The word at which an inner type starts, which must be the rest of the words.
fn start_of(inner: &ValueType, words: &[u64]) -> u64 {
    let inner = encode(inner);
    let start = words.len() - inner.len();
    assert!(words[start..] == inner[..], "an inner type of other words");
    start as u64
}
