//! The few types and records that are looked at.

use crate::original::prelude::ValueType;
use crate::original::typer::ask::Record;
use crate::original::words::{check, decode, encode};

pub const INT32: [u64; 3] = [3, 0, 0];
pub const UINT8: [u64; 3] = [6, 0, 0];
pub const CHAR8: [u64; 3] = [12, 0, 0];

pub fn of(words: &[u64]) -> ValueType {
    decode(&check(words).expect("good words"))
}

pub fn int32() -> ValueType {
    of(&INT32)
}

/// One layer of this kind, without name and number, around a type.
pub fn in_layer(kind: u64, inner: &ValueType) -> ValueType {
    of(&[vec![kind, 0, 0], encode(inner)].concat())
}

pub fn pointer(inner: &ValueType) -> ValueType {
    in_layer(23, inner)
}

pub fn view(inner: &ValueType) -> ValueType {
    in_layer(24, inner)
}

pub fn record(id: u32, authority: bool, stored: Result<ValueType, u64>) -> Record {
    Record {
        id,
        authority,
        place: 10,
        stored,
    }
}
