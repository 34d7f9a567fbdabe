//! A type's words, as document 01 writes them: the checks 1 to 3, with the place of 2 as document 02's
//! letter e has it, and to and from the original's type. Stored size, which the original has not, is
//! written from document 01 and document 02's letter g.

use super::prelude::{Identifier, ValueType};

pub const INT8: u64 = 1;
pub const UINT8: u64 = 6;
pub const CHAR8: u64 = 12;
pub const BOOL: u64 = 13;
pub const ARRAY: u64 = 14;
pub const NAMED: u64 = 15;
pub const SLICE: u64 = 16;
pub const SLICE_POINTER: u64 = 17;
pub const ENDLESS: u64 = 18;
pub const ARRAYLIKE: u64 = 19;
pub const STRUCT: u64 = 20;
pub const WORD: u64 = 21;
pub const UNRESOLVED: u64 = 22;
pub const POINTER: u64 = 23;
pub const VIEW: u64 = 24;

/// The kinds that hold an inner type.
pub const OUTERS: [u64; 8] = [
    ARRAY,
    NAMED,
    SLICE,
    SLICE_POINTER,
    ENDLESS,
    ARRAYLIKE,
    POINTER,
    VIEW,
];

pub type Layer = [u64; 3];

/// The most layers of a type.
pub const MOST_LAYERS: usize = 16;

/// A document's number and place.
pub type Refusal = (u64, u64);

pub fn is_leaf(kind: u64) -> bool {
    kind < ARRAY || (STRUCT..=UNRESOLVED).contains(&kind)
}

pub fn is_good(layer: &Layer) -> bool {
    let [kind, name, number] = *layer;
    let is_name = name <= u32::MAX as u64;
    match kind {
        ARRAY => name == 0,
        NAMED | STRUCT => is_name && number == 0,
        WORD => is_name,
        UNRESOLVED => number == 1 && is_name || number == 0 && name == 0,
        0..=VIEW => name == 0 && number == 0,
        _ => false,
    }
}

/// The first bad word of a layer, as document 02's letter e has it; none where the layer is good.
pub fn bad_word(layer: &Layer) -> Option<usize> {
    let [kind, name, number] = *layer;
    if kind > VIEW {
        return Some(0);
    }
    let names = match (kind, number) {
        (NAMED | STRUCT | WORD, _) | (UNRESOLVED, 1..) => 0..=u32::MAX as u64,
        _ => 0..=0,
    };
    let numbers = match kind {
        ARRAY | WORD => 0..=u64::MAX,
        UNRESOLVED => 0..=1,
        _ => 0..=0,
    };
    if !names.contains(&name) {
        Some(1)
    } else if !numbers.contains(&number) {
        Some(2)
    } else {
        None
    }
}

/// Checks 1, 2 and 3: the layers, or the first refusal.
pub fn check(words: &[u64]) -> Result<Vec<Layer>, Refusal> {
    if words.is_empty() || words.len() > 3 * MOST_LAYERS || words.len() % 3 != 0 {
        return Err((1, 0));
    }
    let layers: Vec<Layer> = words.chunks(3).map(|w| [w[0], w[1], w[2]]).collect();
    if let Some(place) = layers.iter().position(|layer| !is_good(layer)) {
        let word = bad_word(&layers[place]).expect("a bad layer has a bad word");
        return Err((2, (3 * place + word) as u64));
    }
    let last = layers.len() - 1;
    let misplaced = |place: usize| is_leaf(layers[place][0]) != (place == last);
    match (0..=last).find(|place| misplaced(*place)) {
        Some(place) => Err((3, place as u64)),
        None => Ok(layers),
    }
}

/// The type of layers that pass the checks.
pub fn decode(layers: &[Layer]) -> ValueType {
    let [kind, name, number] = layers[0];
    let identifier = Identifier::new(name as u32, false, 0);
    let inner = || Box::new(decode(&layers[1..]));
    match kind {
        0 => ValueType::Void,
        1 => ValueType::Int8,
        2 => ValueType::Int16,
        3 => ValueType::Int32,
        4 => ValueType::Int64,
        5 => ValueType::Int128,
        6 => ValueType::Uint8,
        7 => ValueType::Uint16,
        8 => ValueType::Uint32,
        9 => ValueType::Uint64,
        10 => ValueType::Uint128,
        11 => ValueType::Usize,
        12 => ValueType::Char8,
        13 => ValueType::Bool,
        14 => ValueType::Array {
            element_type: inner(),
            length: number as usize,
        },
        15 => ValueType::ArrayWithNamedLength {
            element_type: inner(),
            named_length: identifier,
        },
        16 => ValueType::Slice {
            element_type: inner(),
        },
        17 => ValueType::SlicePointer {
            element_type: inner(),
        },
        18 => ValueType::EndlessArray {
            element_type: inner(),
        },
        19 => ValueType::Arraylike {
            element_type: inner(),
        },
        20 => ValueType::Struct { identifier },
        21 => ValueType::Word {
            identifier,
            size_in_bytes: number as usize,
        },
        22 => ValueType::UnresolvedStructOrWord {
            identifier: (number == 1).then_some(identifier),
        },
        23 => ValueType::Pointer {
            deref_type: inner(),
        },
        24 => ValueType::View {
            deref_type: inner(),
        },
        kind => panic!("kind {kind} passed the checks"),
    }
}

pub fn encode(value_type: &ValueType) -> Vec<u64> {
    let mut words = Vec::new();
    let mut rest = Some(value_type);
    while let Some(outer) = rest {
        let (layer, inner) = outer_layer(outer);
        words.extend(layer);
        rest = inner;
    }
    words
}

fn outer_layer(value_type: &ValueType) -> (Layer, Option<&ValueType>) {
    let id = |identifier: &Identifier| identifier.resolution_id as u64;
    match value_type {
        ValueType::Void => ([0, 0, 0], None),
        ValueType::Int8 => ([1, 0, 0], None),
        ValueType::Int16 => ([2, 0, 0], None),
        ValueType::Int32 => ([3, 0, 0], None),
        ValueType::Int64 => ([4, 0, 0], None),
        ValueType::Int128 => ([5, 0, 0], None),
        ValueType::Uint8 => ([6, 0, 0], None),
        ValueType::Uint16 => ([7, 0, 0], None),
        ValueType::Uint32 => ([8, 0, 0], None),
        ValueType::Uint64 => ([9, 0, 0], None),
        ValueType::Uint128 => ([10, 0, 0], None),
        ValueType::Usize => ([11, 0, 0], None),
        ValueType::Char8 => ([12, 0, 0], None),
        ValueType::Bool => ([13, 0, 0], None),
        ValueType::Array {
            element_type,
            length,
        } => ([14, 0, *length as u64], Some(element_type)),
        ValueType::ArrayWithNamedLength {
            element_type,
            named_length,
        } => ([15, id(named_length), 0], Some(element_type)),
        ValueType::Slice { element_type } => ([16, 0, 0], Some(element_type)),
        ValueType::SlicePointer { element_type } => ([17, 0, 0], Some(element_type)),
        ValueType::EndlessArray { element_type } => ([18, 0, 0], Some(element_type)),
        ValueType::Arraylike { element_type } => ([19, 0, 0], Some(element_type)),
        ValueType::Struct { identifier } => ([20, id(identifier), 0], None),
        ValueType::Word {
            identifier,
            size_in_bytes,
        } => ([21, id(identifier), *size_in_bytes as u64], None),
        ValueType::UnresolvedStructOrWord { identifier } => match identifier {
            Some(identifier) => ([22, id(identifier), 1], None),
            None => ([22, 0, 0], None),
        },
        ValueType::Pointer { deref_type } => ([23, 0, 0], Some(deref_type)),
        ValueType::View { deref_type } => ([24, 0, 0], Some(deref_type)),
    }
}

/// Stored size in bytes (added by document 01), with pointers of so many bytes, 4 or 8 (document 02's
/// letter g): Ok(None) is "no size", Err is refusal 5 or 17.
pub fn stored_size(layers: &[Layer], width: u64) -> Result<Option<u64>, u64> {
    match width {
        4 | 8 => measured(layers, width),
        _ => Err(5),
    }
}

fn measured(layers: &[Layer], width: u64) -> Result<Option<u64>, u64> {
    let [kind, _, number] = layers[0];
    Ok(match kind {
        1 | 6 | 12 | 13 => Some(1),
        2 | 7 => Some(2),
        3 | 8 => Some(4),
        4 | 9 => Some(8),
        5 | 10 => Some(16),
        11 | 23 | 24 => Some(width),
        16 | 17 => Some(width + width),
        WORD => Some(number),
        ARRAY => match measured(&layers[1..], width)? {
            Some(element) => Some(number.checked_mul(element).ok_or(17u64)?),
            None => None,
        },
        _ => None,
    })
}
