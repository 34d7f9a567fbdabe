//! Relations of two types, at several numbers of layers; chains of Pointers and Views; and the tables of
//! all pairs of some types.

use super::measure::{repeated, Row};
use super::types::{beside, count, formed, Type};
use crate::face::type_face::*;
use crate::inputs::random::Random;
use crate::judge::sheets;
use crate::original::prelude::ValueType;
use crate::original::value_type::ask;
use crate::original::words::*;
use std::hint::black_box;

type Ours = unsafe extern "C" fn(*const u64, usize, *const u64, usize) -> Raw;
type Original = fn(&ValueType, &ValueType) -> u64;

#[derive(Clone, Copy)]
struct Relation {
    name: &'static str,
    ours: Ours,
    original: Original,
}

const AUTODEREFS: Relation = Relation {
    name: "autoderefs",
    ours: tj_can_autoderef_into,
    original: |a, b| a.can_autoderef_into(b).into(),
};

const RELATIONS: [Relation; 5] = [
    Relation {
        name: "equals",
        ours: tj_equals,
        original: |a, b| ask::equals(a, b).into(),
    },
    Relation {
        name: "declared as",
        ours: tj_can_be_declared_as,
        original: |a, b| a.can_be_declared_as(b).into(),
    },
    Relation {
        name: "concretization",
        ours: tj_can_be_concretization_of,
        original: |a, b| a.can_be_concretization_of(b).into(),
    },
    Relation {
        name: "coerces",
        ours: tj_coerces,
        original: one_or_the_other,
    },
    AUTODEREFS,
];

/// Both questions of the original: the second where the first says no.
fn one_or_the_other(a: &ValueType, b: &ValueType) -> u64 {
    if a.can_coerce_into(b) {
        return 1;
    }
    2 * u64::from(a.can_coerce_address_into(b))
}

/// 32 types of 16 layers, each 15 Pointers to a Struct of its own.
const POINTERS: &[u8] = include_bytes!("../../../examples/sheets/pointers.sheet");

type Pair = (Type, Type);

pub fn rows(random: &mut Random, show: &mut dyn FnMut(Row)) {
    for relation in RELATIONS {
        for layers in [1, 3, 4, 6, 16] {
            let pairs = some_pairs(random, relation, layers);
            let aim = (3..=6).contains(&layers).then_some(2.0);
            let what = format!("{}, {}", relation.name, count(layers, "layer"));
            show(row(what, aim, &[relation], &pairs));
        }
    }
    for layers in [4, 8, 12, 16] {
        let what = format!("autoderefs, chains of {layers}");
        let aim = (layers == 16).then_some(0.0001);
        show(row(what, aim, &[AUTODEREFS], &chains(layers)));
    }
    let pairs = squared(&some_types(random));
    show(row("a sheet of 32 types".into(), None, &RELATIONS, &pairs));
    let pairs = squared(&sheets::read(POINTERS).expect("a sheet"));
    let what = "the sheet pointers, its whole table".into();
    show(table(what, None, &RELATIONS, &pairs, 1));
}

/// Each shape of chain by itself, at every number of layers.
pub fn chain_rows(show: &mut dyn FnMut(Row)) {
    for (name, pair) in SHAPES {
        for layers in 2..=16 {
            let (a, b) = pair(layers);
            let what = format!("{name}, {layers} layers");
            show(row(what, None, &[AUTODEREFS], &[(a, b)]));
        }
    }
}

/// Timed by the question.
fn row<'a>(what: String, aim: Option<f64>, asked: &'a [Relation], pairs: &'a [Pair]) -> Row<'a> {
    table(what, aim, asked, pairs, asked.len() * pairs.len())
}

/// The answers to all questions count as so many calls.
fn table<'a>(
    what: String,
    aim: Option<f64>,
    asked: &'a [Relation],
    pairs: &'a [Pair],
    calls: usize,
) -> Row<'a> {
    Row {
        yes: (answered(&what, asked, pairs), asked.len() * pairs.len()),
        what,
        aim,
        ours: repeated(calls, move || {
            let asked = black_box(asked);
            for (a, b) in pairs {
                for relation in asked {
                    black_box(call(relation.ours, a, b));
                }
            }
        }),
        original: repeated(calls, move || {
            let asked = black_box(asked);
            for (a, b) in pairs {
                for relation in asked {
                    black_box((relation.original)(&a.original, &b.original));
                }
            }
        }),
    }
}

/// How many are answered yes, by both sides.
fn answered(what: &str, asked: &[Relation], pairs: &[Pair]) -> usize {
    let mut yes = 0;
    for relation in asked {
        for (a, b) in pairs {
            let original = (relation.original)(&a.original, &b.original);
            let raw = call(relation.ours, a, b);
            let own = (raw.refusal, raw.value);
            assert!(own == (0, original), "{what}: {:?}", (&a.words, &b.words));
            yes += usize::from(original != 0);
        }
    }
    yes
}

fn call(entry: Ours, a: &Type, b: &Type) -> Raw {
    let (a, b) = (&a.words, &b.words);
    // Two slices of their own vectors.
    unsafe { entry(a.as_ptr(), a.len(), b.as_ptr(), b.len()) }
}

/// As many pairs that are so related as pairs that are not, where there are any.
fn some_pairs(random: &mut Random, relation: Relation, layers: usize) -> Vec<Pair> {
    let mut pairs = Vec::new();
    for place in 0..32 {
        let wanted = place % 2 == 0;
        let mut tries = 0;
        loop {
            let a = formed(random, layers);
            let b = beside(random, &a);
            let (a, b) = (Type::new(&a), Type::new(&b));
            tries += 1;
            let related = (relation.original)(&a.original, &b.original) != 0;
            if related == wanted || tries > 2_000 {
                pairs.push((a, b));
                break;
            }
        }
    }
    pairs
}

const INT32: u64 = 3;
const INT64: u64 = 4;
const ALL_POINTERS: [u64; 2] = [POINTER, POINTER];

/// A leaf under layers of two kinds in turn.
fn chain(kinds: [u64; 2], layers: usize, leaf: u64) -> Type {
    let mut t: Vec<Layer> = (1..layers).map(|at| [kinds[(at - 1) % 2], 0, 0]).collect();
    t.push([leaf, 0, 0]);
    Type::new(&t)
}

/// What a chain of so many layers is asked about.
type Shape = (&'static str, fn(usize) -> Pair);

const SHAPES: [Shape; 7] = [
    ("Pointers into the same", |n| {
        (chain(ALL_POINTERS, n, INT32), chain(ALL_POINTERS, n, INT32))
    }),
    ("Pointers around another leaf", |n| {
        (chain(ALL_POINTERS, n, INT32), chain(ALL_POINTERS, n, INT64))
    }),
    ("Pointers into half as many", |n| {
        (
            chain(ALL_POINTERS, n, INT32),
            chain(ALL_POINTERS, n / 2, INT32),
        )
    }),
    ("Pointers into half as many around another leaf", |n| {
        (
            chain(ALL_POINTERS, n, INT32),
            chain(ALL_POINTERS, n / 2, INT64),
        )
    }),
    ("Pointers into their leaf", |n| {
        (chain(ALL_POINTERS, n, INT32), chain(ALL_POINTERS, 1, INT32))
    }),
    ("Pointers into a View of a leaf", |n| {
        (chain(ALL_POINTERS, n, INT32), chain([VIEW, VIEW], 2, INT64))
    }),
    ("Pointers and Views in turn into Views and Pointers", |n| {
        (
            chain([POINTER, VIEW], n, INT32),
            chain([VIEW, POINTER], n, INT64),
        )
    }),
];

/// Pointers around an Int32 into as many around one, around another leaf, and into fewer.
fn chains(layers: usize) -> Vec<Pair> {
    SHAPES[..4].iter().map(|(_, pair)| pair(layers)).collect()
}

/// 32 types of one to six layers, some of them relatives.
fn some_types(random: &mut Random) -> Vec<Vec<Layer>> {
    let mut all = Vec::new();
    while all.len() < 32 {
        let layers = 1 + random.below(6);
        let t = formed(random, layers);
        let b = beside(random, &t);
        all.extend([t, b]);
    }
    all
}

/// All ordered pairs.
fn squared(all: &[Vec<Layer>]) -> Vec<Pair> {
    let each = |a: &Vec<Layer>| {
        let pair = |b: &Vec<Layer>| (Type::new(a), Type::new(b));
        all.iter().map(pair).collect::<Vec<Pair>>()
    };
    all.iter().flat_map(each).collect()
}
