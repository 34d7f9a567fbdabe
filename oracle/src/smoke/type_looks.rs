//! The looks at words and at answers about types.

use super::count::Smoke;
use super::few_types::*;
use crate::judge::questions::{answer, QUESTIONS, STORED};
use crate::original::words::{bad_word, check, encode, is_good};

pub fn words(smoke: &mut Smoke) {
    for kind in 0..25 {
        let named = [15, 20, 21, 22].contains(&kind) as u64 * 7;
        let number = match kind {
            14 | 21 => 3,
            22 => 1,
            _ => 0,
        };
        let leaf = kind < 14 || (20..23).contains(&kind);
        let mut words = vec![kind, named, number];
        if !leaf {
            words.extend(INT32);
        }
        smoke.same("words of a kind", encode(&of(&words)), words);
    }
    smoke.same("no words", check(&[]), Err((1, 0)));
    smoke.same("four words", check(&[6, 0, 0, 0]), Err((1, 0)));
    smoke.same("17 layers", check(&[23, 0, 0].repeat(17)), Err((1, 0)));
    smoke.same("kind 25", check(&[23, 0, 0, 25, 0, 0]), Err((2, 3)));
    smoke.same("2 before 3", check(&[6, 0, 0, 6, 0, 1]), Err((2, 5)));
    smoke.same(
        "leaf early",
        check(&[23, 0, 0, 6, 0, 0, 23, 0, 0]),
        Err((3, 1)),
    );
    smoke.same("leaf missing", check(&[23, 0, 0, 24, 0, 0]), Err((3, 1)));
}

/// Which word is told of a bad layer, and that of every layer one is told exactly where it is bad.
pub fn bad_words(smoke: &mut Smoke) {
    let over = 1 << 32;
    let looks = [
        ("kind before name", [25, 1, 1], Some(0)),
        ("name before number", [20, over, 1], Some(1)),
        ("number alone", [20, 7, 1], Some(2)),
        ("22, a name over u32, number 1", [22, over, 1], Some(1)),
        ("22, a name over u32, number 2", [22, over, 2], Some(1)),
        ("22, a good name, number 2", [22, 7, 2], Some(2)),
        ("22, no name, number 2", [22, 0, 2], Some(2)),
        ("22, a name, number 0", [22, 7, 0], Some(1)),
        ("22, a name, number 1", [22, 7, 1], None),
    ];
    for (what, layer, word) in looks {
        smoke.same(what, bad_word(&layer), word);
    }
    let fields = [0, 1, 2, over - 1, over, u64::MAX];
    let layers = (0..27).flat_map(|kind| fields.map(|name| fields.map(|n| [kind, name, n])));
    let odd = layers
        .flatten()
        .find(|layer| is_good(layer) == bad_word(layer).is_some());
    smoke.same(
        "a good layer with a bad word, or a bad one without",
        odd,
        None,
    );
}

pub fn types(smoke: &mut Smoke) {
    let ask_of = |name: &str, words: &[u64]| {
        let question = QUESTIONS.iter().position(|(n, _)| *n == name).unwrap();
        let given = answer(question, words, &[]);
        (given.refusal, given.value, given.written)
    };
    smoke.same(
        "check",
        ask_of("check", &[23, 0, 0, 6, 0, 0]),
        (0, 2, vec![]),
    );
    let slice = [[16, 0, 0], CHAR8].concat();
    smoke.same(
        "Pointer to Slice",
        ask_of("is_wellformed", &[&[23, 0, 0], &slice[..]].concat()),
        (0, 0, vec![]),
    );
    smoke.same(
        "element",
        ask_of("get_element_type", &slice),
        (0, 3, vec![]),
    );
    smoke.same(
        "no pointee",
        ask_of("get_pointee_type", &slice),
        (0, 0, vec![]),
    );
    smoke.same(
        "dereferenced",
        ask_of(
            "fully_dereferenced",
            &[[23, 0, 0], [24, 0, 0], INT32].concat(),
        ),
        (0, 6, vec![]),
    );
    smoke.same(
        "known size",
        ask_of("known_size_in_bytes_as_word_member", &INT32),
        (0, 1, vec![4]),
    );
    smoke.same(
        "no known size",
        ask_of("known_size_in_bytes_as_word_member", &slice),
        (0, 0, vec![]),
    );
    smoke.same(
        "lowest",
        ask_of("min_i128", &[1, 0, 0]),
        (0, 0, vec![-128i64 as u64, u64::MAX]),
    );
    smoke.same(
        "highest",
        ask_of("max_u128", &[5, 0, 0]),
        (0, 0, vec![u64::MAX, u64::MAX >> 1]),
    );
}

pub fn stored_sizes(smoke: &mut Smoke) {
    let halves = [[14, 0, 0], [14, 0, 1 << 63], [2, 0, 0]].concat();
    let none = [[14, 0, u64::MAX], [14, 0, u64::MAX], [20, 0, 0]].concat();
    let table = [[14, 0, 3], [16, 0, 0], INT32].concat();
    let addresses = [[14, 0, 1 << 61], [11, 0, 0]].concat();
    let looks: [(&str, &[u64], u64, (u64, Option<u64>)); 10] = [
        ("stored size over", &halves, 8, (17, None)),
        ("no stored size", &none, 8, (0, None)),
        ("three slices on 4", &table, 4, (0, Some(24))),
        ("three slices on 8", &table, 8, (0, Some(48))),
        ("a Usize on 4", &[11, 0, 0], 4, (0, Some(4))),
        ("an Int64 on 4", &[4, 0, 0], 4, (0, Some(8))),
        ("fits on 4", &addresses, 4, (0, Some(1 << 63))),
        ("over on 8", &addresses, 8, (17, None)),
        ("width before 17", &halves, 5, (5, None)),
        ("type before width", &[25, 0, 0], 5, (2, None)),
    ];
    for (what, words, width, (refusal, size)) in looks {
        let given = answer(STORED, words, &[width]);
        let found = (given.refusal, given.written.first().copied());
        smoke.same(what, found, (refusal, size));
    }
}
