//! The lines of the program `test_cases`, as the original answers them: the same words in the same order.

use crate::judge::questions::{answer, Answer, Question, FIXING, QUESTIONS, RELATIONS, STORED};
use std::fmt::Write;

const HEADING: &str = "words: layers wellformed void integral signed bitfield slice_pointer \
    | sized struct_member word_member constant variable parameter returned \
    | element pointee viewee dereferenced \
    | known depth min max stored_with_4 stored_with_8\n";

const STORED_WITH: &str =
    "stored with: int64 usize pointer view slice slice_pointer three_slices void too_large no_kind\n";

const BAD_WORDS: &str = "kind at layer, of sixteen: | the names 0 1 4294967295 4294967296, \
    each with the numbers 0 1 2 18446744073709551615\n";

const PAIRS: &str = "left right: identical equals like declared concretization \
    | coerces autoderef subautoderef\n";

const FIXES: &str = "type external context: fixed | buffer | in eight words\n";

/// The columns but those of stored sizes, by the questions' numbers, and where a bar parts them.
const COLUMNS: [usize; 22] = [
    0, 1, 2, 3, 4, 5, 6, 7, 8, 9, 10, 11, 12, 13, 14, 15, 16, 17, 19, 18, 21, 22,
];
const BARS: [usize; 3] = [7, 14, 18];

const INT32: u64 = 3;
const POINTER: u64 = 23;

pub fn cases() -> String {
    let mut lines = String::from(HEADING);
    one_type(&mut lines);
    lines.push_str(STORED_WITH);
    widths(&mut lines);
    lines.push_str(BAD_WORDS);
    bad_words(&mut lines);
    lines.push_str(PAIRS);
    two_types(&mut lines);
    lines.push_str(FIXES);
    fixed(&mut lines);
    lines
}

fn one_type(lines: &mut String) {
    let mut pointers = [0; 51];
    (0..17).for_each(|i| pointers[3 * i] = POINTER);
    (0..=51).for_each(|n| report(lines, &pointers[..n]));
    for k in 0..26 {
        for (name, number) in FIELDS {
            let words = [k, name, number, INT32, 0, 0];
            report(lines, &words[..3]);
            report(lines, &words);
        }
    }
    for i in 0..16 {
        let mut words = pointers;
        words[3 * i] = INT32;
        report(lines, &words[..48]);
    }
    for (k, inner) in (14..25).flat_map(|k| (0..25).map(move |inner| (k, inner))) {
        let words = [k, 0, 0, inner, 0, 0, INT32, 0, 0];
        let short = answer(0, &words[..6], &[]).refusal == 0;
        report(lines, if short { &words[..6] } else { &words });
    }
    for (length, inner, leaf) in ARRAYS {
        report(lines, &[14, 0, length, 14, 0, inner, leaf, 0, 0]);
    }
    for length in SLICES {
        report(lines, &[14, 0, length, 16, 0, 0, INT32, 0, 0]);
    }
}

/// Stored sizes with every width from 0 to 17, and with the largest number.
fn widths(lines: &mut String) {
    for width in (0..18).chain([u64::MAX]) {
        write!(lines, "width {width}:").unwrap();
        MEASURED.iter().for_each(|t| stored(lines, t, width));
        lines.push('\n');
    }
}

fn stored(lines: &mut String, words: &[u64], width: u64) {
    write!(
        lines,
        " {}",
        shown(STORED, &answer(STORED, words, &[width]))
    )
    .unwrap();
}

const MEASURED: [&[u64]; 10] = [
    &[4, 0, 0],
    &[11, 0, 0],
    &[23, 0, 0, 3, 0, 0],
    &[24, 0, 0, 3, 0, 0],
    &[16, 0, 0, 3, 0, 0],
    &[17, 0, 0, 3, 0, 0],
    &[14, 0, 3, 16, 0, 0, 3, 0, 0],
    &[0, 0, 0],
    &[14, 0, 0, 14, 0, 9223372036854775808, 2, 0, 0],
    &[25, 0, 0],
];

/// Every kind and the first number that is none, in three layers of sixteen, with good and bad names and
/// numbers in every combination.
fn bad_words(lines: &mut String) {
    for (k, layer) in (0..26).flat_map(|k| [0, 7, 15].map(|layer| (k, layer))) {
        write!(lines, "{k} at {layer}:").unwrap();
        for name in [0, 1, 4294967295, 4294967296] {
            lines.push_str(" |");
            for number in [0, 1, 2, u64::MAX] {
                let mut words = [POINTER, 0, 0].repeat(16);
                words[45] = INT32;
                words[3 * layer..3 * layer + 3].copy_from_slice(&[k, name, number]);
                write!(lines, " {}", shown(0, &answer(0, &words, &[]))).unwrap();
            }
        }
        lines.push('\n');
    }
}

const FIELDS: [(u64, u64); 9] = [
    (0, 0),
    (1, 0),
    (0, 1),
    (1, 1),
    (1, 2),
    (4294967295, 0),
    (4294967296, 0),
    (4294967296, 1),
    (0, u64::MAX),
];

const ARRAYS: [(u64, u64, u64); 11] = [
    (4294967296, 4294967295, 1),
    (4294967296, 4294967296, 1),
    (1, u64::MAX, 13),
    (0, 9223372036854775808, 2),
    (0, 9223372036854775807, 2),
    (u64::MAX, u64::MAX, 0),
    (u64::MAX, 0, 5),
    (1, 2305843009213693951, 11),
    (1, 2305843009213693952, 11),
    (0, 4611686018427387903, 11),
    (0, 4611686018427387904, 11),
];

const SLICES: [u64; 4] = [
    1152921504606846975,
    1152921504606846976,
    2305843009213693951,
    2305843009213693952,
];

fn report(lines: &mut String, words: &[u64]) {
    write!(lines, "{}", words.len()).unwrap();
    if words.len() >= 3 {
        write!(lines, " ({} {} {}", words[0], words[1], words[2]).unwrap();
        if words.len() >= 6 {
            write!(lines, " of {}", words[3]).unwrap();
        }
        lines.push(')');
    }
    lines.push(':');
    for (column, question) in COLUMNS.into_iter().enumerate() {
        if BARS.contains(&column) {
            lines.push_str(" |");
        }
        write!(lines, " {}", shown(question, &answer(question, words, &[]))).unwrap();
    }
    [4, 8].iter().for_each(|width| stored(lines, words, *width));
    lines.push('\n');
}

/// A refusal with its place, "-" for what there is none of, two halves in hexadecimal.
fn shown(question: usize, given: &Answer) -> String {
    if given.refusal != 0 {
        return format!("!{}@{}", given.refusal, given.value);
    }
    match QUESTIONS[question].1 {
        Question::Size(_) | Question::Stored(_) if given.value == 1 => given.written[0].to_string(),
        Question::Size(_) | Question::Stored(_) => "-".to_string(),
        Question::Inner(_) if given.value == 0 && question != 17 => "-".to_string(),
        Question::Halves(_) => format!("{:x}:{:x}", given.written[1], given.written[0]),
        _ => given.value.to_string(),
    }
}

fn two_types(lines: &mut String) {
    for (i, a) in TYPES.iter().enumerate() {
        for (j, b) in TYPES.iter().enumerate() {
            write!(lines, "{i} {j}:").unwrap();
            for question in RELATIONS..FIXING {
                if question == RELATIONS + 5 {
                    lines.push_str(" |");
                }
                write!(lines, " {}", shown(question, &answer(question, a, b))).unwrap();
            }
            lines.push('\n');
        }
    }
}

/// What stands in a buffer before.
const BEFORE: u64 = 7;

fn fixed(lines: &mut String) {
    for (i, t) in TYPES.iter().chain(&ARRAYLIKES).enumerate() {
        for (external, context) in (0..2).flat_map(|e| (0..5).map(move |c| (e, c))) {
            let given = answer(FIXING, t, &[external, context, 12]);
            let short = answer(FIXING, t, &[external, context, 8]);
            let mut buffer = given.written.clone();
            buffer.resize(12, BEFORE);
            let buffer: Vec<String> = buffer.iter().map(u64::to_string).collect();
            let (given, short) = (shown(FIXING, &given), shown(FIXING, &short));
            writeln!(
                lines,
                "{i} {external} {context}: {given} | {} | {short}",
                buffer.join(" ")
            )
            .unwrap();
        }
    }
}

const ARRAYLIKES: [&[u64]; 8] = [
    &[19, 0, 0, 13, 0, 0],
    &[19, 0, 0, 0, 0, 0],
    &[19, 0, 0, 19, 0, 0, 1, 0, 0],
    &[19, 0, 0, 24, 0, 0, 1, 0, 0],
    &[19, 0, 0, 16, 0, 0, 1, 0, 0],
    &[19, 0, 0, 18, 0, 0, 1, 0, 0],
    &[23, 0, 0, 19, 0, 0, 13, 0, 0],
    &[24, 0, 0, 24, 0, 0, 1, 0, 0],
];

const TYPES: [&[u64]; 24] = [
    &[0, 0, 0],
    &[3, 0, 0],
    &[6, 0, 0],
    &[12, 0, 0],
    &[20, 5, 0],
    &[21, 5, 8],
    &[22, 0, 0],
    &[22, 5, 1],
    &[14, 0, 3, 12, 0, 0],
    &[14, 0, 3, 6, 0, 0],
    &[14, 0, 4, 12, 0, 0],
    &[15, 7, 0, 12, 0, 0],
    &[16, 0, 0, 12, 0, 0],
    &[17, 0, 0, 12, 0, 0],
    &[18, 0, 0, 12, 0, 0],
    &[19, 0, 0, 12, 0, 0],
    &[23, 0, 0, 12, 0, 0],
    &[24, 0, 0, 3, 0, 0],
    &[23, 0, 0, 19, 0, 0, 12, 0, 0],
    &[23, 0, 0, 18, 0, 0, 6, 0, 0],
    &[24, 0, 0, 18, 0, 0, 12, 0, 0],
    &[24, 0, 0, 23, 0, 0, 3, 0, 0],
    &[23, 0, 0, 3, 0, 0, 3, 0, 0],
    &[23, 0, 0, 25, 0, 0],
];
