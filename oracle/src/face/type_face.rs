//! The proved library's C face: include/trestlejay.h, sections Types, Relations and Extern fixing, in its
//! order, and the types of strings.

use crate::judge::blank::{blank, KEPT};
use crate::judge::questions::{Answer, FIXING};

#[repr(C)]
pub struct Raw {
    pub refusal: u64,
    pub value: u64,
}

extern "C" {
    pub fn tj_check(t: *const u64, n: usize) -> Raw;
    pub fn tj_is_wellformed(t: *const u64, n: usize) -> Raw;
    pub fn tj_is_void(t: *const u64, n: usize) -> Raw;
    pub fn tj_is_integral(t: *const u64, n: usize) -> Raw;
    pub fn tj_is_signed(t: *const u64, n: usize) -> Raw;
    pub fn tj_is_bitfield(t: *const u64, n: usize) -> Raw;
    pub fn tj_is_slice_pointer(t: *const u64, n: usize) -> Raw;
    pub fn tj_can_be_sized(t: *const u64, n: usize) -> Raw;
    pub fn tj_can_be_struct_member(t: *const u64, n: usize) -> Raw;
    pub fn tj_can_be_word_member(t: *const u64, n: usize) -> Raw;
    pub fn tj_can_be_constant(t: *const u64, n: usize) -> Raw;
    pub fn tj_can_be_variable(t: *const u64, n: usize) -> Raw;
    pub fn tj_can_be_parameter(t: *const u64, n: usize) -> Raw;
    pub fn tj_can_be_returned(t: *const u64, n: usize) -> Raw;
    pub fn tj_get_element_type(t: *const u64, n: usize) -> Raw;
    pub fn tj_get_pointee_type(t: *const u64, n: usize) -> Raw;
    pub fn tj_get_viewee_type(t: *const u64, n: usize) -> Raw;
    pub fn tj_fully_dereferenced(t: *const u64, n: usize) -> Raw;
    pub fn tj_pointer_depth(t: *const u64, n: usize) -> Raw;

    pub fn tj_known_size_in_bytes_as_word_member(t: *const u64, n: usize, size: *mut u64) -> Raw;
    pub fn tj_stored_size(t: *const u64, n: usize, width: u64, size: *mut u64) -> Raw;
    pub fn tj_min_i128(t: *const u64, n: usize, low: *mut u64, high: *mut u64) -> Raw;
    pub fn tj_max_u128(t: *const u64, n: usize, low: *mut u64, high: *mut u64) -> Raw;

    pub fn tj_identical(a: *const u64, na: usize, b: *const u64, nb: usize) -> Raw;
    pub fn tj_equals(a: *const u64, na: usize, b: *const u64, nb: usize) -> Raw;
    pub fn tj_is_like(a: *const u64, na: usize, b: *const u64, nb: usize) -> Raw;
    pub fn tj_can_be_declared_as(a: *const u64, na: usize, b: *const u64, nb: usize) -> Raw;
    pub fn tj_can_be_concretization_of(a: *const u64, na: usize, b: *const u64, nb: usize) -> Raw;
    pub fn tj_coerces(a: *const u64, na: usize, b: *const u64, nb: usize) -> Raw;
    pub fn tj_can_autoderef_into(a: *const u64, na: usize, b: *const u64, nb: usize) -> Raw;
    pub fn tj_can_subautoderef_into(a: *const u64, na: usize, b: *const u64, nb: usize) -> Raw;

    pub fn tj_fix_type_for_flags(
        t: *const u64,
        n: usize,
        external: bool,
        context: u64,
        out: *mut u64,
        nout: usize,
    ) -> Raw;

    fn tj_for_string_literal(length: u64, out: *mut u64, nout: usize) -> Raw;
    fn tj_for_string_slice(out: *mut u64, nout: usize) -> Raw;
}

enum Entry {
    One(unsafe extern "C" fn(*const u64, usize) -> Raw),
    Size(unsafe extern "C" fn(*const u64, usize, *mut u64) -> Raw),
    Stored(unsafe extern "C" fn(*const u64, usize, u64, *mut u64) -> Raw),
    Halves(unsafe extern "C" fn(*const u64, usize, *mut u64, *mut u64) -> Raw),
    Two(unsafe extern "C" fn(*const u64, usize, *const u64, usize) -> Raw),
}

use Entry::{Halves, One, Size, Stored, Two};

static ENTRIES: [Entry; 31] = [
    One(tj_check),
    One(tj_is_wellformed),
    One(tj_is_void),
    One(tj_is_integral),
    One(tj_is_signed),
    One(tj_is_bitfield),
    One(tj_is_slice_pointer),
    One(tj_can_be_sized),
    One(tj_can_be_struct_member),
    One(tj_can_be_word_member),
    One(tj_can_be_constant),
    One(tj_can_be_variable),
    One(tj_can_be_parameter),
    One(tj_can_be_returned),
    One(tj_get_element_type),
    One(tj_get_pointee_type),
    One(tj_get_viewee_type),
    One(tj_fully_dereferenced),
    One(tj_pointer_depth),
    Size(tj_known_size_in_bytes_as_word_member),
    Stored(tj_stored_size),
    Halves(tj_min_i128),
    Halves(tj_max_u128),
    Two(tj_identical),
    Two(tj_equals),
    Two(tj_is_like),
    Two(tj_can_be_declared_as),
    Two(tj_can_be_concretization_of),
    Two(tj_coerces),
    Two(tj_can_autoderef_into),
    Two(tj_can_subautoderef_into),
];

/// Stands around and between everything that is lent.
pub const GUARD: u64 = 0x6a75_6172_6421_a5a5;

/// The library's answer, or what it did to words that it had no business with.
pub fn answer(question: usize, a: &[u64], b: &[u64]) -> Result<Answer, String> {
    if question == FIXING {
        return fixed(a, b[0] == 1, b[1], b[2] as usize);
    }
    // guard, a, guard, b, guard, first output, guard, second output, guard
    let (at_a, at_b) = (1, a.len() + 2);
    let (first, second) = (at_b + b.len() + 1, at_b + b.len() + 3);
    let mut lent = vec![GUARD; second + 2];
    lent[at_a..at_a + a.len()].copy_from_slice(a);
    lent[at_b..at_b + b.len()].copy_from_slice(b);
    lent[first] = KEPT;
    lent[second] = KEPT;
    let mut before = lent.clone();

    let base = lent.as_mut_ptr();
    // Every place is inside `lent`; no two slices overlap, and an empty one points to a guard.
    let (raw, outputs) = unsafe {
        let (pa, pb) = (base.add(at_a), base.add(at_b));
        let (p1, p2) = (base.add(first), base.add(second));
        match &ENTRIES[question] {
            One(entry) => (entry(pa, a.len()), 0),
            Size(entry) => (entry(pa, a.len(), p1), 1),
            Stored(entry) => (entry(pa, a.len(), b[0], p1), 1),
            Halves(entry) => (entry(pa, a.len(), p1, p2), 2),
            Two(entry) => (entry(pa, a.len(), pb, b.len()), 0),
        }
    };

    let written = [lent[first], lent[second]];
    let written: Vec<u64> = match written.iter().take_while(|word| **word != KEPT).count() {
        count if count <= outputs => written[..count].to_vec(),
        _ => return Err("an output that was not lent is changed".into()),
    };
    for (place, word) in [first, second].iter().zip(&written) {
        before[*place] = *word;
    }
    if lent != before {
        return Err("a lent word or one beside it is changed".into());
    }
    Ok(Answer {
        refusal: raw.refusal,
        value: raw.value,
        written,
    })
}

/// A type fixed into an output of so many words.
fn fixed(t: &[u64], external: bool, context: u64, room: usize) -> Result<Answer, String> {
    into_output(t, room, |from, to| unsafe {
        tj_fix_type_for_flags(from, t.len(), external, context, to, room)
    })
}

/// The type of a string literal, or of a string slice, into an output of so many words.
pub fn string_literal(length: u64, room: usize) -> Result<Answer, String> {
    into_output(&[], room, |_, to| unsafe {
        tj_for_string_literal(length, to, room)
    })
}

pub fn string_slice(room: usize) -> Result<Answer, String> {
    into_output(&[], room, |_, to| unsafe { tj_for_string_slice(to, room) })
}

/// A call that is lent a type and an output of so many words, each of them another before the call.
fn into_output(
    t: &[u64],
    room: usize,
    call: impl FnOnce(*const u64, *mut u64) -> Raw,
) -> Result<Answer, String> {
    // guard, t, guard, output, guard
    let at = t.len() + 2;
    let mut lent = [&[GUARD], t, &[GUARD], &blank(room), &[GUARD]].concat();
    let mut before = lent.clone();

    let base = lent.as_mut_ptr();
    // Both slices are inside `lent` and apart; an empty one points to a guard.
    let raw = unsafe { call(base.add(1), base.add(at)) };

    let count = match raw.refusal {
        0 if raw.value > room as u64 => return Err(format!("{} words of {room}", raw.value)),
        0 => raw.value as usize,
        _ => 0,
    };
    let written = lent[at..at + count].to_vec();
    before[at..at + count].copy_from_slice(&written);
    if lent != before {
        return Err("a word that is to be kept is changed".into());
    }
    Ok(Answer {
        refusal: raw.refusal,
        value: raw.value,
        written,
    })
}
