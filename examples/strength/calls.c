/* The header's sections Types, Relations, Extern fixing and Sheets. */
#include "strength.h"
#include <string.h>

bool placed(uint64_t refusal, uint64_t place)
{
    switch (refusal) {
    case TJ_BAD_LAYER:
        return place < MOST_WORDS;
    case TJ_BAD_LEAF:
    case TJ_NOT_IN_EXTERN:
        return place < MOST_WORDS / 3;
    case TJ_NO_STEP_FITS:
        return place < TJ_MOST_WALKED;
    default:
        return refusal < REFUSALS && place == 0;
    }
}

bool answered(tj_answer a, uint64_t most)
{
    if (a.refusal == 0)
        return a.value <= most;
    return placed(a.refusal, a.value) && all_kept();
}

/* A type lent, of so many words. */
static const uint64_t *lent_type(uint64_t *t, size_t *n)
{
    *n = some_words(t);
    return lend(t, 8 * *n);
}

typedef struct {
    tj_answer (*ask)(const uint64_t *, size_t);
    uint64_t most; /* the largest answer */
} one;

static const one ones[] = {
    {tj_check, 16},
    {tj_is_wellformed, 1},
    {tj_is_void, 1},
    {tj_is_integral, 1},
    {tj_is_signed, 1},
    {tj_is_bitfield, 1},
    {tj_is_slice_pointer, 1},
    {tj_can_be_sized, 1},
    {tj_can_be_struct_member, 1},
    {tj_can_be_word_member, 1},
    {tj_can_be_constant, 1},
    {tj_can_be_variable, 1},
    {tj_can_be_parameter, 1},
    {tj_can_be_returned, 1},
    {tj_get_element_type, 3},
    {tj_get_pointee_type, 3},
    {tj_get_viewee_type, 3},
    {tj_fully_dereferenced, 45},
    {tj_pointer_depth, 15},
};

/* Of a type that is refused with 2: the layer in question is refused alone, at that word, and those before it
 * have no bad word. */
static bool names_its_word(tj_answer a, const uint64_t *t, size_t n)
{
    if (a.refusal != TJ_BAD_LAYER)
        return true;
    size_t word = a.value % 3, start = a.value - word;
    if (start >= n)
        return false;
    tj_answer alone = tj_check(t + start, 3);
    return alone.refusal == TJ_BAD_LAYER && alone.value == word && tj_check(t, start).refusal != TJ_BAD_LAYER;
}

static bool ask_one(size_t which, uint64_t *refusal)
{
    uint64_t words[ROOM];
    size_t n;
    const uint64_t *t = lent_type(words, &n);
    tj_answer a = ones[which].ask(t, n);
    *refusal = a.refusal;
    return answered(a, ones[which].most) && names_its_word(a, t, n) && kept(0);
}

/* A pointer's width, mostly one of the two. */
static uint64_t some_width(void)
{
    if (once_in(8))
        return once_in(2) ? below(18) : some_number();
    return once_in(2) ? 4 : 8;
}

/* The known size, or the stored one. With 4 or 8 this is not refused with 5; any other width is refused, and not
 * with 17. */
static bool ask_size(size_t which, uint64_t *refusal)
{
    uint64_t words[ROOM];
    size_t n;
    const uint64_t *t = lent_type(words, &n);
    uint64_t width = which == 0 ? 8 : some_width();
    bool known = width == 4 || width == 8;
    uint64_t *size = lend_room(8);
    tj_answer a = which == 0 ? tj_known_size_in_bytes_as_word_member(t, n, size) : tj_stored_size(t, n, width, size);
    *refusal = a.refusal;
    return answered(a, 1) && kept(0) && (a.value == 1 || kept(1)) &&
           (known ? a.refusal != TJ_BAD_REQUEST : a.refusal && a.refusal != TJ_SIZE_TOO_LARGE);
}

static tj_answer (*const bounds[])(const uint64_t *, size_t, uint64_t *, uint64_t *) = {
    tj_min_i128,
    tj_max_u128,
};

static bool ask_bound(size_t which, uint64_t *refusal)
{
    uint64_t words[ROOM];
    size_t n;
    const uint64_t *t = lent_type(words, &n);
    uint64_t *low = lend_room(8), *high = lend_room(8);
    tj_answer a = bounds[which](t, n, low, high);
    *refusal = a.refusal;
    return answered(a, 0) && kept(0);
}

/* The one of these relations that has three answers. */
enum { COERCES = 5 };

static tj_answer (*const relations[])(const uint64_t *, size_t, const uint64_t *, size_t) = {
    tj_identical,
    tj_equals,
    tj_is_like,
    tj_can_be_declared_as,
    tj_can_be_concretization_of,
    tj_coerces,
    tj_can_autoderef_into,
    tj_can_subautoderef_into,
};

static bool ask_two(size_t which, uint64_t *refusal)
{
    uint64_t left[ROOM], right[ROOM];
    size_t n = some_words(left);
    size_t m = words_beside(right, left, n);
    const uint64_t *a = lend(left, 8 * n), *b = lend(right, 8 * m);
    tj_answer got = relations[which](a, n, b, m);
    *refusal = got.refusal;
    return answered(got, which == COERCES ? TJ_COERCES_BY_ADDRESS : 1) && all_kept();
}

/* The type of a string literal, or of a string slice. */
static bool ask_string(size_t which, uint64_t *refusal)
{
    uint64_t length = some_number();
    size_t room = once_in(2) ? below(9) : below(ROOM);
    uint64_t *out = lend_room(8 * room);
    tj_answer a = which == 0 ? tj_for_string_literal(length, out, room) : tj_for_string_slice(out, room);
    const uint64_t literal[] = {TJ_ARRAY, 0, length, TJ_CHAR8, 0, 0}, slice[] = {TJ_SLICE, 0, 0, TJ_CHAR8, 0, 0};
    *refusal = a.refusal;
    if (a.refusal)
        return a.refusal == TJ_OUTPUT_TOO_SHORT && room < 6 && answered(a, 0);
    return answered(a, 6) && room >= 6 && a.value == 6 &&
           !memcmp(out, which == 0 ? literal : slice, sizeof literal) && kept_from(0, sizeof literal);
}

static bool ask_fixing(size_t which, uint64_t *refusal)
{
    (void)which;
    uint64_t words[ROOM];
    size_t n;
    const uint64_t *t = lent_type(words, &n);
    uint64_t context = once_in(8) ? some_number() : below(4);
    size_t room = once_in(4) ? below(ROOM) : 51;
    uint64_t *out = lend_room(8 * room);
    tj_answer a = tj_fix_type_for_flags(t, n, once_in(2), context, out, room);
    *refusal = a.refusal;
    return answered(a, room) && kept(0) && (a.refusal || kept_from(1, 8 * a.value));
}

static bool ask_sheet(size_t which, uint64_t *refusal)
{
    (void)which;
    static uint8_t bytes[MOST_SHEET];
    size_t n = some_sheet(bytes);
    const uint8_t *sheet = lend(bytes, n);
    tj_answer a = tj_read_sheet(sheet, n);
    *refusal = a.refusal;
    return answered(a, 32) && kept(0);
}

const export questions[] = {
    {"check", ask_one, 0},
    {"is_wellformed", ask_one, 1},
    {"is_void", ask_one, 2},
    {"is_integral", ask_one, 3},
    {"is_signed", ask_one, 4},
    {"is_bitfield", ask_one, 5},
    {"is_slice_pointer", ask_one, 6},
    {"can_be_sized", ask_one, 7},
    {"can_be_struct_member", ask_one, 8},
    {"can_be_word_member", ask_one, 9},
    {"can_be_constant", ask_one, 10},
    {"can_be_variable", ask_one, 11},
    {"can_be_parameter", ask_one, 12},
    {"can_be_returned", ask_one, 13},
    {"get_element_type", ask_one, 14},
    {"get_pointee_type", ask_one, 15},
    {"get_viewee_type", ask_one, 16},
    {"fully_dereferenced", ask_one, 17},
    {"pointer_depth", ask_one, 18},
    {"known_size_in_bytes_as_word_member", ask_size, 0},
    {"stored_size", ask_size, 1},
    {"min_i128", ask_bound, 0},
    {"max_u128", ask_bound, 1},
    {"for_string_literal", ask_string, 0},
    {"for_string_slice", ask_string, 1},
    {"identical", ask_two, 0},
    {"equals", ask_two, 1},
    {"is_like", ask_two, 2},
    {"can_be_declared_as", ask_two, 3},
    {"can_be_concretization_of", ask_two, 4},
    {"coerces", ask_two, COERCES},
    {"can_autoderef_into", ask_two, 6},
    {"can_subautoderef_into", ask_two, 7},
    {"fix_type_for_flags", ask_fixing, 0},
    {"read_sheet", ask_sheet, 0},
};
const size_t question_count = sizeof questions / sizeof *questions;
