/* A host asks the proved rules a few questions, keeps two symbols, and makes, walks and compares plans.
 *
 *   cc -I include examples/host.c "$(./archive)/libtrestlejay.a" -o host && ./host
 *
 * The same text is C11 and C++17.
 */
#include "trestlejay.h"
#include <inttypes.h>
#include <stdio.h>
#include <string.h>

#define WORDS(t) (t), sizeof(t) / sizeof *(t)

static const uint64_t slice[] = {TJ_SLICE, 0, 0, TJ_CHAR8, 0, 0};
static const uint64_t slice_pointer[] = {TJ_SLICE_POINTER, 0, 0, TJ_CHAR8, 0, 0};
static const uint64_t array[] = {TJ_ARRAY, 0, 3, TJ_CHAR8, 0, 0};
static const uint64_t arraylike[] = {TJ_ARRAYLIKE, 0, 0, TJ_CHAR8, 0, 0};
static const uint64_t view[] = {TJ_VIEW, 0, 0, TJ_POINTER, 0, 0, TJ_INT32, 0, 0};
static const uint64_t int32[] = {TJ_INT32, 0, 0};
static const uint64_t char8[] = {TJ_CHAR8, 0, 0};

/* A table of two free records, with its store. */
static tj_symbol table[2];
static uint64_t store[2 * TJ_SLOT_WORDS];

static void say(const char *question, tj_answer a)
{
    if (a.refusal)
        printf("%s: refused %" PRIu64 " at %" PRIu64 "\n", question, a.refusal, a.value);
    else
        printf("%s: %" PRIu64 "\n", question, a.value);
}

/* One answer tells of both coercions. */
static void say_coercion(const char *question, tj_answer a)
{
    static const char *const ways[] = {"not at all", "as a value", "by its address"};
    if (a.refusal)
        say(question, a);
    else
        printf("%s: %s\n", question, ways[a.value]);
}

static void types(void)
{
    /* A Pointer to Int32, and then a layer too many: the leaf comes early. */
    const uint64_t early[] = {TJ_POINTER, 0, 0, TJ_INT32, 0, 0, TJ_INT32, 0, 0};
    /* A Pointer to an Int32 that has a name: layer 1, word 1. */
    const uint64_t misnamed[] = {TJ_POINTER, 0, 0, TJ_INT32, 5, 0};
    const tj_answer bad = tj_check(WORDS(misnamed));
    uint64_t size = 7, low = 7, high = 7, made[TJ_TYPE_WORDS] = {0};

    say("layers of view", tj_check(WORDS(view)));
    say("layers of early", tj_check(WORDS(early)));
    say("layers of misnamed", bad);
    printf("which is layer %" PRIu64 ", word %" PRIu64 "\n", bad.value / 3, bad.value % 3);
    say("array can be a parameter", tj_can_be_parameter(WORDS(array)));
    say("slice can be a parameter", tj_can_be_parameter(WORDS(slice)));
    say("view, fully dereferenced, starts at word", tj_fully_dereferenced(WORDS(view)));
    say("pointer depth of view", tj_pointer_depth(WORDS(view)));
    say("array has a stored size", tj_stored_size(WORDS(array), 8, &size));
    printf("which is %" PRIu64 "\n", size);
    say("slice has one where a pointer has 4 bytes", tj_stored_size(WORDS(slice), 4, &size));
    printf("which is %" PRIu64 "\n", size);
    say("slice where a pointer has 5", tj_stored_size(WORDS(slice), 5, &size));
    say("highest value of the leaf of view", tj_max_u128(view + 6, 3, &low, &high));
    printf("which is %" PRIu64 " * 2^64 + %" PRIu64 "\n", high, low);
    say("words of a string literal's type", tj_for_string_literal(3, WORDS(made)));
    say("which is array", tj_identical(made, 6, WORDS(array)));
    say_coercion("array coerces into slice", tj_coerces(WORDS(array), WORDS(slice)));
    say_coercion("array coerces into slice_pointer", tj_coerces(WORDS(array), WORDS(slice_pointer)));
    say_coercion("slice coerces into array", tj_coerces(WORDS(slice), WORDS(array)));
    say_coercion("slice coerces into early", tj_coerces(WORDS(slice), WORDS(early)));
    say("slice equals itself", tj_equals(WORDS(slice), WORDS(slice)));
    say("words of an extern arraylike",
        tj_fix_type_for_flags(WORDS(arraylike), true, TJ_IN_PARAMETER, WORDS(made)));
    printf("of kinds %" PRIu64 " %" PRIu64 " %" PRIu64 "\n", made[0], made[3], made[6]);
    say("array in an extern", tj_fix_type_for_flags(WORDS(array), true, TJ_IN_PARAMETER, WORDS(made)));
}

static void symbols(void)
{
    uint64_t found = 7;
    say("arraylike put under 5", tj_put_type(WORDS(table), WORDS(store), 5, true, 1, WORDS(arraylike)));
    say("slice put under 5", tj_put_type(WORDS(table), WORDS(store), 5, true, 2, WORDS(slice)));
    say("view put under 5", tj_put_type(WORDS(table), WORDS(store), 5, true, 3, WORDS(view)));
    say("array put under 5", tj_put_type(WORDS(table), WORDS(store), 5, true, 4, WORDS(array)));
    say("poison put under 6", tj_put_poison(WORDS(table), WORDS(store), 6, true, 5, 99));
    say("view put under 7", tj_put_type(WORDS(table), WORDS(store), 7, true, 6, WORDS(view)));
    say("5 is", tj_get_symbol(WORDS(table), WORDS(store), 5, true, &found));
    printf("in slot %" PRIu64 ", named at %" PRIu64 "\n", found, table[found].place);
    say("6 is", tj_get_symbol(WORDS(table), WORDS(store), 6, true, &found));
    printf("with mark %" PRIu64 "\n", found);
}

static void say_kinds(const char *what, const uint64_t *words, size_t count, size_t each)
{
    printf("  %s:", what);
    for (size_t i = 0; i < count; i++)
        printf(" %" PRIu64, words[each * i]);
    printf("%s\n", count ? "" : " none");
}

static const char *is(const uint64_t *a, size_t na, const uint64_t *b, size_t nb)
{
    return na == nb && !memcmp(a, b, na * sizeof *a) ? "is" : "IS NOT";
}

/* A plan for a plain read, and what its caller looks at. */
static void plan(const char *what, const uint64_t *known, size_t nknown, const uint64_t *asked, size_t nasked,
                 const uint64_t *wanted, size_t nwanted)
{
    uint64_t steps[TJ_PLAN_WORDS], reported[TJ_TYPE_WORDS], walked[TJ_TYPE_WORDS];
    tj_plan p = tj_autoderef(known, nknown, asked, nasked, wanted, nwanted, 0, TJ_MOST_ROUNDS, WORDS(table),
                             WORDS(store), WORDS(steps), WORDS(reported));
    tj_answer w = {p.refusal, p.value};
    if (p.refusal == TJ_ACCEPTED)
        w = tj_walk(known, nknown, steps, 4 * p.steps, p.address, WORDS(table), WORDS(store), WORDS(walked));
    printf("%s\n", what);
    if (w.refusal != TJ_ACCEPTED) {
        printf("  refused %" PRIu64 " at %" PRIu64 "\n", w.refusal, w.value);
        return;
    }
    say_kinds("kinds of its steps", steps, p.steps, 4);
    say_kinds("kinds of the type it reports", reported, p.layers, 3);
    say_kinds("kinds of the type the walker arrives at", walked, w.value / 3, 3);
    printf("  asked steps taken: %" PRIu64 " of %zu\n", p.taken, nasked / 4);
    printf("  the type walked to %s the reported one\n", is(walked, w.value, reported, 3 * p.layers));
    printf("  the reported type %s the wanted one%s\n", is(reported, 3 * p.layers, wanted, nwanted),
           p.coerced ? ", and coerces into it" : "");
}

int main(void)
{
    const uint64_t element[] = {TJ_ELEMENT, 7, TJ_ENDLESS_UNKNOWN, 0};
    types();
    symbols();
    plan("element 7 of slice, as Char8", WORDS(slice), WORDS(element), WORDS(char8));
    plan("view, as Int32: the exception", WORDS(view), element, 0, WORDS(int32));
    plan("array, as Int32: it leads elsewhere", WORDS(array), element, 0, WORDS(int32));
    plan("array, as slice", WORDS(array), element, 0, WORDS(slice));
    return 0;
}
