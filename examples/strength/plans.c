/* The header's section Plans. */
#include "strength.h"

static bool autoderef(size_t which, uint64_t *refusal)
{
    (void)which;
    static tj_symbol table[MOST_RECORDS];
    static uint64_t store[PART * MOST_RECORDS + 1];
    uint64_t known[ROOM], target[ROOM], asked[MOST_STEP_WORDS];
    size_t ns, nt = some_table(table, store, &ns);
    size_t n = some_words(known), m = words_beside(target, known, n), k = steps_along(asked, 32, known, n);
    size_t nsteps = once_in(4) ? below(64) : 576, ntype = once_in(4) ? below(ROOM) : 48;
    uint64_t rounds = once_in(8) ? some_number() : 64;
    uint8_t depth = once_in(16) ? (uint8_t)any() : (uint8_t)below(3);
    const uint64_t *a = lend(known, 8 * n), *s = lend(asked, 8 * k), *b = lend(target, 8 * m);
    const tj_symbol *l = lend_records(table, nt);
    const uint64_t *w = lend(store, 8 * ns);
    uint64_t *steps = lend_room(8 * nsteps), *type = lend_room(8 * ntype);
    tj_plan p = tj_autoderef(a, n, s, k, b, m, depth, rounds, l, nt, w, ns, steps, nsteps, type, ntype);
    *refusal = p.refusal;
    if (p.refusal)
        return placed(p.refusal, p.value) && all_kept() && !p.steps && !p.taken && !p.layers && !p.address && !p.coerced;
    bool inputs = kept(0) && kept(1) && kept(2) && kept(3) && kept(4);
    bool outputs = kept_from(5, 32 * p.steps) && kept_from(6, 24 * p.layers);
    return inputs && outputs && p.value == 0 && p.taken <= k / 4 && p.layers >= 1;
}

static bool walk(size_t which, uint64_t *refusal)
{
    (void)which;
    static tj_symbol table[MOST_RECORDS];
    static uint64_t store[PART * MOST_RECORDS + 1];
    uint64_t known[ROOM], steps[MOST_STEP_WORDS];
    size_t ns, nt = some_table(table, store, &ns);
    size_t n = some_words(known), k = steps_along(steps, 128, known, n), room = once_in(4) ? below(ROOM) : 48;
    const uint64_t *a = lend(known, 8 * n), *s = lend(steps, 8 * k);
    const tj_symbol *l = lend_records(table, nt);
    const uint64_t *w = lend(store, 8 * ns);
    uint64_t *out = lend_room(8 * room);
    tj_answer got = tj_walk(a, n, s, k, once_in(2), l, nt, w, ns, out, room);
    *refusal = got.refusal;
    bool inputs = kept(0) && kept(1) && kept(2) && kept(3);
    return answered(got, room) && inputs && (got.refusal || kept_from(4, 8 * got.value));
}

const export planning[] = {
    {"autoderef", autoderef, 0},
    {"walk", walk, 0},
};
const size_t planning_count = sizeof planning / sizeof *planning;
