/* The header's section Symbols. */
#include "strength.h"
#include <string.h>

/* A symbol and its words after an update that changed them: which line applied tells what may change. */
static bool update_fits(const tj_symbol *old, const tj_symbol *new, const uint64_t *words, tj_answer a,
                        uint32_t id, const uint64_t *offered, size_t n)
{
    bool named = new->id == (a.value == 1 ? old->id : id);
    bool typed = new->state == 1 && new->layers == n / 3 && new->mark == 0;
    return named && typed && !memcmp(words, offered, 8 * n) && kept_from(1, 8 * n);
}

static bool same_answer(tj_answer a, tj_answer b)
{
    return a.refusal == b.refusal && a.value == b.value;
}

static bool update_symbol(size_t which, uint64_t *refusal)
{
    (void)which;
    static tj_symbol table[MOST_RECORDS];
    static uint64_t store[PART * MOST_RECORDS + 1];
    size_t ns = 0;
    while (some_table(table, store, &ns) == 0)
        continue;
    size_t count = once_in(16) ? below(60) : PART;
    uint64_t offered[ROOM];
    size_t n = words_beside(offered, store, 3 * (table[0].layers <= 16 ? table[0].layers : 1));
    uint32_t id = some_id();
    tj_symbol *symbol = lend_records(&table[0], 1);
    uint64_t *words = lend(store, 8 * count);
    const uint64_t *t = lend(offered, 8 * n);
    uint64_t place = some_number();
    bool authority = once_in(2);
    tj_answer a = tj_update_symbol(symbol, words, count, id, authority, place, t, n);
    *refusal = a.refusal;
    if (!answered(a, 2) || !kept(2))
        return false;
    if (!a.refusal && a.value)
        return update_fits(&table[0], symbol, words, a, id, t, n);
    /* Nothing changes: once more, where nothing may be written. */
    allow_writes(false);
    tj_answer again = tj_update_symbol(symbol, words, count, id, authority, place, t, n);
    allow_writes(true);
    return same_answer(a, again) && all_kept();
}

typedef struct {
    tj_symbol *table;
    uint64_t *store;
    size_t nt, ns;
} lent_table;

static lent_table lend_table(tj_symbol *table, uint64_t *store)
{
    lent_table l;
    l.nt = some_table(table, store, &l.ns);
    l.table = lend_records(table, l.nt);
    l.store = lend(store, 8 * l.ns);
    return l;
}

/* After a change that was accepted: one record may be another, that of the id, and of the store the first
 * words of its part, which are then those offered. */
static bool change_fits(const lent_table *l, const tj_symbol *table, const uint64_t *store, uint32_t id,
                        const uint64_t *offered, size_t n)
{
    size_t changed = 0;
    for (size_t slot = 0; slot < l->nt; slot++) {
        const uint64_t *part = l->store + PART * slot, *before = store + PART * slot;
        if (same_record(&l->table[slot], &table[slot]) && !memcmp(part, before, 8 * PART))
            continue;
        changed++;
        size_t written = l->table[slot].state == 1 ? n : 0;
        if (l->table[slot].id != id || memcmp(part, offered, 8 * written) ||
            memcmp(part + written, before + written, 8 * (PART - written)))
            return false;
    }
    return changed <= 1;
}

typedef struct {
    uint32_t id;
    bool authority;
    uint64_t place, mark;
    const uint64_t *offered;
    size_t n;
} change;

static tj_answer changed(size_t which, const lent_table *l, const change *c)
{
    if (which == 0)
        return tj_put_type(l->table, l->nt, l->store, l->ns, c->id, c->authority, c->place, c->offered,
                           c->n);
    if (which == 1)
        return tj_put_poison(l->table, l->nt, l->store, l->ns, c->id, c->authority, c->place, c->mark);
    if (which == 2)
        return tj_forward_declare_type(l->table, l->nt, l->store, l->ns, c->id, c->authority, c->place,
                                       c->offered, c->n);
    if (which == 3)
        return tj_forward_declare_poison(l->table, l->nt, l->store, l->ns, c->id, c->authority, c->place,
                                         c->mark);
    return tj_put_nothing(l->table, l->nt, l->store, l->ns, c->id, c->authority, c->place);
}

/* Where nothing changes: once more, where nothing may be written. */
static bool again(size_t which, const lent_table *l, const change *c, tj_answer a)
{
    allow_writes(false);
    tj_answer b = changed(which, l, c);
    allow_writes(true);
    return same_answer(a, b) && all_kept();
}

static bool change_symbol(size_t which, uint64_t *refusal)
{
    static tj_symbol table[MOST_RECORDS];
    static uint64_t store[PART * MOST_RECORDS + 1];
    uint64_t offered[ROOM];
    lent_table l = lend_table(table, store);
    change c = {.id = id_among(l.nt), .authority = once_in(2)};
    bool found = c.id < l.nt && table[c.id].layers <= 16;
    c.place = some_number();
    c.mark = some_number();
    c.n = words_beside(offered, store + (found ? PART * c.id : 0), found ? 3 * table[c.id].layers : 0);
    c.offered = lend(offered, 8 * c.n);
    tj_answer a = changed(which, &l, &c);
    *refusal = a.refusal;
    if (!answered(a, 4) || !kept(2))
        return false;
    if (a.refusal || !a.value)
        return again(which, &l, &c, a);
    return change_fits(&l, table, store, c.id, c.offered, which % 2 == 0 ? c.n : 0);
}

static bool put_nothing(size_t which, uint64_t *refusal)
{
    static tj_symbol table[MOST_RECORDS];
    static uint64_t store[PART * MOST_RECORDS + 1];
    lent_table l = lend_table(table, store);
    change c = {.id = some_id(), .authority = once_in(2), .place = some_number()};
    tj_answer a = changed(which, &l, &c);
    *refusal = a.refusal;
    return answered(a, 0) && all_kept() && again(which, &l, &c, a);
}

static bool get_symbol(size_t which, uint64_t *refusal)
{
    (void)which;
    static tj_symbol table[MOST_RECORDS];
    static uint64_t store[PART * MOST_RECORDS + 1];
    lent_table l = lend_table(table, store);
    uint64_t *slot = lend_room(8);
    tj_answer a = tj_get_symbol(l.table, l.nt, l.store, l.ns, id_among(l.nt), once_in(2), slot);
    *refusal = a.refusal;
    bool told = a.refusal || a.value == 0 ? kept(2) : a.value == 2 || *slot < l.nt;
    return answered(a, 2) && kept(0) && kept(1) && told;
}

const export operations[] = {
    {"update_symbol", update_symbol, 0},
    {"put_nothing", put_nothing, 4},
    {"put_type", change_symbol, 0},
    {"put_poison", change_symbol, 1},
    {"forward_declare_type", change_symbol, 2},
    {"forward_declare_poison", change_symbol, 3},
    {"get_symbol", get_symbol, 0},
};
const size_t operation_count = sizeof operations / sizeof *operations;
