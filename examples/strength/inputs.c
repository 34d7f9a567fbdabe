/* Words, steps and tables: mostly good ones that are related, the rest damaged or any words at all. */
#include "strength.h"
#include <string.h>

enum { CHAR8 = 12, ARRAY = 14, NAMED, SLICE, SLICE_POINTER, ENDLESS, ARRAYLIKE, STRUCT, WORD, UNRESOLVED,
       POINTER, VIEW };

uint64_t some_number(void)
{
    static const uint64_t some[] = {0, 0, 1, 2, 3, 7, 8, 16, 17, 24, 25, 48, 64, 65, 99, 4294967295u,
                                    4294967296u, UINT64_MAX};
    return once_in(16) ? any() : some[below(sizeof some / sizeof *some)];
}

uint32_t some_id(void)
{
    return once_in(32) ? (uint32_t)any() : (uint32_t)below(8);
}

/* Mostly the id of one of so many records. */
uint32_t id_among(size_t records)
{
    return once_in(4) ? some_id() : (uint32_t)below(records + 1);
}

static void layer(uint64_t *l, uint64_t kind)
{
    bool unnamed = kind == UNRESOLVED && once_in(2);
    bool named = kind == NAMED || kind == STRUCT || kind == WORD || (kind == UNRESOLVED && !unnamed);
    l[0] = kind;
    l[1] = named ? some_id() : 0;
    l[2] = kind == ARRAY || kind == WORD ? some_number() : kind == UNRESOLVED && !unnamed ? 1 : 0;
}

static uint64_t holder(void)
{
    static const uint64_t all[] = {ARRAY, NAMED, ARRAYLIKE, POINTER, POINTER, VIEW, ENDLESS, SLICE,
                                   SLICE_POINTER};
    return all[below(sizeof all / sizeof *all)];
}

static uint64_t leaf(void)
{
    return once_in(2) ? STRUCT + below(3) : below(ARRAY);
}

/* A type that passes the checks; half of them have few layers, inside of which no View or slice stands. */
static size_t good_type(uint64_t *t)
{
    size_t layers = 1 + below(once_in(4) ? 16 : 4);
    bool plain = once_in(2);
    for (size_t i = 0; i + 1 < layers; i++) {
        uint64_t kind = holder();
        while (plain && i > 0 && (kind == VIEW || kind == SLICE || kind == SLICE_POINTER || kind == ENDLESS))
            kind = holder();
        layer(t + 3 * i, kind);
    }
    layer(t + 3 * (layers - 1), leaf());
    return 3 * layers;
}

static size_t damage(uint64_t *t, size_t n)
{
    switch (below(4)) {
    case 0:
        return below(n + 1);
    case 1:
        for (size_t more = below(ROOM - n); more > 0; more--)
            t[n++] = some_number();
        return n;
    case 2:
        t[3 * below(n / 3)] = below(27);
        return n;
    default:
        t[below(n)] = some_number();
        return n;
    }
}

size_t some_words(uint64_t *t)
{
    if (once_in(16)) {
        size_t n = below(ROOM);
        for (size_t i = 0; i < n; i++)
            t[i] = some_number();
        return n;
    }
    size_t n = good_type(t);
    return once_in(8) ? damage(t, n) : n;
}

/* A sheet's bytes: mostly whole ones of good types, some with a word changed, or of another length. */
size_t some_sheet(uint8_t *bytes)
{
    static uint64_t words[1 + 32 + 32 * MOST_WORDS];
    size_t count = 1 + below(once_in(8) ? 32 : 4), n = 1 + count;
    words[0] = count;
    for (size_t k = 0; k < count; k++) {
        size_t body = good_type(words + n);
        words[1 + k] = body / 3;
        n += body;
    }
    if (once_in(8))
        words[below(1 + count)] = some_number();
    if (once_in(8))
        words[below(n)] = some_number();
    for (size_t i = 0; i < 8 * n; i++)
        bytes[i] = (uint8_t)(words[i / 8] >> 8 * (i % 8));
    if (!once_in(8))
        return 8 * n;
    size_t left = once_in(2) ? below(8 * n + 1) : 8 * n + below(17);
    for (size_t i = 8 * n; i < left; i++)
        bytes[i] = (uint8_t)any();
    return left;
}

/* The other words with a layer put in front, taken off or changed, so that relations often hold. */
size_t words_beside(uint64_t *t, const uint64_t *other, size_t n)
{
    if (n < 3 || n > MOST_WORDS || once_in(8))
        return some_words(t);
    memcpy(t, other, 8 * n);
    switch (below(8)) {
    case 0:
        layer(t, once_in(2) ? POINTER : VIEW);
        memcpy(t + 3, other, 8 * (n - 3));
        return n;
    case 1:
        if (n + 3 > MOST_WORDS)
            return n;
        layer(t, holder());
        memcpy(t + 3, other, 8 * n);
        return n + 3;
    case 2:
        memcpy(t, other + 3, 8 * (n - 3));
        return n - 3;
    case 3:
        layer(t, ARRAYLIKE);
        return n;
    case 4:
        t[n - n % 3 - 3] = once_in(2) ? CHAR8 : 6;
        return n;
    case 5:
        return once_in(4) ? damage(t, n) : n;
    default:
        return n;
    }
}

size_t some_steps(uint64_t *s, size_t most)
{
    size_t count = below(once_in(16) ? most + 2 : 4);
    for (size_t i = 0; i < count; i++) {
        uint64_t *step = s + 4 * i;
        step[0] = once_in(6) ? below(6) : below(2);
        step[1] = step[0] < 2 ? some_id() : 0;
        step[2] = step[0] == 1 ? below(2) : step[0] == 0 || step[0] == 2 ? below(3) : 0;
        step[3] = step[0] == 1 && step[2] == 1 ? any() : 0;
        if (once_in(64))
            step[below(4)] = some_number();
    }
    return once_in(64) ? below(4 * count + 1) : 4 * count;
}

/* Any steps, or none, or one that fits where the known type stands behind its Pointers and Views. */
size_t steps_along(uint64_t *s, size_t most, const uint64_t *known, size_t n)
{
    size_t at = 0;
    while (at + 3 <= n && (known[at] == POINTER || known[at] == VIEW))
        at += 3;
    if (at + 3 > n || once_in(3))
        return some_steps(s, most);
    bool member = known[at] == STRUCT || known[at] == WORD;
    s[0] = member;
    s[1] = member ? below(6) : some_id();
    s[2] = s[3] = 0;
    return once_in(2) ? 4 : 0;
}

static void record(tj_symbol *r, uint64_t *part, uint32_t id)
{
    memset(r, 0, sizeof *r);
    r->id = id;
    r->authority = once_in(2);
    r->place = some_number();
    r->state = once_in(6) ? 2 : 1;
    r->mark = some_number();
    r->layers = r->state == 1 ? good_type(part) / 3 : some_number();
}

/* One thing out of order, or of which order says nothing. */
static void disorder(tj_symbol *table, size_t nt, uint64_t *store, size_t *ns)
{
    size_t slot = below(nt);
    switch (below(6)) {
    case 0:
        table[slot].state = some_number();
        break;
    case 1:
        table[slot].id = table[below(nt)].id;
        break;
    case 2:
        table[slot].layers = some_number();
        break;
    case 3:
        store[PART * slot + below(9)] = some_number();
        break;
    case 4:
        *ns = once_in(2) ? *ns - 1 - below(*ns) : *ns + 1;
        break;
    default:
        table[slot].mark = any();
    }
}

size_t some_table(tj_symbol *table, uint64_t *store, size_t *ns)
{
    size_t nt = once_in(200) ? 125 + below(6) : below(7);
    size_t taken = once_in(3) ? below(nt + 1) : nt;
    memset(store, 0, 8 * PART * nt + 8);
    for (size_t slot = 0; slot < nt; slot++) {
        record(&table[slot], store + PART * slot, (uint32_t)slot);
        if (slot >= taken)
            table[slot].state = 0;
    }
    *ns = PART * nt;
    if (nt > 0 && once_in(8))
        disorder(table, nt, store, ns);
    return nt;
}
