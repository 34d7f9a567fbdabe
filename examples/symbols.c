/* A host keeps a symbol table: the steps of symbols.inc, each printed with its answer and, where
 * something was stored, with the record afterwards.
 *
 *   cc -I include examples/symbols.c "$(./archive)/libtrestlejay.a" -o symbols && ./symbols
 */
#include "trestlejay.h"
#include <inttypes.h>
#include <stdio.h>
#include <string.h>

/* Three records that are free at first, with their store, and a word more. */
static tj_symbol table[3];
static uint64_t store[3 * TJ_SLOT_WORDS + 1];
static size_t records = 3, stored = 3 * TJ_SLOT_WORDS;

static tj_symbol alone;
static uint64_t alone_words[TJ_SLOT_WORDS + 1];
static size_t room = TJ_SLOT_WORDS;

static uint64_t found;

typedef struct {
    const uint64_t *words;
    size_t n;
} type;

#define TABLE table, records, store, stored

static tj_answer put_nothing(uint32_t id, bool authority, uint64_t place)
{
    return tj_put_nothing(TABLE, id, authority, place);
}

static tj_answer put_type(uint32_t id, bool authority, uint64_t place, type t)
{
    return tj_put_type(TABLE, id, authority, place, t.words, t.n);
}

static tj_answer put_poison(uint32_t id, bool authority, uint64_t place, uint64_t mark)
{
    return tj_put_poison(TABLE, id, authority, place, mark);
}

static tj_answer forward_declare_type(uint32_t id, bool authority, uint64_t place, type t)
{
    return tj_forward_declare_type(TABLE, id, authority, place, t.words, t.n);
}

static tj_answer forward_declare_poison(uint32_t id, bool authority, uint64_t place, uint64_t mark)
{
    return tj_forward_declare_poison(TABLE, id, authority, place, mark);
}

static tj_answer get_symbol(uint32_t id, bool authority)
{
    found = 7;
    return tj_get_symbol(TABLE, id, authority, &found);
}

static tj_answer update_symbol(uint32_t id, bool authority, uint64_t place, type t)
{
    return tj_update_symbol(&alone, alone_words, room, id, authority, place, t.words, t.n);
}

static void show(const char *name, const tj_symbol *s, const uint64_t *words)
{
    printf("  %s: id %" PRIu32 ", %s, place %" PRIu64, name, s->id,
           s->authority ? "authoritative" : "not authoritative", s->place);
    if (s->state == TJ_TYPED) {
        printf(", type");
        for (size_t k = 0; k < 3 * s->layers; k++)
            printf(" %" PRIu64, words[k]);
    }
    printf(", mark %" PRIu64 "\n", s->mark);
}

static void show_slot(size_t k)
{
    char name[24];
    snprintf(name, sizeof name, "slot %zu", k);
    show(name, &table[k], store + TJ_SLOT_WORDS * k);
}

/* The step, its answer, and what it stored or found. */
static void say(const char *operation, const char *arguments, uint32_t id, tj_answer a)
{
    if (a.refusal) {
        printf("%s %s: refused %" PRIu64 " at %" PRIu64 "\n", operation, arguments, a.refusal,
               a.value);
        return;
    }
    printf("%s %s: %" PRIu64 "\n", operation, arguments, a.value);
    if (strcmp(operation, "get_symbol") == 0)
        printf("  found %" PRIu64 "\n", found);
    else if (a.value && strcmp(operation, "update_symbol") == 0)
        show("alone", &alone, alone_words);
    else if (a.value)
        for (size_t k = 0; k < records; k++)
            if (table[k].state != TJ_FREE && table[k].id == id)
                show_slot(k);
}

#define FIRST(id, ...) id
#define TYPE(name, ...) \
    static const uint64_t name##_words[] = {__VA_ARGS__}; \
    const type name = {name##_words, sizeof name##_words / sizeof *name##_words};
#define STEP(operation, ...) \
    say(#operation, #__VA_ARGS__, FIRST(__VA_ARGS__, 0), operation(__VA_ARGS__));
#define SET(slot, field, number) table[slot].field = number;
#define LEND(r, w) records = r, stored = w;
#define SHOW(all) \
    for (size_t k = 0; k < records; k++) \
        show_slot(k);
#define ALONE(field, number) alone.field = number;
#define FILL(t) memcpy(alone_words, t.words, t.n * sizeof *t.words);
#define ROOM(w) room = w;

int main(void)
{
#include "symbols.inc"
    return 0;
}
