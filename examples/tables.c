/* What a table costs, by its number of records: nanoseconds a call, the least of seven runs. Every call asks for the
 * order of the whole table. Beside it, what sorting as many ids costs.
 *
 *   cc -O2 -I include examples/tables.c "$(./archive)/libtrestlejay.a" -o tables && ./tables
 */
#define _POSIX_C_SOURCE 199309L
#include "trestlejay.h"
#include <stdio.h>
#include <stdlib.h>
#include <string.h>
#include <time.h>

enum { MOST = 128, SLOT = 48, RUNS = 7 };

static tj_symbol table[MOST];
static uint64_t store[MOST * SLOT];
static uint32_t ids[MOST], sorted[MOST];
static size_t count;
static volatile uint64_t sum;

static double seconds(void)
{
    struct timespec t;
    clock_gettime(CLOCK_MONOTONIC, &t);
    return t.tv_sec + t.tv_nsec * 1e-9;
}

static void get(void)
{
    uint64_t found = 0;
    sum += tj_get_symbol(table, count, store, SLOT * count, ids[count - 1], true, &found).value + found;
}

/* The type that is there already: nothing changes. */
static void put(void)
{
    sum += tj_put_type(table, count, store, SLOT * count, ids[count - 1], false, 1,
                       store + SLOT * (count - 1), 6)
               .value;
}

static int compare(const void *a, const void *b)
{
    uint32_t x = *(const uint32_t *)a, y = *(const uint32_t *)b;
    return x < y ? -1 : x > y;
}

static void sort(void)
{
    memcpy(sorted, ids, sizeof ids[0] * count);
    qsort(sorted, count, sizeof sorted[0], compare);
    sum += sorted[0];
}

static void sink(size_t root, size_t end)
{
    for (size_t child; (child = 2 * root + 1) < end; root = child) {
        if (child + 1 < end && sorted[child] < sorted[child + 1])
            child++;
        if (sorted[root] >= sorted[child])
            return;
        uint32_t kept = sorted[root];
        sorted[root] = sorted[child];
        sorted[child] = kept;
    }
}

static void heapsort(void)
{
    memcpy(sorted, ids, sizeof ids[0] * count);
    for (size_t i = count / 2; i-- > 0;)
        sink(i, count);
    for (size_t end = count; end-- > 1;) {
        uint32_t kept = sorted[0];
        sorted[0] = sorted[end];
        sorted[end] = kept;
        sink(0, end);
    }
    sum += sorted[0];
}

static double cost(void (*work)(void))
{
    double least = 1;
    int calls = 200000 / (int)count + 2000;
    for (int run = 0; run < RUNS; run++) {
        double start = seconds();
        for (int i = 0; i < calls; i++)
            work();
        double took = (seconds() - start) / calls;
        if (took < least)
            least = took;
    }
    return least * 1e9;
}

/* Typed records with an Array of three Int32 each, or poisoned ones; ids in a row, or scattered. */
static void fill(bool typed, bool scattered)
{
    memset(store, 0, sizeof store);
    for (size_t i = 0; i < count; i++) {
        ids[i] = scattered ? (uint32_t)i * 2654435761u : (uint32_t)i + 1000;
        table[i] = (tj_symbol){.id = ids[i], .place = i, .state = typed ? 1 : 2, .layers = typed ? 2 : 0};
        if (typed) {
            uint64_t *words = store + SLOT * i;
            words[0] = 14;
            words[2] = 3;
            words[3] = 3;
        }
    }
}

int main(void)
{
    static const size_t counts[] = {8, 32, 128};
    printf("records: get, put | get of poisoned ones: ids in a row, scattered | sorting the ids: qsort, by a heap\n");
    for (int i = 0; i < 3; i++) {
        count = counts[i];
        fill(true, true);
        double got = cost(get), done = cost(put);
        fill(false, false);
        double row = cost(get);
        fill(false, true);
        double scattered = cost(get);
        printf("%zu: %.0f, %.0f | %.0f, %.0f | %.0f, %.0f\n", count, got, done, row, scattered, cost(sort), cost(heapsort));
    }
    return 0;
}
