/* strength CALLS SEED [malloc]: calls each export in turn, and tells how often it was called, and refused
 * with which number. malloc: every block is from malloc, for a tool that watches those. */
#include "strength.h"
#include <inttypes.h>
#include <stdio.h>
#include <stdlib.h>
#include <string.h>

enum { MOST_EXPORTS = 64 };

static export exports[MOST_EXPORTS];
static size_t export_count;
static uint64_t told[MOST_EXPORTS][REFUSALS];

static void gather(const export *some, size_t count)
{
    memcpy(exports + export_count, some, count * sizeof *some);
    export_count += count;
}

static bool call(size_t which)
{
    uint64_t refusal = 0;
    open_lending();
    bool good = exports[which].run(exports[which].which, &refusal);
    good = close_lending() && good;
    if (refusal < REFUSALS)
        told[which][refusal]++;
    return good;
}

static uint64_t run(uint64_t calls, uint64_t first)
{
    uint64_t failed = 0;
    for (uint64_t i = 0; i < calls; i++) {
        size_t which = i % export_count;
        seed(first + i * 0x2545f4914f6cdd1du);
        if (call(which))
            continue;
        if (failed++ < 20)
            printf("failed: %s, call %" PRIu64 "\n", exports[which].name, i);
    }
    return failed;
}

/* A line for each export: calls, accepted ones, and the refusals as NUMBER:TIMES. */
static void report(void)
{
    for (size_t which = 0; which < export_count; which++) {
        uint64_t calls = 0;
        for (size_t number = 0; number < REFUSALS; number++)
            calls += told[which][number];
        printf("%-36s %9" PRIu64 " %9" PRIu64, exports[which].name, calls, told[which][0]);
        for (size_t number = 1; number < REFUSALS; number++)
            if (told[which][number])
                printf(" %zu:%" PRIu64, number, told[which][number]);
        printf("\n");
    }
}

int main(int argc, char **argv)
{
    if (argc < 3 || argc > 4 || (argc == 4 && strcmp(argv[3], "malloc"))) {
        fprintf(stderr, "usage: strength CALLS SEED [malloc]\n");
        return 2;
    }
    uint64_t calls = strtoull(argv[1], NULL, 10), first = strtoull(argv[2], NULL, 10);
    only_malloc = argc == 4;
    gather(questions, question_count);
    gather(operations, operation_count);
    gather(planning, planning_count);
    uint64_t failed = run(calls, first);
    printf("%-36s %9s %9s refused, number:times\n", "export", "calls", "accepted");
    report();
    printf("%zu exports\n", export_count);
    printf("%" PRIu64 " passed, %" PRIu64 " failed\n", calls - failed, failed);
    return failed > 0;
}
