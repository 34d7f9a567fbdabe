/* What a question costs, by the number of layers: nanoseconds a call, the least of five runs.
 *
 *   cc -O2 -I include examples/time.c "$(./archive)/libtrestlejay.a" -o time && ./time
 */
#define _POSIX_C_SOURCE 199309L
#include "trestlejay.h"
#include <stdio.h>
#include <time.h>

enum { CALLS = 1000000, RUNS = 5, MOST = 16 };

static uint64_t types[2][3 * MOST];

static tj_answer check(const uint64_t *t, size_t n)
{
    return tj_check(t, n);
}

static tj_answer wellformed(const uint64_t *t, size_t n)
{
    return tj_is_wellformed(t, n);
}

static tj_answer equals(const uint64_t *t, size_t n)
{
    return tj_equals(t, n, t + 3 * MOST, n);
}

static double seconds(void)
{
    struct timespec t;
    clock_gettime(CLOCK_MONOTONIC, &t);
    return t.tv_sec + t.tv_nsec * 1e-9;
}

static double cost(tj_answer (*question)(const uint64_t *, size_t), size_t layers)
{
    const uint64_t *t = types[0] + 3 * (MOST - layers);
    double least = 1;
    volatile uint64_t sum = 0;
    for (int run = 0; run < RUNS; run++) {
        double start = seconds();
        for (int i = 0; i < CALLS; i++)
            sum += question(t, 3 * layers).value;
        double took = (seconds() - start) / CALLS;
        if (took < least)
            least = took;
    }
    return least * 1e9;
}

int main(void)
{
    /* Arrays and Pointers in turn around an Int32, twice, so that equals walks to the end. */
    for (int copy = 0; copy < 2; copy++)
        for (int i = 0; i < MOST; i++) {
            uint64_t *layer = types[copy] + 3 * i;
            layer[0] = i == MOST - 1 ? 3 : i % 2 ? 23 : 14;
            layer[2] = layer[0] == 14 ? 3 : 0;
        }
    printf("layers check wellformed equals\n");
    for (size_t layers = 1; layers <= MOST; layers *= 2)
        printf("%zu %.0f %.0f %.0f\n", layers, cost(check, layers), cost(wellformed, layers),
               cost(equals, layers));
    return 0;
}
