/* What bench/run measures of the library that C programs embed: `embed plan SLOTS WORKERS E/P E/P ..` plans that many slots of a
 * set by calls of pfx_plan over 1,000 slots, prints the same sum over the rows as pfx_bench_choice does, and on standard error how many
 * nanoseconds it took.
 */
#include "pfx.h"

#include <inttypes.h>
#include <stdio.h>
#include <stdlib.h>
#include <time.h>

#define BLOCK 1000

static uint64_t now(void)
{
    struct timespec at;
    clock_gettime(CLOCK_MONOTONIC, &at);
    return (uint64_t)at.tv_sec * 1000000000u + (uint64_t)at.tv_nsec;
}

int main(int argc, char **argv)
{
    if (argc < 5)
        return 2;
    size_t slots = strtoull(argv[2], NULL, 10), count = (size_t)argc - 4, total, made;
    uint32_t m = (uint32_t)strtoul(argv[3], NULL, 10);
    PfxWeight *weights = calloc(count, sizeof *weights);
    for (size_t x = 0; x < count; x++)
        if (weights == NULL || sscanf(argv[x + 4], "%" SCNu32 "/%" SCNu32, &weights[x].e, &weights[x].p) != 2)
            return 2;
    if (pfx_total(m, weights, count, &total) != PFX_OK)
        return 1;
    uint64_t slot = 0, sum = 0, *allocs = calloc(total, sizeof *allocs), start;
    uint16_t *rows = calloc((size_t)m * BLOCK, sizeof *rows);
    if (allocs == NULL || rows == NULL)
        return 2;
    start = now();
    while (slot < slots) {
        size_t block = slots - slot < BLOCK ? slots - slot : BLOCK;
        if (pfx_plan(m, weights, count, block, &slot, allocs, total, rows, (size_t)m * BLOCK, &made) != PFX_OK)
            return 1;
        for (size_t i = 0; i < made * m; i++)
            sum = sum * 31 + rows[i] + 1;
    }
    fprintf(stderr, "%" PRIu64 "\n", now() - start);
    printf("%" PRIu64 "\n", sum);
    free(rows);
    free(allocs);
    free(weights);
    return 0;
}
