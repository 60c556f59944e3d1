/* Plans cases from standard input, for examples/embed/compare.py. A case is a line of numbers: the workers, the number of
 * weights, the slots, the slot, the number of allocations, then the weights' e and p, then the allocations. Its answer is a line
 * for each row, and one that begins with `=`: the refusal's number, the slot and the allocations behind the rows. Each call is
 * made on memory of just the size that it is told.
 */
#include "pfx.h"

#include <inttypes.h>
#include <stdio.h>
#include <stdlib.h>

static void *room(size_t count, size_t size)
{
    void *it = calloc(count ? count : 1, size);
    if (it == NULL)
        exit(2);
    return it;
}

static int number(uint64_t *into)
{
    return scanf("%" SCNu64, into) == 1;
}

/* Plans slots one by one by pfx_next, and whether they are these rows. */
static int is_next(uint32_t workers, const PfxWeight *weights, size_t count, uint64_t slot, const uint64_t *allocs, size_t total,
                   const uint16_t *rows, size_t made)
{
    uint64_t *copy = room(total, sizeof *copy);
    uint16_t *row = room(workers, sizeof *row);
    int same = 1;
    for (size_t x = 0; x < total; x++)
        copy[x] = allocs[x];
    for (size_t i = 0; i < made && same; i++) {
        same = pfx_next(workers, weights, count, slot + i, copy, total, row, workers) == PFX_OK;
        for (size_t j = 0; j < workers && same; j++) {
            same = row[j] == rows[i * workers + j] && row[j] < total;
            if (same)
                copy[row[j]]++;
        }
    }
    free(row);
    free(copy);
    return same;
}

static void answer(uint32_t workers, size_t count, size_t slots, uint64_t slot, size_t total)
{
    PfxWeight *weights = room(count, sizeof *weights);
    uint64_t *allocs = room(total, sizeof *allocs), *before = room(total, sizeof *before), e, p, first = slot;
    uint16_t *rows = room(slots * workers, sizeof *rows);
    size_t made = 0;
    for (size_t x = 0; x < count; x++) {
        if (!number(&e) || !number(&p))
            exit(2);
        weights[x] = (PfxWeight){(uint32_t)e, (uint32_t)p};
    }
    for (size_t x = 0; x < total; x++) {
        if (!number(&allocs[x]))
            exit(2);
        before[x] = allocs[x];
    }
    uint32_t refused = pfx_plan(workers, weights, count, slots, &slot, allocs, total, rows, slots * workers, &made);
    for (size_t i = 0; i < made; i++) {
        printf("%" PRIu64, first + i);
        for (size_t j = 0; j < workers; j++) {
            size_t x = rows[i * workers + j];
            printf(x < count ? ",%zu" : ",*%zu", x < count ? x : x - count);
        }
        printf("\n");
    }
    printf("= %u %" PRIu64, (unsigned)refused, slot);
    for (size_t x = 0; x < total; x++)
        printf(" %" PRIu64, allocs[x]);
    printf(is_next(workers, weights, count, first, before, total, rows, made) ? "\n" : " pfx_next differs\n");
    free(rows);
    free(before);
    free(allocs);
    free(weights);
}

int main(void)
{
    uint64_t workers, count, slots, slot, total;
    while (number(&workers)) {
        if (!number(&count) || !number(&slots) || !number(&slot) || !number(&total))
            return 2;
        answer((uint32_t)workers, count, slots, slot, total);
    }
    return 0;
}
