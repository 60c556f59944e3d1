/* Three tasks of 2/3 on two workers: the set, a plan of six slots, and the next row.
 *
 *   cc -I include examples/embed/shares.c examples/embed/out/libpfx.a -o shares && ./shares
 */
#include "pfx.h"

#include <stdio.h>
#include <stdlib.h>

#define WORKERS 2
#define TASKS 3
#define SLOTS 6

static void stop_on(uint32_t number, const char *what)
{
    if (number != PFX_OK) {
        fprintf(stderr, "%s: pfx refuses: %u\n", what, (unsigned)number);
        exit(1);
    }
}

static void print_row(uint64_t slot, const uint16_t *row)
{
    printf("%llu", (unsigned long long)slot);
    for (size_t i = 0; i < WORKERS; i++)
        printf(row[i] < TASKS ? " %u" : " *", (unsigned)row[i]);
    printf("\n");
}

int main(void)
{
    const PfxWeight weights[TASKS] = {{2, 3}, {2, 3}, {2, 3}};
    PfxSet set;
    uint16_t task = 0;
    stop_on(pfx_set(WORKERS, weights, TASKS, &set, &task), "the set");
    printf("hyper=%u idle=%u load=%llu\n", (unsigned)set.hyper, (unsigned)set.idle, (unsigned long long)set.load);

    size_t total = TASKS + set.idle, made = 0;
    uint64_t slot = 0, *allocs = calloc(total, sizeof *allocs);
    uint16_t rows[SLOTS * WORKERS], row[WORKERS];
    if (allocs == NULL)
        return 1;
    stop_on(pfx_plan(WORKERS, weights, TASKS, SLOTS, &slot, allocs, total, rows, SLOTS * WORKERS, &made), "the plan");
    for (size_t i = 0; i < made; i++)
        print_row(slot - made + i, rows + i * WORKERS);
    stop_on(pfx_check(WORKERS, weights, TASKS, slot, allocs, total, &task), "the ledger");
    stop_on(pfx_next(WORKERS, weights, TASKS, slot, allocs, total, row, WORKERS), "the next row");
    print_row(slot, row);
    free(allocs);
    return 0;
}
