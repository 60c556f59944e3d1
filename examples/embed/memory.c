/* Each growth of memory refused in turn, once and from then on: each call answers 90 and changes nothing, or, of a plan, has made the
 * rows before, or does without it. The linker puts the functions below in the place of malloc and realloc:
 *
 *   cc -I include -Wl,--wrap=malloc,--wrap=realloc examples/embed/memory.c release/libpfx.a -o memory && ./memory
 */
#include "pfx.h"

#include <stdio.h>
#include <stdlib.h>

#define WORKERS 2
#define TASKS 3
#define SLOTS 4

static size_t growths, refused_at = (size_t)-1;
static int ever_after, failed;

void *__real_malloc(size_t size);
void *__real_realloc(void *old, size_t size);
void *__wrap_malloc(size_t size);
void *__wrap_realloc(void *old, size_t size);

/* Counts a growth, and whether it is refused. */
static int is_refused(void)
{
    size_t number = growths++;
    return number == refused_at || (ever_after && number > refused_at && refused_at != (size_t)-1);
}

void *__wrap_malloc(size_t size) { return is_refused() ? NULL : __real_malloc(size); }

void *__wrap_realloc(void *old, size_t size) { return is_refused() ? NULL : __real_realloc(old, size); }

static void expect(int holds, const char *what)
{
    if (!holds) {
        failed++;
        fprintf(stderr, "memory: %s at growth %zu: not so\n", what, refused_at);
    }
}

static const PfxWeight weights[TASKS] = {{2, 3}, {2, 3}, {2, 3}};
static const uint16_t wanted[SLOTS * WORKERS] = {0, 1, 0, 2, 1, 2, 0, 1};

static uint32_t total_call(void)
{
    size_t total = 7;
    uint32_t number = pfx_total(WORKERS, weights, TASKS, &total);
    expect(total == (number ? 7 : TASKS), "pfx_total");
    return number;
}

static uint32_t set_call(void)
{
    PfxSet set = {7, 7, 7};
    uint16_t task = 7;
    uint32_t number = pfx_set(WORKERS, weights, TASKS, &set, &task);
    expect(set.hyper == (number ? 7 : 3) && set.idle == (number ? 7 : 0) && set.load == (number ? 7 : 6) && task == 7, "pfx_set");
    return number;
}

static uint32_t check_call(void)
{
    const uint64_t allocs[TASKS] = {1, 1, 0};
    uint16_t task = 7;
    uint32_t number = pfx_check(WORKERS, weights, TASKS, 1, allocs, TASKS, &task);
    expect(task == 7, "pfx_check");
    return number;
}

static uint32_t next_call(void)
{
    const uint64_t allocs[TASKS] = {1, 1, 0};
    uint16_t row[WORKERS] = {7, 7};
    uint32_t number = pfx_next(WORKERS, weights, TASKS, 1, allocs, TASKS, row, WORKERS);
    expect(row[0] == (number ? 7 : 0) && row[1] == (number ? 7 : 2), "pfx_next");
    return number;
}

static uint32_t plan_call(void)
{
    uint64_t slot = 0, allocs[TASKS] = {0, 0, 0}, got[TASKS] = {0, 0, 0};
    uint16_t rows[SLOTS * WORKERS] = {7, 7, 7, 7, 7, 7, 7, 7};
    size_t made = 7;
    uint32_t number = pfx_plan(WORKERS, weights, TASKS, SLOTS, &slot, allocs, TASKS, rows, SLOTS * WORKERS, &made);
    expect(made == slot && made <= SLOTS && (number || made == SLOTS), "how many rows pfx_plan made");
    for (size_t i = 0; i < SLOTS * WORKERS; i++) {
        expect(rows[i] == (i < made * WORKERS ? wanted[i] : 7), "pfx_plan's rows");
        if (i < made * WORKERS)
            got[wanted[i]]++;
    }
    for (size_t x = 0; x < TASKS; x++)
        expect(allocs[x] == got[x], "pfx_plan's allocations");
    return number;
}

/* Refuses the call's growths in turn, until it makes fewer. How many it was refused. */
static size_t refuse_each(uint32_t (*call)(void))
{
    for (refused_at = 0;; refused_at++) {
        growths = 0;
        uint32_t number = call();
        if (growths <= refused_at) {
            expect(number == PFX_OK, "a call that has its memory");
            return refused_at;
        }
        /* Room that is only asked for in advance may be refused without harm. */
        expect(number == PFX_NO_MEMORY || (number == PFX_OK && !ever_after), "a refused growth");
    }
}

int main(void)
{
    uint32_t (*const calls[])(void) = {total_call, set_call, check_call, next_call, plan_call};
    size_t refusals = 0;
    for (size_t i = 0; i < sizeof calls / sizeof *calls; i++)
        for (ever_after = 0; ever_after <= 1; ever_after++)
            refusals += refuse_each(calls[i]);
    refused_at = (size_t)-1;
    printf("memory: %zu refused growths, %d failed\n", refusals, failed);
    return failed != 0;
}
