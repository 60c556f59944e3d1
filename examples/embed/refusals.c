/* Bad input of every kind: each call answers its number and changes nothing but what pfx.h names. The arrays lie in memory of
 * just the size that the calls are told, so that valgrind sees what is read or written outside. Ends with 0 where all is so.
 */
#include "pfx.h"

#include <stdio.h>
#include <stdlib.h>
#include <string.h>

#define LAST 1099511627775u /* 2^40 - 1 */

static int tried, failed;

/* Counts one trial. */
static void expect(int holds, const char *what, uint32_t number)
{
    tried++;
    if (!holds) {
        failed++;
        fprintf(stderr, "refusals: %s, %u: not so\n", what, (unsigned)number);
    }
}

/* A copy in memory of just its size, which isn't null where there is nothing to copy. */
static void *copy_of(const void *from, size_t size)
{
    void *it = malloc(size ? size : 1);
    if (it == NULL)
        exit(2);
    memcpy(it, from, size);
    return it;
}

/* What the arrays held before a call and hold behind it. */
static int is_same(const void *one, const void *other, size_t size)
{
    return memcmp(one, other, size) == 0;
}

/* A set that is refused by this number, by each call, and which task it names (7777: none). */
static void refuses_set(uint32_t workers, const PfxWeight *given, size_t count, uint32_t number, uint16_t named)
{
    PfxWeight *weights = copy_of(given, count * sizeof *given);
    PfxSet set = {1, 2, 3};
    size_t total = 4, made = 5;
    uint16_t task = 7777, checked = 7777, row[64] = {6};
    uint64_t slot = 0, none = 0, *allocs = copy_of(&none, 0);
    expect(pfx_total(workers, weights, count, &total) == number && total == 4, "pfx_total", number);
    expect(pfx_set(workers, weights, count, &set, &task) == number && task == named, "pfx_set", number);
    expect(set.hyper == 1 && set.idle == 2 && set.load == 3, "pfx_set leaves the set", number);
    expect(pfx_check(workers, weights, count, 0, allocs, 0, &checked) == number && checked == named, "pfx_check", number);
    expect(pfx_next(workers, weights, count, 0, allocs, 0, row, 64) == number && row[0] == 6, "pfx_next", number);
    expect(pfx_plan(workers, weights, count, 1, &slot, allocs, 0, row, 64, &made) == number, "pfx_plan", number);
    expect(slot == 0 && made == 0 && row[0] == 6, "pfx_plan leaves all", number);
    free(allocs);
    free(weights);
}

/* A ledger, of a set that is none's fault, that is refused by this number; pfx_check passes it where the number is a choice's. */
static void refuses_ledger(uint32_t workers, const PfxWeight *given, size_t count, uint64_t slot, const uint64_t *got, size_t total,
                           uint32_t number, uint16_t named)
{
    PfxWeight *weights = copy_of(given, count * sizeof *given);
    uint64_t *allocs = copy_of(got, total * sizeof *got), at = slot;
    uint16_t blank[8] = {9, 9, 9, 9, 9, 9, 9, 9}, *row = copy_of(blank, 2 * workers * sizeof *blank), task = 7777;
    uint32_t checked = number >= PFX_TOO_MANY_URGENT && number <= PFX_SLOT_LIMIT ? PFX_OK : number;
    size_t made = 5;
    expect(pfx_check(workers, weights, count, slot, allocs, total, &task) == checked && task == named, "pfx_check", number);
    expect(pfx_next(workers, weights, count, slot, allocs, total, row, workers) == number, "pfx_next", number);
    expect(pfx_plan(workers, weights, count, 2, &at, allocs, total, row, 2 * workers, &made) == number, "pfx_plan", number);
    expect(at == slot && made == 0, "pfx_plan leaves the slot", number);
    expect(is_same(allocs, got, total * sizeof *got), "pfx_plan leaves the allocations", number);
    expect(is_same(row, blank, 2 * workers * sizeof *blank), "the rows are left", number);
    free(row);
    free(allocs);
    free(weights);
}

/* Too few places, of a ledger that has a row. */
static void refuses_places(size_t slots, size_t places)
{
    const PfxWeight thirds[3] = {{2, 3}, {2, 3}, {2, 3}};
    uint64_t slot = 0, allocs[3] = {0, 0, 0};
    uint16_t blank[8] = {9, 9, 9, 9, 9, 9, 9, 9}, *row = copy_of(blank, places * sizeof *blank);
    size_t made = 5;
    if (slots == 1)
        expect(pfx_next(2, thirds, 3, 0, allocs, 3, row, places) == PFX_NO_ROOM, "pfx_next in few places", PFX_NO_ROOM);
    expect(pfx_plan(2, thirds, 3, slots, &slot, allocs, 3, row, places, &made) == PFX_NO_ROOM, "pfx_plan in few places", PFX_NO_ROOM);
    expect(slot == 0 && made == 0 && allocs[0] + allocs[1] + allocs[2] == 0, "few places leave the ledger", PFX_NO_ROOM);
    expect(is_same(row, blank, places * sizeof *blank), "few places are left", PFX_NO_ROOM);
    free(row);
}

static void sets(void)
{
    PfxWeight many[1025], half = {1, 2};
    const PfxWeight whole[2] = {{1, 2}, {3, 3}}, zero[1] = {{0, 5}}, long_one[2] = {{1, 1048576}, {1, 3}},
                    huge[1] = {{4294967294u, 4294967295u}}, heavy[2] = {{2, 3}, {2, 3}};
    for (int x = 0; x < 1025; x++)
        many[x] = half;
    refuses_set(1, many, 0, PFX_NO_TASKS, 7777);
    refuses_set(64, many, 1025, PFX_TOO_MANY_TASKS, 7777);
    refuses_set(0, many, 1, PFX_BAD_WORKERS, 7777);
    refuses_set(65, many, 1, PFX_BAD_WORKERS, 7777);
    refuses_set(4294967295u, many, 1, PFX_BAD_WORKERS, 7777);
    refuses_set(1, whole, 2, PFX_BAD_WEIGHT, 1);
    refuses_set(1, zero, 1, PFX_BAD_WEIGHT, 0);
    refuses_set(1, long_one, 2, PFX_HYPERPERIOD_TOO_LARGE, 1);
    refuses_set(1, huge, 1, PFX_HYPERPERIOD_TOO_LARGE, 0);
    refuses_set(1, heavy, 2, PFX_OVERLOAD, 7777);
}

static void ledgers(void)
{
    const PfxWeight thirds[3] = {{2, 3}, {2, 3}, {2, 3}}, sixths[4] = {{1, 3}, {1, 3}, {1, 6}, {1, 6}},
                    heavy[4] = {{2, 3}, {2, 3}, {5, 6}, {5, 6}}, halves[2] = {{1, 2}, {1, 2}}, third[1] = {{1, 3}};
    const uint64_t zeros[4] = {0, 0, 0, 0}, more[3] = {1, 0, 2}, huge[3] = {18446744073709551615u, 0, 0}, ones[3] = {1, 1, 1},
                   two[4] = {0, 0, 1, 1}, four[4] = {2, 2, 1, 1}, last[2] = {549755813888u, 549755813887u};
    refuses_ledger(2, thirds, 3, 0, zeros, 0, PFX_BAD_LEDGER, 7777);
    refuses_ledger(2, thirds, 3, 0, zeros, 2, PFX_BAD_LEDGER, 7777);
    refuses_ledger(2, thirds, 3, 0, zeros, 4, PFX_BAD_LEDGER, 7777);
    refuses_ledger(1, third, 1, 0, zeros, 1, PFX_BAD_LEDGER, 7777);
    refuses_ledger(2, thirds, 3, LAST + 1, zeros, 3, PFX_BAD_LEDGER, 7777);
    refuses_ledger(2, thirds, 3, 18446744073709551615u, zeros, 3, PFX_BAD_LEDGER, 7777);
    refuses_ledger(2, thirds, 3, 1, more, 3, PFX_OUT_OF_RANGE, 2);
    refuses_ledger(2, thirds, 3, 0, huge, 3, PFX_OUT_OF_RANGE, 0);
    refuses_ledger(2, thirds, 3, 1, ones, 3, PFX_WRONG_SUM, 7777);
    refuses_ledger(1, sixths, 4, 2, two, 4, PFX_TOO_MANY_URGENT, 7777);
    refuses_ledger(3, heavy, 4, 2, four, 4, PFX_TOO_FEW_ELIGIBLE, 7777);
    refuses_ledger(1, halves, 2, LAST, last, 2, PFX_SLOT_LIMIT, 7777);
}

int main(void)
{
    sets();
    ledgers();
    refuses_places(1, 0);
    refuses_places(1, 1);
    refuses_places(3, 5);
    refuses_places((size_t)-1, 4);
    refuses_places((size_t)-1 / 2 + 1, 4);
    printf("refusals: %d trials, %d failed\n", tried, failed);
    return failed != 0;
}
