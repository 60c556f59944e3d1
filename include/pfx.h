/* pfx.h: proportionate-fair plans (Algorithm PF) from a proved static library.
 *
 * A task of weight e/p is due e of every p slots. In each slot every worker runs one task, and no task is ever a whole slot
 * ahead of what it is due or behind. The tasks are numbered from 0 in the order of the weights; behind them stand the idle tasks
 * that the set is filled with, so that the weights sum to the workers: a number in a row that isn't below `count` is an idle one.
 *
 * The caller keeps the ledger: the slot, and how many of the slots before it each task got, idle ones too (pfx_total says how
 * many tasks there are). Before slot 0 that is 0 and all zeros. Each call is a function of its arguments.
 *
 * What each call answers: 0, or the number of a refusal. A refusal changes nothing but what the call's lines name.
 *
 * Memory: nothing is kept between calls, and nothing that a call allocates outlives it. A call takes memory by malloc, realloc
 *   and free (some 75 KB at 1,024 tasks, as measured), and writes only through the pointers that aren't const.
 * Pointers: none may be null, also where a length is 0, and each is aligned for its type; behind it lie as many readable (and,
 *   where it isn't const, writable) elements as the length says. What is read need only be initialised.
 * Overlap: what a call writes may overlap nothing else that is passed to it.
 * Threads: calls may run at the same time, unless one writes what another one reads or writes. Not from a signal handler, nor in
 *   the forked child of a process with threads.
 * Stack: a call takes some 5 KiB of it, as measured.
 */
#ifndef PFX_H
#define PFX_H

#include <stddef.h>
#include <stdint.h>

#ifdef __cplusplus
extern "C" {
#endif

/* The refusals' numbers, those of the program pfx. */
enum {
    PFX_OK = 0,
    PFX_NO_TASKS = 11,                /* there is no weight */
    PFX_TOO_MANY_TASKS = 12,          /* more than 1,024 weights */
    PFX_BAD_WORKERS = 13,             /* not 1 to 64 workers */
    PFX_BAD_WEIGHT = 14,              /* a weight that isn't 1 <= e < p */
    PFX_HYPERPERIOD_TOO_LARGE = 16,   /* the periods' least common multiple passes 1,048,576 */
    PFX_OVERLOAD = 17,                /* the weights sum to more than the workers */
    PFX_TOO_MANY_URGENT = 21,         /* more tasks have to run in the slot than there are workers */
    PFX_TOO_FEW_ELIGIBLE = 22,        /* fewer tasks may run in the slot than there are workers */
    PFX_SLOT_LIMIT = 23,              /* the slot is 2^40 - 1, the last one */
    PFX_OUT_OF_RANGE = 24,            /* a task's lag isn't strictly between minus one and one */
    PFX_WRONG_SUM = 25,               /* the allocations don't sum to the workers times the slot */
    PFX_BAD_LEDGER = 26,              /* a slot of 2^40 or more, or not one allocation for each task */
    PFX_NO_ROOM = 57,                 /* too few places for the rows */
    PFX_NO_MEMORY = 90                /* an allocation failed */
};

/* e of every p slots, 1 <= e < p. */
typedef struct PfxWeight {
    uint32_t e;
    uint32_t p;
} PfxWeight;

/* What is known of a set. */
typedef struct PfxSet {
    uint32_t hyper;   /* the hyperperiod in slots, 2 to 1,048,576: the least common multiple of the periods */
    uint32_t idle;    /* how many idle tasks the set is filled with, at most 128 */
    uint64_t load;    /* the weights sum to load/hyper */
} PfxSet;

/* Puts into *total how many tasks the set has, idle ones too: count + idle, at most 1,152. Refusals: 11 to 17, 90. */
uint32_t pfx_total(uint32_t workers, const PfxWeight *weights, size_t count, size_t *total);

/* Puts into *set what is known of the set. Refusals: 11 to 17, 90; with 14 and 16 *task becomes the first such task. */
uint32_t pfx_set(uint32_t workers, const PfxWeight *weights, size_t count, PfxSet *set, uint16_t *task);

/* Whether the slot and the allocations are a ledger of the set. Refusals: 11 to 17, 24 to 26, 90; with 14, 16 and 24 *task
 * becomes the first such task. */
uint32_t pfx_check(uint32_t workers, const PfxWeight *weights, size_t count, uint64_t slot, const uint64_t *allocs,
                   size_t allocs_len, uint16_t *task);

/* Puts the row of the ledger's slot into the first `workers` places of row: the tasks that run, rising. row_len may be more than
 * `workers`; what stands behind stays. Refusals: those of pfx_check, and 57, 21, 22, 23. */
uint32_t pfx_next(uint32_t workers, const PfxWeight *weights, size_t count, uint64_t slot, const uint64_t *allocs,
                  size_t allocs_len, uint16_t *row, size_t row_len);

/* Puts the rows of the next `slots` slots into rows, `workers` numbers each, one row behind the other, and takes the ledger
 * along: *slot and allocs become those behind the rows. *made becomes the number of rows. rows_len is at least slots * workers;
 * what stands behind stays. Refusals before anything is made: those of pfx_check, and 57; *made is 0 then. Where there is no row
 * at one of the slots (21, 22, 23, 90), *made rows are made and the ledger is taken behind them. */
uint32_t pfx_plan(uint32_t workers, const PfxWeight *weights, size_t count, size_t slots, uint64_t *slot, uint64_t *allocs,
                  size_t allocs_len, uint16_t *rows, size_t rows_len, size_t *made);

#ifdef __cplusplus
}
#endif

#endif
