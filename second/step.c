/* The compiled library, cut at every one of its stores.
 *
 * The proof speaks of stores of one byte, in the order of the source. The
 * compiler behind it may merge, move or drop some. So the archive itself is
 * stepped here, and what stands in table, order and log after an instruction
 * that changed a byte of them is what a loss of supply would leave: a copy of it
 * is recovered, and must be the store as it was before the swap or, once the
 * seal is cleared, as it is after.
 *
 * There are two ways of stepping, and both are judged by the same code:
 *   faults  The memory is closed for writing. An instruction that stores there
 *           is caught, let through by itself with the processor's trap flag, and
 *           caught again. It is fast: many swaps, slices and recoveries.
 *   traced  A child makes the call, and ptrace stops it after every instruction,
 *           from the first to the last. It is slow: every shape of a swap and
 *           every answer of a slice, but few of each.
 *
 * What a call should leave, swap by swap, is learned from the same calls
 * without stepping; that these are right, others test. What should stand in
 * the log is made up here, from the store before and after each swap. */

#define _GNU_SOURCE

#include <inttypes.h>
#include <stddef.h>
#include <stdint.h>
#include <stdio.h>
#include <stdlib.h>
#include <string.h>

#include "relay.h"

#ifdef __x86_64__

#include <errno.h>
#include <signal.h>
#include <stdarg.h>
#include <sys/mman.h>
#include <sys/ptrace.h>
#include <sys/wait.h>
#include <ucontext.h>
#include <unistd.h>

#include "step/store.h"
#include "step/watch.h"
#include "step/ways.h"
#include "step/calls.h"
#include "step/shapes.h"
#include "step/diagrams.h"

static const size_t spares[] = {0, 2, 40};
#define SPARES (sizeof spares / sizeof spares[0])

/* Swaps a level with the log it has; answers whether there was room. */
static int try_swap(const struct store *store, uint32_t level)
{
    struct call call = {SWAP, level, 0, NULL, 0, {0}};
    uint8_t *stages = try_call(store, &call);

    if (call.answer[0] == RELAY_MADE) {
        classify(store, stages, stages + kept(store));
    }
    free(stages);
    return call.answer[0] == RELAY_MADE;
}

/* How many entries the log of a swap has that finds room. */
static size_t entries_of(const struct store *store, uint32_t level)
{
    static uint8_t bytes[MOST_WHOLE], log[MOST_LOG];
    struct call call = {SWAP, level, 0, NULL, 0, {0}};

    memcpy(bytes, store->bytes, whole(store));
    make(&call, store, bytes);
    return put_entries(store, store->bytes, bytes, log);
}

/* The same with the shortest log that will do, and with one too short. */
static void try_logs(const struct store *as_lent, uint32_t level)
{
    static struct store store;
    size_t needed = entries_of(as_lent, level);

    store = *as_lent;
    lend_log(&store, needed + 1);
    if (!try_swap(&store, level)) {
        fail("a log of %zu records is too short for %zu entries", needed + 1,
             needed);
    }
    lend_log(&store, needed);
    if (try_swap(&store, level)) {
        fail("a log of %zu records has %zu entries", needed, needed);
    }
}

static void name_case(const struct recipe *recipe, const struct store *store,
                      const char *what, uint32_t number)
{
    snprintf(watch.name, sizeof watch.name, "%s, %zu records, %s %" PRIu32,
             recipe->name, records(store), what, number);
}

/* Swaps at so many levels, unstepped: other shapes of the same diagram. */
static void wander(struct store *store, int steps)
{
    while (steps-- > 0) {
        struct call call = {SWAP, any() % (uint32_t)(store->levels - 1),
                            0, NULL, 0, {0}};
        make(&call, store, store->bytes);
    }
}

static void swap_each_level(const struct recipe *recipe,
                            const struct store *store, int logs)
{
    uint32_t level;

    for (level = 0; level + 1 < store->levels; level++) {
        name_case(recipe, store, "swap at level", level);
        if (try_swap(store, level) && logs) {
            try_logs(store, level);
        }
    }
}

static void swaps_on(const struct recipe *recipe, size_t spare)
{
    static struct store store;
    int round;

    prepare(&store, recipe, spare);
    for (round = 0; round < 3; round++) {
        swap_each_level(recipe, &store, 1);
        wander(&store, 5);
    }
}

static void slice_on(const struct store *store, const uint8_t *target,
                     uint32_t plan, uint32_t budget)
{
    struct call call = {RUN, plan, budget, target, 0, {0}};
    uint8_t *stages = try_call(store, &call);
    size_t number;

    for (number = 0; number < swaps_of(&call); number++) {
        classify(store, stages + number * kept(store),
                 stages + (number + 1) * kept(store));
    }
    count_ending(&call);
    free(stages);
}

static void reverse(const struct recipe *recipe, uint8_t *target)
{
    size_t level;

    for (level = 0; level < recipe->levels; level++) {
        target[level] = (uint8_t)(recipe->levels - 1 - level);
    }
}

/* To the reversed order by each plan: as far as it goes, with half of the swaps
 * allowed, and with a log that is enough for small swaps only. */
static void slices_on(const struct recipe *recipe, size_t spare)
{
    static struct store store;
    uint8_t target[RELAY_MOST_VARIABLES];
    uint32_t plan;
    uint32_t half = (uint32_t)(recipe->levels * (recipe->levels - 1) / 4);

    reverse(recipe, target);
    for (plan = 0; plan < PLANS; plan++) {
        prepare(&store, recipe, spare);
        name_case(recipe, &store, "run by plan", plan);
        slice_on(&store, target, plan, UINT32_MAX);
        slice_on(&store, target, plan, half);
        lend_log(&store, 8);
        slice_on(&store, target, plan, UINT32_MAX);
    }
}

static void on_a_large_table(void)
{
    static struct store store;
    uint8_t target[RELAY_MOST_VARIABLES];
    uint32_t level;

    prepare(&store, &large, 300);
    for (level = 0; level + 1 < store.levels; level += 2) {
        name_case(&large, &store, "swap at level", level);
        try_swap(&store, level);
        target[level] = (uint8_t)(level + 1);
        target[level + 1] = (uint8_t)level;
    }
    name_case(&large, &store, "run by plan", RELAY_HIGHEST_INVERSION);
    slice_on(&store, target, RELAY_HIGHEST_INVERSION, 3);
}

/* The longest table and log, and all levels: at the top, where few records
 * change, and at the bottom, where none does; then both in one slice. */
static void on_the_largest_store(void)
{
    static struct store store;
    const uint32_t bottom = RELAY_MOST_VARIABLES - 2;
    uint8_t target[RELAY_MOST_VARIABLES];

    prepare_largest(&store, &large);
    memcpy(target, store.bytes + store.table, sizeof target);
    target[0] = 1;
    target[1] = 0;
    target[bottom] = (uint8_t)(bottom + 1);
    target[bottom + 1] = (uint8_t)bottom;
    name_case(&large, &store, "swap at the top and level", bottom);
    if (!try_swap(&store, 0) || !try_swap(&store, bottom)) {
        fail("no swap is made");
    }
    name_case(&large, &store, "run by plan", RELAY_SINK_DOWN);
    slice_on(&store, target, RELAY_SINK_DOWN, UINT32_MAX);
    printf("step: %s: two swaps and a slice with %zu records, %zu levels and a "
           "log of %zu bytes\n",
           way->name, records(&store), store.levels, store.log);
}

static void cases_by_faults(void)
{
    size_t recipe, spare;

    for (recipe = 0; recipe < RECIPES; recipe++) {
        for (spare = 0; spare < SPARES; spare++) {
            swaps_on(&recipes[recipe], spares[spare]);
            slices_on(&recipes[recipe], spares[spare]);
        }
    }
    on_a_large_table();
    on_the_largest_store();
}

/* Slices to the reversed order: each answer, and each plan. */
static const struct {
    size_t recipe;
    size_t spare;
    uint32_t plan, budget;
    size_t log; /* how many records; 0 where it is long enough */
} traced_slices[] = {
    {PARITY, 0, RELAY_BRING_UP, UINT32_MAX, 0},         /* done */
    {MAJORITY_AND_PARITY, 0, RELAY_SINK_DOWN, 3, 0},    /* paused */
    {PAIRS, 2, RELAY_LOWEST_INVERSION, UINT32_MAX, 0},  /* no room */
    {PAIRS, 8, RELAY_HIGHEST_INVERSION, UINT32_MAX, 6}, /* log short */
};
#define TRACED_SLICES (sizeof traced_slices / sizeof traced_slices[0])

static void traced_slice(size_t number)
{
    static struct store store;
    const struct recipe *recipe = &recipes[traced_slices[number].recipe];
    uint32_t plan = traced_slices[number].plan;
    uint8_t target[RELAY_MOST_VARIABLES];

    prepare(&store, recipe, traced_slices[number].spare);
    if (traced_slices[number].log > 0) {
        lend_log(&store, traced_slices[number].log);
    }
    reverse(recipe, target);
    name_case(recipe, &store, "run by plan", plan);
    slice_on(&store, target, plan, traced_slices[number].budget);
}

/* Nearly all instructions of a swap on a large table are those of its check. So
 * it is one at the top, where few records change, with the shortest log. */
static void traced_on_a_large_table(void)
{
    static struct store store;

    prepare(&store, &large, 20);
    lend_log(&store, entries_of(&store, 0) + 1);
    name_case(&large, &store, "swap at level", 0);
    try_swap(&store, 0);
}

/* With two free records new ones take free and dying records. */
static void cases_by_tracing(void)
{
    static struct store store;
    size_t number;

    for (number = 0; number < RECIPES; number++) {
        prepare(&store, &recipes[number], 2);
        swap_each_level(&recipes[number], &store, 0);
    }
    for (number = 0; number < TRACED_SLICES; number++) {
        traced_slice(number);
    }
    traced_on_a_large_table();
}

static void tell(const char *kind, const struct tally *tally)
{
    printf("step: %s: %lu %s, ", way->name, tally->calls, kind);
    if (tally->instructions > 0) {
        printf("%lu instructions, ", tally->instructions);
    }
    printf("%lu %s, %lu states cut; most bytes changed by one instruction: %zu "
           "of the log, %zu of table and order\n",
           tally->stores, way->looks_at, tally->states, tally->most_in_log,
           tally->most_kept);
}

/* Tells how often each of these occurred. 1 where one didn't. */
static int tell_counts(const char *what, const char *const *names,
                       const unsigned long *counts, int length)
{
    int number, missed = 0;

    printf("step: %s: %s:", way->name, what);
    for (number = 0; number < length; number++) {
        printf("%s %s %lu", number ? "," : "", names[number], counts[number]);
        missed |= counts[number] == 0;
    }
    printf("%s\n", missed ? ": one of them is missing" : "");
    return missed;
}

static int too_few(const char *kind, unsigned long calls, unsigned long least)
{
    if (calls >= least) {
        return 0;
    }
    printf("step: %s: %lu %s are too few: %lu at least\n", way->name, calls, kind,
           least);
    return 1;
}

/* Tells what was stepped. 1 where something is missing. */
static int tell_all(void)
{
    int missed;

    tell("swaps", &swaps_seen);
    tell("slices", &slices_seen);
    tell("recoveries", &recoveries_seen);
    printf("step: %s: %lu calls with another answer changed nothing\n", way->name,
           others_seen.calls);
    missed = too_few("swaps", swaps_seen.calls, LEAST_SWAPS);
    missed |= too_few("slices", slices_seen.calls, LEAST_SLICES);
    missed |= too_few("recoveries", recoveries_seen.calls, LEAST_SWAPS);
    missed |= tell_counts("swaps, those within slices too", shape_names, shapes,
                          SHAPES);
    missed |= tell_counts("slices of two swaps or more", ending_names, endings,
                          ENDINGS);
    missed |= tell_counts("slices of two swaps or more, by plan", plan_names,
                          plans, PLANS);
    return missed;
}

static int run_by(const struct way *chosen, void (*cases)(void))
{
    snprintf(watch.name, sizeof watch.name, "preparation");
    way = chosen;
    torn_of_a_swap = way->torn_of_a_swap;
    way->prepare();
    cases();
    return tell_all();
}

static int run(const char *name)
{
    if (strcmp(name, faults.name) == 0) {
        return run_by(&faults, cases_by_faults);
    }
    if (strcmp(name, traced.name) == 0) {
        return run_by(&traced, cases_by_tracing);
    }
    return 2;
}

#else

static int run(const char *name)
{
    printf("step: %s: not run: the library is for x86-64\n", name);
    return 0;
}

#endif

int main(int count, char **words)
{
    int result = count == 2 ? run(words[1]) : 2;

    if (result == 2) {
        fprintf(stderr, "usage: %s faults | traced\n", words[0]);
    }
    return result;
}
