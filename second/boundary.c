/* The library as C sees it: its header, its static archive, and the answers of
 * each call for cases of the bench sheet, whole and damaged, with their logs,
 * and for lists of labels, in 512 KiB of stack. The answers and the buffers
 * afterwards are written out by hand. Each entry that takes a table is called
 * with the largest store too, a full table of 64 variables (full.h): however
 * much of the stack it takes for that, it is less. */

#define _POSIX_C_SOURCE 200809L

#include <inttypes.h>
#include <pthread.h>
#include <stddef.h>
#include <stdint.h>
#include <stdio.h>
#include <string.h>

#include "relay.h"

#define STACK (512 * 1024)
#define LIST 8
#define LEVELS RELAY_MOST_VARIABLES
#define PLACES 2
#define MANY_LABELS ((RELAY_MOST_LABELS + 1) * RELAY_LABEL_SIZE)
#define LOG_RECORDS 5
#define LOG_LENGTH (LOG_RECORDS * RELAY_LOG_RECORD_SIZE)
#define AROUND 24
#define AROUND_BYTE 0xC9
#define UNTOUCHED UINT32_C(0xA5A55A5A)
#define UNTOUCHED_PLACE UINT64_C(0xA5A55A5A5A5AA5A5)

/* 0: 1 (0,1); 1: 0 (0,2); 2: free; root 3; order 0 1 */
static const uint8_t case_a[24] = {
    1,   0, 0, 0, 1, 0, 0, 0, /* */
    0,   0, 0, 0, 2, 0, 0, 0, /* */
    255, 0, 0, 0, 0, 0, 0, 0, /* */
};
/* 0: free; 1: 1 (0,4); 2: 0 (0,1) */
static const uint8_t case_a_after[24] = {
    255, 0, 0, 0, 0, 0, 0, 0, /* */
    1,   0, 0, 0, 4, 0, 0, 0, /* */
    0,   0, 0, 0, 1, 0, 0, 0, /* */
};
/* 0: 0 (0,1), in the place of the record that died; 1: 1 (0,2). The last record
 * isn't part of the table, and stays as it is. */
static const uint8_t case_b_after[24] = {
    0,   0, 0, 0, 1, 0, 0, 0, /* */
    1,   0, 0, 0, 2, 0, 0, 0, /* */
    255, 0, 0, 0, 0, 0, 0, 0, /* */
};
/* 0: 1 (0,1), which a root names; 1: 1 (0,4); 2: 0 (0,1) */
static const uint8_t case_c_after[24] = {
    1, 0, 0, 0, 1, 0, 0, 0, /* */
    1, 0, 0, 0, 4, 0, 0, 0, /* */
    0, 0, 0, 0, 1, 0, 0, 0, /* */
};
/* The free record has a rest that is not zero. */
static const uint8_t damaged[24] = {
    1,   0, 0, 0, 1, 0, 0, 0, /* */
    0,   0, 0, 0, 2, 0, 0, 0, /* */
    255, 0, 0, 0, 0, 1, 0, 0, /* */
};

/* Case B is case A without its last record. */
#define WHOLE 24
#define WITHOUT_LAST 16

/* Case C has both of these roots, the others only the first. With both, no record
 * of case B dies, and it has no room. */
static const uint8_t roots[4] = {3, 0, 2, 0};
#define ONE_ROOT 2
#define TWO_ROOTS 4

static const uint8_t order_0_1[2] = {0, 1};
static const uint8_t order_1_0[2] = {1, 0};
static const uint8_t order_1_1[2] = {1, 1};

/* The log before a swap: empty, or with something under a seal whose byte 0 is
 * 0. After a swap of case A, which changes all three records: each as it was,
 * then levels 0 and 1, then the seal. */
static const uint8_t log_empty[LOG_LENGTH] = {0};
static const uint8_t log_used[LOG_LENGTH] = {
    7, 7, 7, 7, 7, 7, 7, 7, 7, 7, 7, 7, 7, 7, 7, 7, /* */
    7, 7, 7, 7, 7, 7, 7, 7, 7, 7, 7, 7, 7, 7, 7, 7, /* */
    7, 7, 7, 7, 7, 7, 7, 7, 7, 7, 7, 7, 7, 7, 7, 7, /* */
    7, 7, 7, 7, 7, 7, 7, 7, 7, 7, 7, 7, 7, 7, 7, 7, /* */
    0, 7, 7, 7, 7, 7, 7, 7, 7, 7, 7, 7, 7, 7, 7, 7, /* */
};
static const uint8_t log_a_after[LOG_LENGTH] = {
    0, 0, 0, 0, 1,   0, 0, 0, 1, 0, 0, 0, 0, 0, 0, 0, /* */
    0, 0, 1, 0, 0,   0, 0, 0, 2, 0, 0, 0, 0, 0, 0, 0, /* */
    0, 0, 2, 0, 255, 0, 0, 0, 0, 0, 0, 0, 0, 0, 0, 0, /* */
    0, 1, 0, 0, 0,   1, 0, 0, 0, 0, 0, 0, 0, 0, 0, 0, /* */
    0, 0, 4, 0, 0,   0, 0, 0, 0, 0, 0, 0, 0, 0, 0, 0, /* */
};
/* After a swap of case B, records 0 and 1 and the levels; the fourth record is
 * beyond. */
static const uint8_t log_b_after[LOG_LENGTH] = {
    0, 0, 0, 0, 1, 0, 0, 0, 1, 0, 0, 0, 0, 0, 0, 0, /* */
    0, 0, 1, 0, 0, 0, 0, 0, 2, 0, 0, 0, 0, 0, 0, 0, /* */
    0, 1, 0, 0, 0, 1, 0, 0, 0, 0, 0, 0, 0, 0, 0, 0, /* */
    7, 7, 7, 7, 7, 7, 7, 7, 7, 7, 7, 7, 7, 7, 7, 7, /* */
    0, 0, 3, 0, 0, 0, 0, 0, 0, 0, 0, 0, 0, 0, 0, 0, /* */
};
/* After a swap of case C, records 1 and 2 and the levels. */
static const uint8_t log_c_after[LOG_LENGTH] = {
    0, 0, 1, 0, 0,   0, 0, 0, 2, 0, 0, 0, 0, 0, 0, 0, /* */
    0, 0, 2, 0, 255, 0, 0, 0, 0, 0, 0, 0, 0, 0, 0, 0, /* */
    0, 1, 0, 0, 0,   1, 0, 0, 0, 0, 0, 0, 0, 0, 0, 0, /* */
    0, 0, 0, 0, 0,   0, 0, 0, 0, 0, 0, 0, 0, 0, 0, 0, /* */
    0, 0, 3, 0, 0,   0, 0, 0, 0, 0, 0, 0, 0, 0, 0, 0, /* */
};
/* While case A is being swapped, and with an entry of no kind: the same log but
 * for a byte, and for one more. */
static uint8_t log_a_sealed[LOG_LENGTH];
static uint8_t log_a_damaged[LOG_LENGTH];

static void make_logs(void)
{
    memcpy(log_a_sealed, log_a_after, LOG_LENGTH);
    log_a_sealed[LOG_LENGTH - RELAY_LOG_RECORD_SIZE] = 165;
    memcpy(log_a_damaged, log_a_sealed, LOG_LENGTH);
    log_a_damaged[2 * RELAY_LOG_RECORD_SIZE + 1] = 2;
}

/* The buffers of one call. The log is lent from its beginning, with bytes
 * around it that nobody may write to. */
struct lent {
    uint8_t table[WHOLE];
    size_t table_length;
    uint8_t roots[TWO_ROOTS];
    size_t roots_length;
    uint8_t order[2];
    uint8_t before_log[AROUND];
    uint8_t log[LOG_LENGTH];
    uint8_t after_log[AROUND];
    size_t log_length;
    uint32_t list[LIST];
};

static struct lent lend(const uint8_t *table, size_t table_length,
                        size_t roots_length)
{
    struct lent lent;
    size_t entry;

    memcpy(lent.table, table, WHOLE);
    lent.table_length = table_length;
    memcpy(lent.roots, roots, TWO_ROOTS);
    lent.roots_length = roots_length;
    memcpy(lent.order, order_0_1, sizeof order_0_1);
    memset(lent.before_log, AROUND_BYTE, AROUND);
    memcpy(lent.log, log_empty, LOG_LENGTH);
    memset(lent.after_log, AROUND_BYTE, AROUND);
    lent.log_length = LOG_LENGTH;
    for (entry = 0; entry < LIST; entry++) {
        lent.list[entry] = UNTOUCHED;
    }
    return lent;
}

/* The same with this log, of which only the beginning is lent. */
static struct lent with_log(struct lent lent, const uint8_t *log,
                            size_t log_length)
{
    memcpy(lent.log, log, LOG_LENGTH);
    lent.log_length = log_length;
    return lent;
}

/* The same with the order exchanged. */
static struct lent exchanged(struct lent lent)
{
    memcpy(lent.order, order_1_0, sizeof order_1_0);
    return lent;
}

/* What a call must do: write so many numbers, these, and leave the table and
 * the order so, and the log; without one, it must be empty. */
struct expected {
    size_t written;
    uint32_t numbers[LIST];
    const uint8_t *table;
    const uint8_t *order;
    const uint8_t *log;
};

/* 0 where the log is as expected, and the bytes around it as they were. */
static int log_differs(const struct lent *lent, struct expected expected)
{
    const uint8_t *log = expected.log ? expected.log : log_empty;
    size_t byte;
    int same = memcmp(lent->log, log, LOG_LENGTH) == 0;

    for (byte = 0; byte < AROUND; byte++) {
        same = same && lent->before_log[byte] == AROUND_BYTE &&
               lent->after_log[byte] == AROUND_BYTE;
    }
    return !same;
}

/* The list must hold the numbers, its other entries and the roots what they
 * held before. 0 where all is as expected. */
static int differs(const char *name, const struct lent *lent, size_t written,
                   struct expected expected)
{
    size_t entry;
    int same = written == expected.written &&
               memcmp(lent->table, expected.table, WHOLE) == 0 &&
               memcmp(lent->roots, roots, TWO_ROOTS) == 0 &&
               memcmp(lent->order, expected.order, 2) == 0 &&
               !log_differs(lent, expected);

    for (entry = 0; entry < LIST; entry++) {
        same = same && lent->list[entry] == (entry < expected.written
                                                 ? expected.numbers[entry]
                                                 : UNTOUCHED);
    }
    if (same) {
        return 0;
    }
    printf("boundary: %s: %zu written, expected %zu\n", name, written,
           expected.written);
    for (entry = 0; entry < LIST; entry++) {
        printf("  %" PRIu32 ", expected %" PRIu32 "\n", lent->list[entry],
               entry < expected.written ? expected.numbers[entry] : UNTOUCHED);
    }
    printf("  table %s, roots %s, order %s, log %s\n",
           memcmp(lent->table, expected.table, WHOLE) ? "wrong" : "right",
           memcmp(lent->roots, roots, TWO_ROOTS) ? "wrong" : "right",
           memcmp(lent->order, expected.order, 2) ? "wrong" : "right",
           log_differs(lent, expected) ? "wrong" : "right");
    return 1;
}

static int check(const char *name, const uint8_t *table, size_t entries,
                 struct expected expected)
{
    struct lent lent = lend(table, WHOLE, ONE_ROOT);
    size_t written = relay_check(lent.table, lent.table_length, lent.roots,
                                 lent.roots_length, lent.order,
                                 sizeof lent.order, lent.list, entries);
    return differs(name, &lent, written, expected);
}

static int checks(void)
{
    struct expected accepted = {2, {RELAY_ACCEPTED, 2}, case_a, order_0_1, NULL};
    struct expected refused = {2, {RELAY_REFUSED_MALFORMED, 2}, damaged, order_0_1, NULL};
    struct expected nothing = {0, {0}, case_a, order_0_1, NULL};

    return check("check A", case_a, LIST, accepted) ||
           check("check A, list of 2", case_a, 2, accepted) ||
           check("check A damaged", damaged, LIST, refused) ||
           check("check A, list of 1", case_a, 1, nothing) ||
           check("check A, list of 0", case_a, 0, nothing);
}

/* Case A is variable 0 and variable 1. */
static int read_a(const char *name, uint32_t position, uint8_t input_0,
                  uint8_t input_1, size_t entries, struct expected expected)
{
    struct lent lent = lend(case_a, WHOLE, ONE_ROOT);
    const uint8_t inputs[2] = {input_0, input_1};
    size_t written =
        relay_read(lent.table, lent.table_length, lent.roots,
                   lent.roots_length, lent.order, sizeof lent.order, position,
                   inputs, sizeof inputs, lent.list, entries);
    return differs(name, &lent, written, expected);
}

/* The longest way down there is: 64 records, each the high child of the one
 * before, under inputs that are all 1 but perhaps the last. */
static int read_down(const char *name, uint8_t last_input, uint32_t value)
{
    uint8_t table[RELAY_RECORD_SIZE * LEVELS] = {0};
    uint8_t order[LEVELS];
    uint8_t inputs[LEVELS];
    const uint8_t root[2] = {RELAY_FIRST_RECORD, 0};
    uint32_t list[LIST];
    size_t written;
    size_t entry;
    uint8_t level;
    int same;

    for (level = 0; level < LEVELS; level++) {
        table[RELAY_RECORD_SIZE * level] = level;
        table[RELAY_RECORD_SIZE * level + 4] =
            level + 1u < LEVELS ? (uint8_t)(level + 3) : RELAY_TRUE;
        order[level] = level;
        inputs[level] = 1;
    }
    inputs[LEVELS - 1] = last_input;
    for (entry = 0; entry < LIST; entry++) {
        list[entry] = UNTOUCHED;
    }
    written = relay_read(table, sizeof table, root, sizeof root, order,
                         sizeof order, 0, inputs, sizeof inputs, list, LIST);
    same = written == RELAY_READ_NUMBERS && list[0] == RELAY_VALUE && list[1] == value;
    for (entry = 2; entry < LIST; entry++) {
        same = same && list[entry] == UNTOUCHED;
    }
    if (same) {
        return 0;
    }
    printf("boundary: %s: %zu written, %" PRIu32 " %" PRIu32 "\n", name,
           written, list[0], list[1]);
    return 1;
}

static int reads(void)
{
    struct expected value_0 = {2, {RELAY_VALUE, 0}, case_a, order_0_1, NULL};
    struct expected value_1 = {2, {RELAY_VALUE, 1}, case_a, order_0_1, NULL};
    struct expected no_root = {
        2, {RELAY_REFUSED_POSITION, 1}, case_a, order_0_1, NULL};
    struct expected no_input = {
        2, {RELAY_REFUSED_INPUTS, 0}, case_a, order_0_1, NULL};
    struct expected nothing = {0, {0}, case_a, order_0_1, NULL};

    return read_a("read A under 0 0", 0, 0, 0, LIST, value_0) ||
           read_a("read A under 0 1", 0, 0, 1, LIST, value_0) ||
           read_a("read A under 1 0", 0, 1, 0, LIST, value_0) ||
           read_a("read A under 1 1", 0, 1, 1, LIST, value_1) ||
           read_a("read A, no such root", 1, 1, 1, LIST, no_root) ||
           read_a("read A under 1 2", 0, 1, 2, LIST, no_input) ||
           read_a("read A, list of 1", 0, 1, 1, 1, nothing) ||
           read_down("read 64 levels down, last input 1", 1, 1) ||
           read_down("read 64 levels down, last input 0", 0, 0);
}

static int show(const char *name, const uint8_t *table, uint32_t position,
                size_t entries, struct expected expected)
{
    struct lent lent = lend(table, WHOLE, TWO_ROOTS);
    size_t written =
        relay_show(lent.table, lent.table_length, lent.roots,
                   lent.roots_length, lent.order, sizeof lent.order, position,
                   lent.list, entries);
    return differs(name, &lent, written, expected);
}

static int shows(void)
{
    struct expected record_1 = {
        2, {RELAY_RECORD_SIZE, RELAY_RECORD_SIZE}, case_a, order_0_1, NULL};
    struct expected record_0 = {
        2, {0, RELAY_RECORD_SIZE}, case_a, order_0_1, NULL};
    struct expected no_root = {2, {0, 0}, case_a, order_0_1, NULL};
    struct expected refused = {2, {0, 0}, damaged, order_0_1, NULL};
    struct expected nothing = {0, {0}, case_a, order_0_1, NULL};

    return show("show C, first root", case_a, 0, LIST, record_1) ||
           show("show C, second root", case_a, 1, LIST, record_0) ||
           show("show C, no such root", case_a, 2, LIST, no_root) ||
           show("show C damaged", damaged, 0, LIST, refused) ||
           show("show C, list of 1", case_a, 0, 1, nothing);
}

static int swap(const char *name, struct lent lent, uint32_t level,
                size_t entries, struct expected expected)
{
    size_t written =
        relay_swap(lent.table, lent.table_length, lent.roots,
                   lent.roots_length, lent.order, sizeof lent.order, lent.log,
                   lent.log_length, level, lent.list, entries);
    return differs(name, &lent, written, expected);
}

static int swaps(void)
{
    struct lent a = lend(case_a, WHOLE, ONE_ROOT);
    struct lent b = lend(case_a, WITHOUT_LAST, ONE_ROOT);
    struct lent b_both = lend(case_a, WITHOUT_LAST, TWO_ROOTS);
    struct lent c = lend(case_a, WHOLE, TWO_ROOTS);
    struct expected made = {
        1, {RELAY_MADE}, case_a_after, order_1_0, log_a_after};
    struct expected made_b = {
        1, {RELAY_MADE}, case_b_after, order_1_0, log_b_after};
    struct expected made_c = {
        1, {RELAY_MADE}, case_c_after, order_1_0, log_c_after};
    struct expected no_room = {
        4, {RELAY_NO_ROOM, 0, 1, 0}, case_a, order_0_1, NULL};
    struct expected no_level = {
        2, {RELAY_REFUSED_LEVEL, 1}, case_a, order_0_1, NULL};
    struct expected nothing = {0, {0}, case_a, order_0_1, NULL};

    b = with_log(b, log_used, LOG_LENGTH);

    return swap("swap A", a, 0, LIST, made) ||
           swap("swap A, list of 4", a, 0, RELAY_SWAP_NUMBERS, made) ||
           swap("swap B", b, 0, LIST, made_b) ||
           swap("swap B, both named", b_both, 0, LIST, no_room) ||
           swap("swap B, both named, list of 3", b_both, 0, 3, nothing) ||
           swap("swap C", c, 0, LIST, made_c) ||
           swap("swap A, level 1", a, 1, LIST, no_level) ||
           swap("swap A, list of 3", a, 0, 3, nothing) ||
           swap("swap A, list of 0", a, 0, 0, nothing);
}

static int run_by(uint32_t plan, const char *name, struct lent lent,
                  const uint8_t *target, uint32_t budget, size_t entries,
                  struct expected expected)
{
    size_t written =
        relay_run(lent.table, lent.table_length, lent.roots,
                  lent.roots_length, lent.order, sizeof lent.order, target, 2,
                  lent.log, lent.log_length, plan, budget, lent.list, entries);
    return differs(name, &lent, written, expected);
}

/* Two variables have one pair, which every plan swaps. */
static int run(const char *name, struct lent lent, const uint8_t *target,
               uint32_t budget, size_t entries, struct expected expected)
{
    return run_by(RELAY_BRING_UP, name, lent, target, budget, entries,
                  expected) ||
           run_by(RELAY_SINK_DOWN, name, lent, target, budget, entries,
                  expected) ||
           run_by(RELAY_LOWEST_INVERSION, name, lent, target, budget, entries,
                  expected) ||
           run_by(RELAY_HIGHEST_INVERSION, name, lent, target, budget,
                  entries, expected);
}

static int runs(void)
{
    struct lent a = lend(case_a, WHOLE, ONE_ROOT);
    struct lent b = lend(case_a, WITHOUT_LAST, ONE_ROOT);
    struct lent b_both = lend(case_a, WITHOUT_LAST, TWO_ROOTS);
    struct lent c = lend(case_a, WHOLE, TWO_ROOTS);
    struct lent b_used = with_log(b, log_used, LOG_LENGTH);
    struct expected done = {
        3, {RELAY_DONE, 1, 0}, case_a_after, order_1_0, log_a_after};
    struct expected done_b = {
        3, {RELAY_DONE, 1, 0}, case_b_after, order_1_0, log_b_after};
    struct expected done_c = {
        3, {RELAY_DONE, 1, 0}, case_c_after, order_1_0, log_c_after};
    struct expected there = {3, {RELAY_DONE, 0, 0}, case_a, order_0_1, NULL};
    struct expected paused = {
        3, {RELAY_PAUSED, 0, 1}, case_a, order_0_1, NULL};
    struct expected no_room = {
        6, {RELAY_NO_ROOM, 0, 1, 0, 1, 0}, case_a, order_0_1, NULL};
    struct expected refused = {
        2, {RELAY_REFUSED_TARGET, 1}, case_a, order_0_1, NULL};
    struct expected nothing = {0, {0}, case_a, order_0_1, NULL};

    return run("run A", a, order_1_0, 1, LIST, done) ||
           run("run A, list of 6", a, order_1_0, UINT32_MAX, RELAY_RUN_NUMBERS,
               done) ||
           run("run A, budget 0", a, order_1_0, 0, LIST, paused) ||
           run("run A, target 0 1", a, order_0_1, 0, LIST, there) ||
           run("run A, target 1 1", a, order_1_1, 1, LIST, refused) ||
           run("run B", b_used, order_1_0, 1, LIST, done_b) ||
           run("run B, budget 0", b, order_1_0, 0, LIST, paused) ||
           run("run B, both named", b_both, order_1_0, 1, LIST, no_room) ||
           run("run B, both named, budget 0", b_both, order_1_0, 0, LIST,
               no_room) ||
           run("run C", c, order_1_0, 1, LIST, done_c) ||
           run("run A, list of 5", a, order_1_0, 1, 5, nothing) ||
           run("run A, list of 0", a, order_1_0, 1, 0, nothing);
}

/* A number that no plan has is refused with that number as its place, after
 * the other refusals. */
static int refused_plan(uint32_t plan)
{
    struct lent a = lend(case_a, WHOLE, ONE_ROOT);
    struct lent spoilt = lend(damaged, WHOLE, ONE_ROOT);
    struct expected no_plan = {
        2, {RELAY_REFUSED_PLAN, plan}, case_a, order_0_1, NULL};
    struct expected malformed = {
        2, {RELAY_REFUSED_MALFORMED, 2}, damaged, order_0_1, NULL};
    struct expected nothing = {0, {0}, case_a, order_0_1, NULL};

    return run_by(plan, "run A, no such plan", a, order_1_0, 1, LIST, no_plan) ||
           run_by(plan, "run A damaged, no such plan", spoilt, order_1_0, 1,
                  LIST, malformed) ||
           run_by(plan, "run A, no such plan, list of 5", a, order_1_0, 1, 5,
                  nothing);
}

static int recover(const char *name, struct lent lent, size_t entries,
                   struct expected expected)
{
    size_t written = relay_recover(lent.table, lent.table_length, lent.order,
                                   sizeof lent.order, lent.log,
                                   lent.log_length, lent.list, entries);
    return differs(name, &lent, written, expected);
}

/* Whatever of case A's swap was made when supply was lost; recovered once more
 * it stays so. A list too short is answered 0, and nothing changes. */
static int recoveries(void)
{
    struct lent before = with_log(lend(case_a, WHOLE, ONE_ROOT), log_a_sealed,
                                  LOG_LENGTH);
    struct lent after = exchanged(with_log(
        lend(case_a_after, WHOLE, ONE_ROOT), log_a_sealed, LOG_LENGTH));
    struct lent torn = with_log(lend(case_a_after, WHOLE, ONE_ROOT),
                                log_a_sealed, LOG_LENGTH);
    struct lent made = exchanged(with_log(
        lend(case_a_after, WHOLE, ONE_ROOT), log_a_after, LOG_LENGTH));
    struct lent used = with_log(lend(damaged, WHOLE, ONE_ROOT), log_used,
                                LOG_LENGTH);
    struct expected put_back = {
        2, {RELAY_PUT_BACK, 4}, case_a, order_0_1, log_a_after};
    struct expected stays = {
        2, {RELAY_PUT_BACK, 0}, case_a_after, order_1_0, log_a_after};
    struct expected stays_damaged = {
        2, {RELAY_PUT_BACK, 0}, damaged, order_0_1, log_used};
    struct expected nothing = {
        0, {0}, case_a_after, order_1_0, log_a_sealed};

    return recover("recover A before its swap", before, LIST, put_back) ||
           recover("recover A torn", torn, LIST, put_back) ||
           recover("recover A after its swap", after, LIST, put_back) ||
           recover("recover A, list of 2", after, RELAY_RECOVER_NUMBERS,
                   put_back) ||
           recover("recover A, swap made", made, LIST, stays) ||
           recover("recover a damaged table", used, LIST, stays_damaged) ||
           recover("recover A, list of 1", after, 1, nothing) ||
           recover("recover A, list of 0", after, 0, nothing);
}

/* Swap, Run and Recover with a log of this length that is refused, at this
 * place, and with a list too short. */
static int refused_log(const char *name, const uint8_t *log, size_t log_length,
                       uint32_t number, uint32_t place)
{
    struct lent lent =
        with_log(lend(case_a, WHOLE, ONE_ROOT), log, log_length);
    struct expected refused = {2, {number, place}, case_a, order_0_1, log};
    struct expected nothing = {0, {0}, case_a, order_0_1, log};

    return swap(name, lent, 0, LIST, refused) ||
           swap(name, lent, 0, RELAY_SWAP_NUMBERS - 1, nothing) ||
           run(name, lent, order_1_0, 1, LIST, refused) ||
           run(name, lent, order_1_0, 1, RELAY_RUN_NUMBERS - 1, nothing) ||
           (number != RELAY_REFUSED_SEALED &&
            (recover(name, lent, LIST, refused) ||
             recover(name, lent, RELAY_RECOVER_NUMBERS - 1, nothing)));
}

static int refused_logs(void)
{
    return refused_log("no log", log_used, 0, RELAY_REFUSED_LOG, 0) ||
           refused_log("log of 1 byte", log_used, 1, RELAY_REFUSED_LOG, 0) ||
           refused_log("log of 79 bytes", log_a_after, LOG_LENGTH - 1,
                       RELAY_REFUSED_LOG, 0) ||
           refused_log("log with a bad seal", log_used, 16, RELAY_REFUSED_LOG,
                       0) ||
           refused_log("log with a bad seal, of two", log_used, 32,
                       RELAY_REFUSED_LOG, 1) ||
           refused_log("log with a bad entry", log_a_damaged, LOG_LENGTH,
                       RELAY_REFUSED_LOG, 2) ||
           refused_log("sealed log", log_a_sealed, LOG_LENGTH,
                       RELAY_REFUSED_SEALED, 0);
}

/* A log of four records holds three entries, and one of a single record none;
 * case A needs four. No room goes first. */
static int short_logs(void)
{
    struct lent four =
        with_log(lend(case_a, WHOLE, ONE_ROOT), log_empty, LOG_LENGTH - 16);
    struct lent one = with_log(lend(case_a, WHOLE, ONE_ROOT), log_empty, 16);
    struct lent no_room_either =
        with_log(lend(case_a, WITHOUT_LAST, TWO_ROOTS), log_empty, 16);
    struct expected swap_four = {
        4, {RELAY_LOG_SHORT, 0, 4, 3}, case_a, order_0_1, NULL};
    struct expected swap_one = {
        4, {RELAY_LOG_SHORT, 0, 4, 0}, case_a, order_0_1, NULL};
    struct expected swap_no_room = {
        4, {RELAY_NO_ROOM, 0, 1, 0}, case_a, order_0_1, NULL};
    struct expected run_four = {
        6, {RELAY_LOG_SHORT, 0, 1, 0, 4, 3}, case_a, order_0_1, NULL};
    struct expected run_no_room = {
        6, {RELAY_NO_ROOM, 0, 1, 0, 1, 0}, case_a, order_0_1, NULL};
    struct expected there = {3, {RELAY_DONE, 0, 0}, case_a, order_0_1, NULL};

    return swap("swap A, log of 4", four, 0, LIST, swap_four) ||
           swap("swap A, a seal alone", one, 0, LIST, swap_one) ||
           swap("swap B, both named, a seal alone", no_room_either, 0, LIST,
                swap_no_room) ||
           run("run A, log of 4", four, order_1_0, 1, LIST, run_four) ||
           run("run A, log of 4, budget 0", four, order_1_0, 0, LIST,
               run_four) ||
           run("run B, both named, a seal alone", no_room_either, order_1_0, 1,
               LIST, run_no_room) ||
           run("run A, target 0 1, a seal alone", one, order_0_1, 1, LIST,
               there);
}

/* The longest log and one record more, not on the stack: whichever is lent, it
 * ends in a seal without an entry. */
static uint8_t long_log[(RELAY_MOST_LOG_RECORDS + 1) * RELAY_LOG_RECORD_SIZE];

static int long_logs(void)
{
    const size_t longest = sizeof long_log - RELAY_LOG_RECORD_SIZE;
    uint8_t order[2] = {0, 1};
    uint8_t no_record[1] = {0};
    uint32_t list[RELAY_RECOVER_NUMBERS];

    long_log[longest - RELAY_LOG_RECORD_SIZE] = RELAY_SEALED;
    long_log[longest] = RELAY_SEALED;
    if (relay_recover(no_record, 0, order, 2, long_log, sizeof long_log, list,
                      RELAY_RECOVER_NUMBERS) != 2 ||
        list[0] != RELAY_REFUSED_LOG || list[1] != 0 ||
        long_log[longest] != RELAY_SEALED) {
        puts("boundary: recover, log of 4,097 records");
        return 1;
    }
    if (relay_recover(no_record, 0, order, 2, long_log, longest, list,
                      RELAY_RECOVER_NUMBERS) != 2 ||
        list[0] != RELAY_PUT_BACK || list[1] != 0 ||
        long_log[longest - RELAY_LOG_RECORD_SIZE] != 0 ||
        long_log[longest] != RELAY_SEALED) {
        puts("boundary: recover, log of 4,096 records");
        return 1;
    }
    return 0;
}

/* The places of one call of relay_count. */
struct places {
    uint64_t counts[PLACES];
    double shares[PLACES];
};

static struct places lend_places(void)
{
    struct places places;
    const uint64_t untouched = UNTOUCHED_PLACE;
    size_t place;

    for (place = 0; place < PLACES; place++) {
        places.counts[place] = untouched;
        memcpy(&places.shares[place], &untouched, sizeof untouched);
    }
    return places;
}

/* The first place for a count and that for a share must hold this, the others
 * what they held before. 0 where all is as expected. */
static int places_differ(const char *name, const struct places *places,
                         uint64_t count, uint64_t share)
{
    uint64_t bits[PLACES];

    memcpy(bits, places->shares, sizeof bits);
    if (places->counts[0] == count && places->counts[1] == UNTOUCHED_PLACE &&
        bits[0] == share && bits[1] == UNTOUCHED_PLACE) {
        return 0;
    }
    printf("boundary: %s: counts %" PRIu64 " %" PRIu64 ", shares %" PRIx64
           " %" PRIx64 ", expected %" PRIu64 ", %" PRIx64 "\n",
           name, places->counts[0], places->counts[1], bits[0], bits[1], count,
           share);
    return 1;
}

/* How many places and entries are lent. */
struct lengths {
    size_t counts, shares, entries;
};

static int count(const char *name, struct lent lent, uint32_t position,
                 struct lengths lengths, struct expected expected,
                 uint64_t number, uint64_t share)
{
    struct places places = lend_places();
    size_t written = relay_count(
        lent.table, lent.table_length, lent.roots, lent.roots_length,
        lent.order, sizeof lent.order, position, places.counts, lengths.counts,
        places.shares, lengths.shares, lent.list, lengths.entries);
    return differs(name, &lent, written, expected) ||
           places_differ(name, &places, number, share);
}

/* Bits of doubles. */
#define QUARTER UINT64_C(0x3FD0000000000000)
#define HALF UINT64_C(0x3FE0000000000000)
#define ONE UINT64_C(0x3FF0000000000000)

static int counted(const char *name, uint32_t position, struct lengths lengths,
                   uint64_t number, uint64_t share)
{
    struct expected counted = {1, {RELAY_COUNTED}, case_a, order_0_1, NULL};

    return count(name, lend(case_a, WHOLE, TWO_ROOTS), position, lengths,
                 counted, number, share);
}

/* Nothing is written to any list, whether the table is good or not. */
static int not_counted(const char *name, struct lengths lengths)
{
    struct expected nothing = {0, {0}, case_a, order_0_1, NULL};
    struct expected nothing_damaged = {0, {0}, damaged, order_0_1, NULL};

    return count(name, lend(case_a, WHOLE, ONE_ROOT), 0, lengths, nothing,
                 UNTOUCHED_PLACE, UNTOUCHED_PLACE) ||
           count(name, lend(damaged, WHOLE, ONE_ROOT), 0, lengths,
                 nothing_damaged, UNTOUCHED_PLACE, UNTOUCHED_PLACE);
}

static int refused_counts(void)
{
    const struct lengths all = {PLACES, PLACES, LIST};
    const struct lengths fewest = {1, 1, RELAY_COUNT_NUMBERS};
    struct expected no_root = {
        2, {RELAY_REFUSED_POSITION, 1}, case_a, order_0_1, NULL};
    struct expected no_root_by_far = {
        2, {RELAY_REFUSED_POSITION, UINT32_MAX}, case_a, order_0_1, NULL};
    struct expected malformed = {
        2, {RELAY_REFUSED_MALFORMED, 2}, damaged, order_0_1, NULL};
    struct lent a = lend(case_a, WHOLE, ONE_ROOT);
    struct lent spoilt = lend(damaged, WHOLE, ONE_ROOT);

    return count("count A, no such root", a, 1, all, no_root, UNTOUCHED_PLACE,
                 UNTOUCHED_PLACE) ||
           count("count A, no such root by far", a, UINT32_MAX, fewest,
                 no_root_by_far, UNTOUCHED_PLACE, UNTOUCHED_PLACE) ||
           count("count A damaged, no such root", spoilt, 1, all, malformed,
                 UNTOUCHED_PLACE, UNTOUCHED_PLACE);
}

/* The root of a table with so many variables. Where these are too many to be
 * counted, the refusal tells how many they are. */
static int count_levels(const char *name, size_t levels, const uint8_t *table,
                        size_t table_length, uint8_t root, uint64_t number,
                        uint64_t share)
{
    const uint8_t the_root[RELAY_ROOT_SIZE] = {root, 0};
    const int can = levels <= RELAY_MOST_COUNTED;
    const uint32_t first = can ? RELAY_COUNTED : RELAY_REFUSED_MANY;
    const uint32_t second = can ? UNTOUCHED : (uint32_t)levels;
    uint8_t order[LEVELS];
    uint32_t list[RELAY_COUNT_NUMBERS] = {UNTOUCHED, UNTOUCHED};
    struct places places = lend_places();
    size_t written;
    uint8_t level;

    for (level = 0; level < LEVELS; level++) {
        order[level] = level;
    }
    written = relay_count(table, table_length, the_root, sizeof the_root, order,
                          levels, 0, places.counts, PLACES, places.shares,
                          PLACES, list, RELAY_COUNT_NUMBERS);
    if (written != (can ? 1 : 2) || list[0] != first || list[1] != second) {
        printf("boundary: %s: %zu written, %" PRIu32 " %" PRIu32 "\n", name,
               written, list[0], list[1]);
        return 1;
    }
    return places_differ(name, &places, can ? number : UNTOUCHED_PLACE,
                         can ? share : UNTOUCHED_PLACE);
}

/* Through all levels: the low child of each record is this constant, the high
 * one the record below; the last record is its variable. */
static int count_down(const char *name, size_t levels, uint8_t constant,
                      uint64_t number, uint64_t share)
{
    uint8_t table[RELAY_RECORD_SIZE * LEVELS] = {0};
    uint8_t level;

    for (level = 0; level < levels; level++) {
        uint8_t *record = table + RELAY_RECORD_SIZE * level;
        int last = level + 1u == levels;
        record[0] = level;
        record[2] = last ? RELAY_FALSE : constant;
        record[4] = last ? RELAY_TRUE : (uint8_t)(level + 3);
    }
    return count_levels(name, levels, table, RELAY_RECORD_SIZE * levels,
                        RELAY_FIRST_RECORD, number, share);
}

/* Without a record; the table's pointer is none the less a good one. */
static int count_constant(const char *name, size_t levels, uint8_t constant,
                          uint64_t number, uint64_t share)
{
    const uint8_t no_record[1] = {0};

    return count_levels(name, levels, no_record, 0, constant, number, share);
}

/* Of 32 levels, of the 52 that are counted at most, and of more. */
static int counts_of_levels(void)
{
    return count_down("count 32 levels, one of them", 32, RELAY_FALSE, 1,
                      UINT64_C(0x3DF0000000000000)) ||
           count_down("count 32 levels, all but one", 32, RELAY_TRUE,
                      UINT64_C(0xFFFFFFFF), UINT64_C(0x3FEFFFFFFFE00000)) ||
           count_constant("count false, n = 32", 32, RELAY_FALSE, 0, 0) ||
           count_constant("count true, n = 32", 32, RELAY_TRUE,
                          UINT64_C(0x100000000), ONE) ||
           count_down("count 52 levels, one of them", 52, RELAY_FALSE, 1,
                      UINT64_C(0x3CB0000000000000)) ||
           count_down("count 52 levels, all but one", 52, RELAY_TRUE,
                      UINT64_C(0xFFFFFFFFFFFFF),
                      UINT64_C(0x3FEFFFFFFFFFFFFE)) ||
           count_constant("count false, n = 52", 52, RELAY_FALSE, 0, 0) ||
           count_constant("count true, n = 52", 52, RELAY_TRUE,
                          UINT64_C(0x10000000000000), ONE) ||
           count_down("count 53 levels", 53, RELAY_TRUE, 0, 0) ||
           count_down("count 64 levels", 64, RELAY_FALSE, 0, 0) ||
           count_constant("count true, n = 53", 53, RELAY_TRUE, 0, 0) ||
           count_constant("count true, n = 64", 64, RELAY_TRUE, 0, 0);
}

static int counts(void)
{
    const struct lengths all = {PLACES, PLACES, LIST};
    const struct lengths fewest = {1, 1, RELAY_COUNT_NUMBERS};
    const struct lengths no_count = {0, PLACES, LIST};
    const struct lengths no_share = {PLACES, 0, LIST};
    const struct lengths list_of_1 = {PLACES, PLACES, 1};
    const struct lengths list_of_0 = {PLACES, PLACES, 0};

    return counted("count A", 0, all, 1, QUARTER) ||
           counted("count A, fewest places", 0, fewest, 1, QUARTER) ||
           counted("count C, second root", 1, all, 2, HALF) ||
           not_counted("count A, no place for the count", no_count) ||
           not_counted("count A, no place for the share", no_share) ||
           not_counted("count A, list of 1", list_of_1) ||
           not_counted("count A, list of 0", list_of_0) || refused_counts() ||
           counts_of_levels();
}

#include "full.h"

/* Both lists of relay_label, not on the stack: record i is for variable i, and
 * its text is one letter 15 times. */
static uint8_t site[MANY_LABELS];
static uint8_t factory[MANY_LABELS];

static uint8_t label_byte(size_t position, uint8_t letter)
{
    return position % RELAY_LABEL_SIZE
               ? letter
               : (uint8_t)(position / RELAY_LABEL_SIZE);
}

static void lend_labels(void)
{
    size_t position;

    for (position = 0; position < MANY_LABELS; position++) {
        site[position] = label_byte(position, 's');
        factory[position] = label_byte(position, 'f');
    }
}

static int labels_changed(void)
{
    size_t position;
    int changed = 0;

    for (position = 0; position < MANY_LABELS; position++) {
        changed = changed || site[position] != label_byte(position, 's') ||
                  factory[position] != label_byte(position, 'f');
    }
    return changed;
}

/* What a call of relay_label is given. */
struct asked {
    size_t site_length, factory_length;
    uint32_t variable;
};

/* Which part of which list a label is. */
struct part {
    uint32_t list, offset, length;
};

/* With fewer entries than the answer has, nothing is written. The lists stay
 * as they are in any case. 0 where all is as expected. */
static int label_with(size_t entries, const char *name, struct asked asked,
                      struct part part)
{
    const uint32_t numbers[RELAY_LABEL_NUMBERS] = {part.list, part.offset,
                                                   part.length};
    size_t expected = entries < RELAY_LABEL_NUMBERS ? 0 : RELAY_LABEL_NUMBERS;
    uint32_t list[LIST];
    size_t written;
    size_t entry;
    int same;

    lend_labels();
    for (entry = 0; entry < LIST; entry++) {
        list[entry] = UNTOUCHED;
    }
    written = relay_label(site, asked.site_length, factory,
                          asked.factory_length, asked.variable, list, entries);
    same = written == expected && !labels_changed();
    for (entry = 0; entry < LIST; entry++) {
        same = same && list[entry] ==
                           (entry < expected ? numbers[entry] : UNTOUCHED);
    }
    if (same) {
        return 0;
    }
    printf("boundary: %s, list of %zu: %zu written, expected %zu\n", name,
           entries, written, expected);
    for (entry = 0; entry < LIST; entry++) {
        printf("  %" PRIu32 ", expected %" PRIu32 "\n", list[entry],
               entry < expected ? numbers[entry] : UNTOUCHED);
    }
    printf("  lists %s\n", labels_changed() ? "wrong" : "right");
    return 1;
}

/* The first so many bytes of both lists, and every length that the list of the
 * answer may have. */
static int label(const char *name, size_t site_length, size_t factory_length,
                 uint32_t variable, struct part part)
{
    const struct asked asked = {site_length, factory_length, variable};
    size_t entries;
    int wrong = 0;

    for (entries = 0; entries <= LIST; entries++) {
        wrong = wrong || label_with(entries, name, asked, part);
    }
    return wrong;
}

static int labels(void)
{
    const struct part none = {RELAY_NO_LABEL, 0, 0};
    const struct part site_0 = {RELAY_SITE_LABEL, 1, RELAY_TEXT_SIZE};
    const struct part site_1 = {RELAY_SITE_LABEL, 17, RELAY_TEXT_SIZE};
    const struct part site_63 = {RELAY_SITE_LABEL, 1009, RELAY_TEXT_SIZE};
    const struct part factory_0 = {RELAY_FACTORY_LABEL, 1, RELAY_TEXT_SIZE};
    const struct part factory_2 = {RELAY_FACTORY_LABEL, 33, RELAY_TEXT_SIZE};
    const struct part factory_63 = {
        RELAY_FACTORY_LABEL, 1009, RELAY_TEXT_SIZE};

    return label("label 0, in both lists", 32, 48, 0, site_0) ||
           label("label 1, in both lists", 32, 48, 1, site_1) ||
           label("label 2, in the factory's list", 32, 48, 2, factory_2) ||
           label("label 3, in neither list", 32, 48, 3, none) ||
           label("label 256", 32, 48, 256, none) ||
           label("label 4,294,967,295", 32, 48, UINT32_MAX, none) ||
           label("label 63, both of 64", 1024, 1024, 63, site_63) ||
           label("label 64, both of 64", 1024, 1024, 64, none) ||
           label("label 63, the site's 64", 1024, 0, 63, site_63) ||
           label("label 63, the factory's 64", 0, 1024, 63, factory_63) ||
           label("label 0, no lists", 0, 0, 0, none) ||
           label("label 0, no list of the factory", 16, 0, 0, site_0) ||
           label("label 0, no list of the site", 0, 16, 0, factory_0) ||
           label("label 0, site of 17 bytes", 17, 16, 0, none) ||
           label("label 0, factory of 15 bytes", 16, 15, 0, none) ||
           label("label 0, site of 1,040 bytes", 1040, 16, 0, none) ||
           label("label 0, factory of 1,040 bytes", 16, 1040, 0, none);
}

/* Every case; the first that differs is told. */
static void *cases(void *wrong)
{
    make_logs();
    *(int *)wrong = checks() || reads() || shows() || swaps() || runs() ||
                    refused_plan(RELAY_HIGHEST_INVERSION + 1) ||
                    refused_plan(256) || refused_plan(UINT32_MAX) ||
                    recoveries() || refused_logs() || short_logs() ||
                    long_logs() || counts() || labels() || on_full_tables();
    return NULL;
}

/* A thread's stack is bounded on every machine. */
int main(void)
{
    int wrong = 1;
    pthread_t thread;
    pthread_attr_t attributes;

    if (pthread_attr_init(&attributes) != 0 ||
        pthread_attr_setstacksize(&attributes, STACK) != 0 ||
        pthread_create(&thread, &attributes, cases, &wrong) != 0 ||
        pthread_join(thread, NULL) != 0) {
        puts("boundary: no thread with a stack of its own");
        return 1;
    }
    if (!wrong)
        puts("boundary: C gets the answers of the rules");
    return wrong;
}
