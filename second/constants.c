/* The numbers that relay.h names, held to what the library does: a call provokes each refusal and each answer, the first swap tells each plan, and
 * each limit is met and passed by one. */

#include <stddef.h>
#include <stdint.h>
#include <stdio.h>
#include <string.h>

#include "relay.h"

static int failures;

static void expect(const char *name, uint32_t found, uint32_t named)
{
    if (found != named) {
        printf("constants: %s: the library says %lu, relay.h %lu\n", name, (unsigned long)found, (unsigned long)named);
        failures++;
    }
}

/* One record: variable, low and high reference. */
static void put(uint8_t *table, size_t i, uint8_t variable, uint8_t low, uint8_t high)
{
    uint8_t *record = table + i * RELAY_RECORD_SIZE;
    memset(record, 0, RELAY_RECORD_SIZE);
    record[0] = variable;
    record[2] = low;
    record[4] = high;
}

static uint8_t table[(RELAY_MOST_RECORDS + 1) * RELAY_RECORD_SIZE];
static uint8_t roots[(RELAY_MOST_ROOTS + 1) * RELAY_ROOT_SIZE];
static uint8_t order[RELAY_MOST_VARIABLES + 1];
static uint8_t target[RELAY_MOST_VARIABLES + 1];
static uint8_t labels[(RELAY_MOST_LABELS + 1) * RELAY_LABEL_SIZE];
static uint8_t undo[(RELAY_MOST_LOG_RECORDS + 1) * RELAY_LOG_RECORD_SIZE];
static uint32_t answer[RELAY_MOST_NUMBERS];
static uint64_t count[1];
static double share[1];

/* An empty log of so many records: how many bytes they have. */
static size_t log_of(size_t records)
{
    memset(undo, 0, sizeof undo);
    return records * RELAY_LOG_RECORD_SIZE;
}

/* The calls, of so many records and roots, with two variables. */
static uint32_t check(size_t records, size_t root_count)
{
    relay_check(table, records * RELAY_RECORD_SIZE, roots, root_count * RELAY_ROOT_SIZE, order, 2, answer, RELAY_CHECK_NUMBERS);
    return answer[0];
}

static uint32_t run(size_t records, size_t root_count, uint32_t plan, uint32_t budget)
{
    relay_run(table, records * RELAY_RECORD_SIZE, roots, root_count * RELAY_ROOT_SIZE, order, 2, target, 2, undo, log_of(8), plan, budget, answer,
              RELAY_RUN_NUMBERS);
    return answer[0];
}

/* Swap and Run of case A, and recovery of it, with a log of so many bytes. */
static uint32_t swap_a(size_t log_length)
{
    relay_swap(table, 24, roots, 2, order, 2, undo, log_length, 0, answer, RELAY_SWAP_NUMBERS);
    return answer[0];
}

static uint32_t run_a(size_t log_length)
{
    relay_run(table, 24, roots, 2, order, 2, target, 2, undo, log_length, RELAY_BRING_UP, 1, answer, RELAY_RUN_NUMBERS);
    return answer[0];
}

static uint32_t recover_a(size_t log_length)
{
    relay_recover(table, 24, order, 2, undo, log_length, answer, RELAY_RECOVER_NUMBERS);
    return answer[0];
}

/* The root at a position of case A, with so many entries lent. */
static uint32_t count_a(uint32_t position, size_t entries)
{
    return (uint32_t)relay_count(table, 24, roots, 2, order, 2, position, count, 1, share, 1, answer, entries);
}

/* The label of a variable, where both lists are the beginning of `labels`, of so many records. */
static uint32_t label(size_t site_records, size_t factory_records, uint32_t variable)
{
    relay_label(labels, site_records * RELAY_LABEL_SIZE, labels, factory_records * RELAY_LABEL_SIZE, variable, answer, RELAY_LABEL_NUMBERS);
    return answer[0];
}

/* Case A: record 0 is 1 (0,1), record 1 is 0 (0, record 0), record 2 is free; the root names record 1; from order 0 1 to 1 0. */
static void case_a(void)
{
    memset(roots, 0, sizeof roots);
    put(table, 0, 1, RELAY_FALSE, RELAY_TRUE);
    put(table, 1, 0, RELAY_FALSE, RELAY_FIRST_RECORD);
    put(table, 2, RELAY_FREE, 0, 0);
    roots[0] = RELAY_FIRST_RECORD + 1;
    order[0] = target[1] = 0;
    order[1] = target[0] = 1;
}

static void answers(void)
{
    const uint8_t inputs[2] = {1, 1};

    case_a();
    expect("RELAY_ACCEPTED", check(3, 1), RELAY_ACCEPTED);
    expect("RELAY_CHECK_NUMBERS",
           (uint32_t)relay_check(table, 24, roots, 2, order, 2, answer, RELAY_CHECK_NUMBERS), RELAY_CHECK_NUMBERS);
    expect("a shorter list for Check", (uint32_t)relay_check(table, 24, roots, 2, order, 2, answer, RELAY_CHECK_NUMBERS - 1), 0);
    expect("RELAY_READ_NUMBERS",
           (uint32_t)relay_read(table, 24, roots, 2, order, 2, 0, inputs, 2, answer, RELAY_READ_NUMBERS), RELAY_READ_NUMBERS);
    expect("RELAY_VALUE", answer[0], RELAY_VALUE);
    expect("the value of case A", answer[1], 1);
    expect("a shorter list for Read", (uint32_t)relay_read(table, 24, roots, 2, order, 2, 0, inputs, 2, answer, RELAY_READ_NUMBERS - 1), 0);
    expect("RELAY_SHOW_NUMBERS", (uint32_t)relay_show(table, 24, roots, 2, order, 2, 0, answer, RELAY_SHOW_NUMBERS), RELAY_SHOW_NUMBERS);
    expect("the offset of record 1", answer[0], RELAY_RECORD_SIZE);
    expect("RELAY_RECORD_SIZE", answer[1], RELAY_RECORD_SIZE);
    expect("a shorter list for Show", (uint32_t)relay_show(table, 24, roots, 2, order, 2, 0, answer, RELAY_SHOW_NUMBERS - 1), 0);

    expect("the numbers of a count", count_a(0, RELAY_COUNT_NUMBERS), 1);
    expect("RELAY_COUNTED", answer[0], RELAY_COUNTED);
    expect("the count of case A", (uint32_t)count[0], 1);
    expect("RELAY_COUNT_NUMBERS", count_a(1, RELAY_COUNT_NUMBERS), RELAY_COUNT_NUMBERS);
    expect("a shorter list for Count", count_a(0, RELAY_COUNT_NUMBERS - 1), 0);

    expect("RELAY_PAUSED", run(3, 1, RELAY_BRING_UP, 0), RELAY_PAUSED);
    /* Without the free record, and with a root to record 0 too, so that it doesn't die: no room. */
    roots[RELAY_ROOT_SIZE] = RELAY_FIRST_RECORD;
    expect("RELAY_RUN_NUMBERS",
           (uint32_t)relay_run(table, 16, roots, 4, order, 2, target, 2, undo, log_of(8), RELAY_BRING_UP, 1, answer, RELAY_RUN_NUMBERS),
           RELAY_RUN_NUMBERS);
    expect("RELAY_NO_ROOM of Run", answer[0], RELAY_NO_ROOM);
    expect("a shorter list for Run",
           (uint32_t)relay_run(table, 24, roots, 2, order, 2, target, 2, undo, log_of(8), RELAY_BRING_UP, 1, answer, RELAY_RUN_NUMBERS - 1), 0);
    expect("RELAY_SWAP_NUMBERS",
           (uint32_t)relay_swap(table, 16, roots, 4, order, 2, undo, log_of(8), 0, answer, RELAY_SWAP_NUMBERS), RELAY_SWAP_NUMBERS);
    expect("RELAY_NO_ROOM of Swap", answer[0], RELAY_NO_ROOM);
    expect("a shorter list for Swap",
           (uint32_t)relay_swap(table, 24, roots, 2, order, 2, undo, log_of(8), 0, answer, RELAY_SWAP_NUMBERS - 1), 0);
    expect("RELAY_MADE", swap_a(log_of(8)), RELAY_MADE);
    expect("RELAY_DONE", run(3, 1, RELAY_BRING_UP, 0), RELAY_DONE);
    expect("RELAY_FREE", table[0], RELAY_FREE);
    expect("RELAY_MOST_NUMBERS", RELAY_MOST_NUMBERS, RELAY_RUN_NUMBERS);
}

static void refusals(void)
{
    const uint8_t inputs[2] = {1, 1};

    case_a();
    relay_check(table, 24, roots, 2, order, 0, answer, RELAY_CHECK_NUMBERS);
    expect("RELAY_REFUSED_SIZES", answer[0], RELAY_REFUSED_SIZES);
    order[0] = 1;
    expect("RELAY_REFUSED_ORDER", check(3, 1), RELAY_REFUSED_ORDER);
    case_a();
    target[0] = 0;
    expect("RELAY_REFUSED_TARGET", run(3, 1, RELAY_BRING_UP, 1), RELAY_REFUSED_TARGET);
    case_a();
    table[1] = 1;
    expect("RELAY_REFUSED_MALFORMED", check(3, 1), RELAY_REFUSED_MALFORMED);
    case_a();
    put(table, 0, 1, RELAY_FALSE, RELAY_FIRST_RECORD + 1);
    expect("RELAY_REFUSED_LEVELS", check(3, 1), RELAY_REFUSED_LEVELS);
    case_a();
    put(table, 0, 1, RELAY_TRUE, RELAY_TRUE);
    expect("RELAY_REFUSED_EQUAL", check(3, 1), RELAY_REFUSED_EQUAL);
    case_a();
    put(table, 2, 1, RELAY_FALSE, RELAY_TRUE);
    expect("RELAY_REFUSED_REPEAT", check(3, 1), RELAY_REFUSED_REPEAT);
    case_a();
    roots[0] = RELAY_FIRST_RECORD + 3;
    expect("RELAY_REFUSED_ROOT", check(3, 1), RELAY_REFUSED_ROOT);
    case_a();
    expect("RELAY_REFUSED_UNNAMED", check(3, 0), RELAY_REFUSED_UNNAMED);
    relay_read(table, 24, roots, 2, order, 2, 1, inputs, 2, answer, RELAY_READ_NUMBERS);
    expect("RELAY_REFUSED_POSITION", answer[0], RELAY_REFUSED_POSITION);
    relay_read(table, 24, roots, 2, order, 2, 0, inputs, 1, answer, RELAY_READ_NUMBERS);
    expect("RELAY_REFUSED_INPUTS", answer[0], RELAY_REFUSED_INPUTS);
    relay_swap(table, 24, roots, 2, order, 2, undo, log_of(8), 1, answer, RELAY_SWAP_NUMBERS);
    expect("RELAY_REFUSED_LEVEL", answer[0], RELAY_REFUSED_LEVEL);
    expect("RELAY_REFUSED_PLAN", run(3, 1, RELAY_HIGHEST_INVERSION + 1, 1), RELAY_REFUSED_PLAN);
    expect("the place of RELAY_REFUSED_PLAN", answer[1], RELAY_HIGHEST_INVERSION + 1);
    expect("RELAY_REFUSED_PLAN, by far", run(3, 1, UINT32_MAX, 1), RELAY_REFUSED_PLAN);
    expect("the place of RELAY_REFUSED_PLAN, by far", answer[1], UINT32_MAX);
}

/* The upper level of the first pair that a plan swaps, from order 2 1 0 5 4 3 to 0 1 2 3 4 5: another one for each plan. */
static uint32_t first_pair(uint32_t plan)
{
    const uint8_t before[6] = {2, 1, 0, 5, 4, 3};
    uint32_t level;

    memcpy(order, before, sizeof before);
    for (level = 0; level < 6; level++) {
        target[level] = (uint8_t)level;
    }
    relay_run(table, 0, roots, 0, order, 6, target, 6, undo, log_of(2), plan, 1, answer, RELAY_RUN_NUMBERS);
    level = 0;
    while (level < 6 && order[level] == before[level]) {
        level++;
    }
    return level;
}

static void plans(void)
{
    expect("RELAY_BRING_UP", first_pair(RELAY_BRING_UP), 1);
    expect("RELAY_SINK_DOWN", first_pair(RELAY_SINK_DOWN), 3);
    expect("RELAY_LOWEST_INVERSION", first_pair(RELAY_LOWEST_INVERSION), 4);
    expect("RELAY_HIGHEST_INVERSION", first_pair(RELAY_HIGHEST_INVERSION), 0);
}

/* Case A needs four entries, and its seal is the record after them. A log of RELAY_MOST_LOG_RECORDS is taken, and one more is refused. */
static void logs(void)
{
    uint8_t *seal = undo + 4 * RELAY_LOG_RECORD_SIZE;

    case_a();
    expect("RELAY_LOG_SHORT of Swap", swap_a(log_of(4)), RELAY_LOG_SHORT);
    expect("RELAY_LOG_SHORT of Run", run_a(log_of(4)), RELAY_LOG_SHORT);
    expect("entries needed", answer[4], 4);
    expect("entries held", answer[5], 3);
    expect("RELAY_MADE with just enough log", swap_a(log_of(5)), RELAY_MADE);
    expect("RELAY_LOG_RECORD_SIZE, of four entries and the seal", seal[2], 4);
    expect("the seal of a made swap", seal[0], 0);
    expect("RELAY_PUT_BACK, nothing", recover_a(5 * RELAY_LOG_RECORD_SIZE), RELAY_PUT_BACK);
    expect("entries put back, none", answer[1], 0);
    expect("the table of a made swap", table[0], RELAY_FREE);

    seal[0] = RELAY_SEALED;
    expect("RELAY_REFUSED_SEALED of Swap", swap_a(5 * RELAY_LOG_RECORD_SIZE), RELAY_REFUSED_SEALED);
    expect("RELAY_REFUSED_SEALED of Run", run_a(5 * RELAY_LOG_RECORD_SIZE), RELAY_REFUSED_SEALED);
    expect("RELAY_RECOVER_NUMBERS",
           (uint32_t)relay_recover(table, 24, order, 2, undo, 5 * RELAY_LOG_RECORD_SIZE, answer, RELAY_RECOVER_NUMBERS), RELAY_RECOVER_NUMBERS);
    expect("RELAY_PUT_BACK", answer[0], RELAY_PUT_BACK);
    expect("entries put back", answer[1], 4);
    expect("RELAY_SEALED, cleared", seal[0], 0);
    expect("the table put back", table[0], 1);
    expect("the order put back", order[0], 0);
    expect("a shorter list for Recover",
           (uint32_t)relay_recover(table, 24, order, 2, undo, 5 * RELAY_LOG_RECORD_SIZE, answer, RELAY_RECOVER_NUMBERS - 1), 0);
    seal[0] = RELAY_SEALED - 1;
    expect("RELAY_REFUSED_LOG of Recover", recover_a(5 * RELAY_LOG_RECORD_SIZE), RELAY_REFUSED_LOG);
    expect("the place of RELAY_REFUSED_LOG", answer[1], 4);
    expect("RELAY_REFUSED_LOG of Swap", swap_a(5 * RELAY_LOG_RECORD_SIZE), RELAY_REFUSED_LOG);
    expect("RELAY_REFUSED_LOG of Run", run_a(5 * RELAY_LOG_RECORD_SIZE), RELAY_REFUSED_LOG);

    expect("RELAY_MOST_LOG_RECORDS", recover_a(log_of(RELAY_MOST_LOG_RECORDS)), RELAY_PUT_BACK);
    expect("RELAY_MOST_LOG_RECORDS and one", recover_a(log_of(RELAY_MOST_LOG_RECORDS + 1)), RELAY_REFUSED_LOG);
    expect("RELAY_MOST_LOG_RECORDS of Swap", swap_a(log_of(RELAY_MOST_LOG_RECORDS)), RELAY_MADE);
    expect("RELAY_MOST_LOG_RECORDS and one, of Swap", swap_a(log_of(RELAY_MOST_LOG_RECORDS + 1)), RELAY_REFUSED_LOG);
}

/* The numbers themselves, as the rules say them. */
static void names(void)
{
    expect("RELAY_VERSION", 7, RELAY_VERSION);
    expect("RELAY_MOST_RECORDS", 8192, RELAY_MOST_RECORDS);
    expect("RELAY_MOST_VARIABLES", 64, RELAY_MOST_VARIABLES);
    expect("RELAY_MOST_COUNTED", 52, RELAY_MOST_COUNTED);
    expect("RELAY_REFUSED_MANY", 16, RELAY_REFUSED_MANY);
    expect("RELAY_LOG_SHORT", 102, RELAY_LOG_SHORT);
    expect("RELAY_PUT_BACK", 0, RELAY_PUT_BACK);
    expect("RELAY_REFUSED_LOG", 14, RELAY_REFUSED_LOG);
    expect("RELAY_REFUSED_SEALED", 15, RELAY_REFUSED_SEALED);
    expect("RELAY_SEALED", 0xA5, RELAY_SEALED);
    expect("RELAY_LOG_RECORD_SIZE", 16, RELAY_LOG_RECORD_SIZE);
    expect("RELAY_MOST_LOG_RECORDS", 4096, RELAY_MOST_LOG_RECORDS);
    expect("RELAY_RECOVER_NUMBERS", 2, RELAY_RECOVER_NUMBERS);
}

/* Record i is for variable i. */
static void label_answers(void)
{
    uint8_t i;

    for (i = 0; i <= RELAY_MOST_LABELS; i++) {
        labels[i * RELAY_LABEL_SIZE] = i;
    }
    expect("RELAY_SITE_LABEL", label(2, 2, 1), RELAY_SITE_LABEL);
    expect("RELAY_LABEL_SIZE", answer[1], RELAY_LABEL_SIZE + 1);
    expect("RELAY_TEXT_SIZE", answer[2], RELAY_TEXT_SIZE);
    expect("RELAY_FACTORY_LABEL", label(1, 2, 1), RELAY_FACTORY_LABEL);
    expect("RELAY_NO_LABEL", label(2, 2, 2), RELAY_NO_LABEL);
    expect("RELAY_LABEL_NUMBERS", (uint32_t)relay_label(labels, 16, labels, 16, 0, answer, RELAY_LABEL_NUMBERS), RELAY_LABEL_NUMBERS);
    expect("a shorter list for Label", (uint32_t)relay_label(labels, 16, labels, 16, 0, answer, RELAY_LABEL_NUMBERS - 1), 0);
    expect("RELAY_MOST_LABELS of the site", label(RELAY_MOST_LABELS, 0, RELAY_MOST_LABELS - 1), RELAY_SITE_LABEL);
    expect("RELAY_MOST_LABELS of the factory", label(0, RELAY_MOST_LABELS, RELAY_MOST_LABELS - 1), RELAY_FACTORY_LABEL);
    expect("RELAY_MOST_LABELS and one, of the site", label(RELAY_MOST_LABELS + 1, 1, 0), RELAY_NO_LABEL);
    expect("RELAY_MOST_LABELS and one, of the factory", label(1, RELAY_MOST_LABELS + 1, 0), RELAY_NO_LABEL);
}

/* Each limit is taken, and one more is refusal 1; by Count refusal 16, whether there is such a root or not. */
static void limits(void)
{
    size_t i;

    case_a();
    for (i = 0; i <= RELAY_MOST_RECORDS; i++) {
        put(table, i, RELAY_FREE, 0, 0);
    }
    memset(roots, 0, sizeof roots);
    expect("RELAY_MOST_RECORDS", check(RELAY_MOST_RECORDS, 0), RELAY_ACCEPTED);
    expect("RELAY_MOST_RECORDS and one", check(RELAY_MOST_RECORDS + 1, 0), RELAY_REFUSED_SIZES);
    expect("RELAY_MOST_ROOTS", check(0, RELAY_MOST_ROOTS), RELAY_ACCEPTED);
    expect("RELAY_MOST_ROOTS and one", check(0, RELAY_MOST_ROOTS + 1), RELAY_REFUSED_SIZES);
    for (i = 0; i <= RELAY_MOST_VARIABLES; i++) {
        order[i] = (uint8_t)i;
    }
    relay_check(table, 0, roots, 0, order, RELAY_MOST_VARIABLES, answer, RELAY_CHECK_NUMBERS);
    expect("RELAY_MOST_VARIABLES", answer[0], RELAY_ACCEPTED);
    relay_check(table, 0, roots, 0, order, RELAY_MOST_VARIABLES + 1, answer, RELAY_CHECK_NUMBERS);
    expect("RELAY_MOST_VARIABLES and one", answer[0], RELAY_REFUSED_SIZES);
    roots[0] = RELAY_TRUE;
    relay_count(table, 0, roots, RELAY_ROOT_SIZE, order, RELAY_MOST_COUNTED, 0, count, 1, share, 1, answer, RELAY_COUNT_NUMBERS);
    expect("RELAY_MOST_COUNTED", answer[0], RELAY_COUNTED);
    relay_count(table, 0, roots, RELAY_ROOT_SIZE, order, RELAY_MOST_COUNTED + 1, 0, count, 1, share, 1, answer, RELAY_COUNT_NUMBERS);
    expect("RELAY_REFUSED_MANY, RELAY_MOST_COUNTED and one", answer[0], RELAY_REFUSED_MANY);
    expect("the place of RELAY_REFUSED_MANY", answer[1], RELAY_MOST_COUNTED + 1);
    relay_count(table, 0, roots, RELAY_ROOT_SIZE, order, RELAY_MOST_COUNTED + 1, 1, count, 1, share, 1, answer, RELAY_COUNT_NUMBERS);
    expect("RELAY_REFUSED_MANY, no such root", answer[0], RELAY_REFUSED_MANY);
    case_a();
    roots[0] = RELAY_TRUE;
    relay_read(table, 0, roots, RELAY_ROOT_SIZE, order, 2, 0, order, 2, answer, RELAY_READ_NUMBERS);
    expect("RELAY_TRUE", answer[1], 1);
    roots[0] = RELAY_FALSE;
    relay_read(table, 0, roots, RELAY_ROOT_SIZE, order, 2, 0, order, 2, answer, RELAY_READ_NUMBERS);
    expect("RELAY_FALSE", answer[1], 0);
}

int main(void)
{
    answers();
    refusals();
    plans();
    logs();
    names();
    label_answers();
    limits();
    return failures != 0;
}
