/* A part of second/boundary.c: the largest store that there may be, lent to each entry that takes a table. It has RELAY_MOST_RECORDS used records, all
 * roots, and a swap that fills the longest log. Nothing of it is on the stack: what a call takes of that is its own. */

/* The variables stand in rising order. The swap is that of levels X and Y. So many records of X cross, each with a child of its own, which dies. What
 * stands below is a literal for each of the other variables, 1 where its input is, and some opposites of these. Above, each crossing record and one of
 * those below it are the children of a record of BESIDES, and these are the leaves of a tree for each root. */
#define BESIDES 5
#define X 6
#define Y 7
#define FIRST_LITERAL 8
#define CROSSING ((RELAY_MOST_LOG_RECORDS - 2) / 2)
#define BELOW 68

static uint8_t full_table[RELAY_MOST_RECORDS * RELAY_RECORD_SIZE];
static uint8_t full_roots[RELAY_MOST_ROOTS * RELAY_ROOT_SIZE];
static uint8_t full_order[RELAY_MOST_VARIABLES];
static size_t full_levels;
static size_t full_count;

/* What is lent, and what a swap leaves of it. */
static uint8_t lent_table[sizeof full_table];
static uint8_t lent_order[sizeof full_order];
static uint8_t lent_log[RELAY_MOST_LOG_RECORDS * RELAY_LOG_RECORD_SIZE];
static uint8_t table_after[sizeof full_table];
static uint8_t log_after[sizeof lent_log];

static void put_number(uint8_t *bytes, size_t number)
{
    bytes[0] = (uint8_t)number;
    bytes[1] = (uint8_t)(number >> 8);
}

/* The reference to a record that is added. One too many is counted and not stored. */
static size_t add_record(size_t variable, size_t low, size_t high)
{
    uint8_t *record = full_table + full_count * RELAY_RECORD_SIZE;

    if (full_count < RELAY_MOST_RECORDS) {
        record[0] = (uint8_t)variable;
        put_number(record + 2, low);
        put_number(record + 4, high);
    }
    return RELAY_FIRST_RECORD + full_count++;
}

/* A tree over the records of BESIDES from the first to before the end. */
static size_t add_tree(size_t level, size_t first, size_t end)
{
    size_t middle = first + (end - first) / 2;
    size_t low, high;

    if (end - first == 1) {
        return RELAY_FIRST_RECORD + first;
    }
    low = add_tree(level + 1, first, middle);
    high = add_tree(level + 1, middle, end);
    return add_record(level, low, high);
}

/* With so many variables. Record 0 is the first of those below, then there are the children, what crosses, and the records of BESIDES. */
static void make_full(size_t levels)
{
    const size_t literals = levels - FIRST_LITERAL, grandchildren = literals + 2;
    const size_t children = RELAY_FIRST_RECORD + BELOW;
    const size_t crossing = children + CROSSING, leaves = BELOW + 2 * CROSSING;
    size_t i;

    memset(full_table, 0, sizeof full_table);
    full_count = 0;
    full_levels = levels;
    for (i = 0; i < levels; i++) {
        full_order[i] = (uint8_t)i;
    }
    for (i = 0; i < BELOW; i++) {
        size_t opposite = i >= literals;
        add_record(FIRST_LITERAL + i % literals, opposite, !opposite);
    }
    /* Two different ones of the constants and the literals, whose references follow these. */
    for (i = 0; i < CROSSING; i++) {
        size_t low = i / (grandchildren - 1), high = i % (grandchildren - 1);
        add_record(Y, low, high < low ? high : high + 1);
    }
    for (i = 0; i < CROSSING; i++) {
        add_record(X, RELAY_FALSE, children + i);
    }
    for (i = 0; i < CROSSING; i++) {
        add_record(BESIDES, crossing + i, RELAY_FIRST_RECORD + i % BELOW);
    }
    for (i = 0; i < RELAY_MOST_ROOTS; i++) {
        size_t first = i * CROSSING / RELAY_MOST_ROOTS, end = (i + 1) * CROSSING / RELAY_MOST_ROOTS;
        put_number(full_roots + i * RELAY_ROOT_SIZE, add_tree(0, leaves + first, leaves + end));
    }
}

static void lend_full(void)
{
    memcpy(lent_table, full_table, sizeof full_table);
    memcpy(lent_order, full_order, sizeof full_order);
    memset(lent_log, 0, sizeof lent_log);
}

/* 0 where a call has written so many numbers, these, and the table, order and log that are lent are so. */
static int full_differs(const char *name, size_t written, const uint32_t *list, size_t expected, const uint32_t *numbers, const uint8_t *table,
                        const uint8_t *log)
{
    uint8_t order[sizeof full_order];
    int is_after = table == table_after;

    memcpy(order, full_order, sizeof order);
    if (is_after) {
        order[X] = Y;
        order[Y] = X;
    }
    if (written == expected && memcmp(list, numbers, expected * sizeof *list) == 0 && memcmp(lent_table, table, sizeof lent_table) == 0 &&
        memcmp(lent_order, order, sizeof order) == 0 && (!log || memcmp(lent_log, log, sizeof lent_log) == 0)) {
        return 0;
    }
    printf("boundary: the full table, %zu levels, %s: %zu written, %" PRIu32 " %" PRIu32 " %" PRIu32 " %" PRIu32 "\n", full_levels, name, written,
           list[0], list[1], list[2], list[3]);
    return 1;
}

#define FULL_TABLE lent_table, sizeof lent_table
#define FULL_STORE FULL_TABLE, full_roots, sizeof full_roots, lent_order, full_levels

/* Under ones every root is 1 by way of a literal, and where BESIDES is 0 by way of what crosses too; where X is 0 besides, it is 0. */
static int full_reads(void)
{
    static uint8_t inputs[RELAY_MOST_VARIABLES];
    const uint32_t one[] = {RELAY_VALUE, 1}, zero[] = {RELAY_VALUE, 0};
    const uint32_t used[] = {RELAY_ACCEPTED, RELAY_MOST_RECORDS};
    const uint32_t last[] = {(RELAY_MOST_RECORDS - 1) * RELAY_RECORD_SIZE, RELAY_RECORD_SIZE};
    const uint32_t position = RELAY_MOST_ROOTS - 1;
    uint32_t list[LIST] = {0};
    size_t written;

    lend_full();
    memset(inputs, 1, sizeof inputs);
    written = relay_check(FULL_STORE, list, LIST);
    if (full_differs("check", written, list, 2, used, full_table, NULL)) {
        return 1;
    }
    written = relay_read(FULL_STORE, position, inputs, full_levels, list, LIST);
    if (full_differs("read under ones", written, list, 2, one, full_table, NULL)) {
        return 1;
    }
    inputs[BESIDES] = 0;
    written = relay_read(FULL_STORE, position, inputs, full_levels, list, LIST);
    if (full_differs("read by way of what crosses", written, list, 2, one, full_table, NULL)) {
        return 1;
    }
    inputs[X] = 0;
    written = relay_read(FULL_STORE, position, inputs, full_levels, list, LIST);
    if (full_differs("read where X is 0", written, list, 2, zero, full_table, NULL)) {
        return 1;
    }
    written = relay_show(FULL_STORE, position, list, LIST);
    return full_differs("show", written, list, 2, last, full_table, NULL);
}

/* Swap, and Run where that is all there is to do: both leave the same. Its entries are as many as the longest log holds; with a log of one record
 * fewer it is short. */
static int full_swaps(void)
{
    const size_t shorter = sizeof lent_log - RELAY_LOG_RECORD_SIZE;
    const uint32_t entries = RELAY_MOST_LOG_RECORDS - 1;
    const uint32_t made[] = {RELAY_MADE}, done[] = {RELAY_DONE, 1, 0};
    const uint32_t short_swap[] = {RELAY_LOG_SHORT, X, entries, entries - 1};
    const uint32_t short_run[] = {RELAY_LOG_SHORT, 0, 1, X, entries, entries - 1};
    static uint8_t target[RELAY_MOST_VARIABLES];
    uint32_t list[LIST] = {0};
    size_t written;

    memcpy(target, full_order, sizeof target);
    target[X] = Y;
    target[Y] = X;
    lend_full();
    written = relay_swap(FULL_STORE, lent_log, shorter, X, list, LIST);
    if (full_differs("swap, log short", written, list, 4, short_swap, full_table, NULL)) {
        return 1;
    }
    written = relay_run(FULL_STORE, target, full_levels, lent_log, shorter, RELAY_BRING_UP, 1, list, LIST);
    if (full_differs("run, log short", written, list, 6, short_run, full_table, NULL)) {
        return 1;
    }
    written = relay_swap(FULL_STORE, lent_log, sizeof lent_log, X, list, LIST);
    memcpy(table_after, lent_table, sizeof table_after);
    memcpy(log_after, lent_log, sizeof log_after);
    if (full_differs("swap", written, list, 1, made, table_after, log_after)) {
        return 1;
    }
    lend_full();
    written = relay_run(FULL_STORE, target, full_levels, lent_log, sizeof lent_log, RELAY_LOWEST_INVERSION, UINT32_MAX, list, LIST);
    return full_differs("run", written, list, 3, done, table_after, log_after);
}

/* After the swap, the children have died but for the places that new records took: one for each literal, and one for true. That swap cut just before
 * its seal is cleared is put back. */
static int full_recovery(void)
{
    const uint32_t left = (uint32_t)(RELAY_MOST_RECORDS - CROSSING + full_levels - FIRST_LITERAL + 1);
    const uint32_t accepted[] = {RELAY_ACCEPTED, left};
    const uint32_t put_back[] = {RELAY_PUT_BACK, RELAY_MOST_LOG_RECORDS - 1};
    uint32_t list[LIST] = {0};
    size_t written = relay_check(FULL_STORE, list, LIST);

    if (full_differs("check after the swap", written, list, 2, accepted, table_after, log_after)) {
        return 1;
    }
    lent_log[sizeof lent_log - RELAY_LOG_RECORD_SIZE] = RELAY_SEALED;
    written = relay_recover(FULL_TABLE, lent_order, full_levels, lent_log, sizeof lent_log, list, LIST);
    return full_differs("recover", written, list, 2, put_back, full_table, log_after);
}

/* A record of BESIDES is 1 under 3 of 8: half of what crosses, of which half is 0 and half a child, and half of a literal. So are the children, but for
 * two whose shares are as much below a half as above it: in the tree of this root both are leaves of the same depth. */
static int full_count_at(uint32_t position)
{
    const uint32_t counted[] = {RELAY_COUNTED}, many[] = {RELAY_REFUSED_MANY, (uint32_t)full_levels};
    const int can = full_levels <= RELAY_MOST_COUNTED;
    struct places places = lend_places();
    uint32_t list[LIST] = {0};
    size_t written;

    lend_full();
    written = relay_count(FULL_STORE, position, places.counts, PLACES, places.shares, PLACES, list, LIST);
    return full_differs("count", written, list, can ? 1 : 2, can ? counted : many, full_table, NULL) ||
           places_differ("count of the full table", &places, can ? UINT64_C(3) << (full_levels - 3) : UNTOUCHED_PLACE,
                         can ? UINT64_C(0x3FD8000000000000) : UNTOUCHED_PLACE);
}

/* No record, and all levels to be reversed: as many swaps as there are pairs. */
static int full_reversal(void)
{
    static uint8_t target[RELAY_MOST_VARIABLES];
    const size_t pairs = (size_t)RELAY_MOST_VARIABLES * (RELAY_MOST_VARIABLES - 1) / 2;
    uint32_t plan, list[LIST] = {0};
    size_t level;

    for (level = 0; level < RELAY_MOST_VARIABLES; level++) {
        target[level] = (uint8_t)(RELAY_MOST_VARIABLES - 1 - level);
    }
    for (plan = RELAY_BRING_UP; plan <= RELAY_HIGHEST_INVERSION; plan++) {
        lend_full();
        if (relay_run(lent_table, 0, full_roots, 0, lent_order, RELAY_MOST_VARIABLES, target, RELAY_MOST_VARIABLES, lent_log, 2 * RELAY_LOG_RECORD_SIZE,
                      plan, UINT32_MAX, list, LIST) != 3 ||
            list[0] != RELAY_DONE || list[1] != pairs || list[2] != 0 || memcmp(lent_order, target, sizeof target) != 0) {
            printf("boundary: all levels reversed by plan %" PRIu32 ": %" PRIu32 " %" PRIu32 "\n", plan, list[0], list[1]);
            return 1;
        }
    }
    return 0;
}

/* With as many levels as there may be, and with as many as are counted. */
static int on_full_tables(void)
{
    const uint32_t position = 40;
    int wrong;

    make_full(RELAY_MOST_VARIABLES);
    if (full_count != RELAY_MOST_RECORDS) {
        printf("boundary: the full table has %zu records\n", full_count);
        return 1;
    }
    wrong = full_reads() || full_swaps() || full_recovery() || full_count_at(position) || full_reversal();
    make_full(RELAY_MOST_COUNTED);
    return wrong || full_reads() || full_swaps() || full_recovery() || full_count_at(position);
}
