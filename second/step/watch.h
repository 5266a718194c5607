/* A part of second/step.c: the call that is being stepped, and what is asked of
 * every state that it leaves. The ways of stepping call look(). */

/* No instruction stores more bytes than this. */
#define WIDEST 64
#define MOST_TORN 1024

#define KIND_RECORD 0
#define KIND_PAIR 1

/* What was seen of one kind of call. */
struct tally {
    unsigned long calls, stores, states;
    unsigned long instructions; /* of the calls, where each one is stepped */
    size_t most_in_log, most_kept; /* bytes changed by one instruction */
};

static struct tally swaps_seen, slices_seen, recoveries_seen, others_seen;

/* The call that is being stepped. */
static struct {
    char name[160];
    const struct store *store; /* as it was lent */
    const uint8_t *stages;     /* what is kept after 0, 1, ... swaps */
    size_t swaps;              /* how many it has to make */
    size_t made;               /* how many were: the seal was cleared */
    size_t entries;            /* that the swap now being made has to log */
    size_t changing;           /* bytes that it has to change */
    size_t changed;            /* sealed states of it so far */
    int recovering;
    struct tally *tally;
    uint8_t last[MOST_WHOLE]; /* the state before this store */
    uint8_t log[MOST_LOG];    /* as it must stand when it is sealed next */
} watch;

/* The memory that is lent to the call. */
static uint8_t *lent;

static const uint8_t *stage(size_t number)
{
    return watch.stages + number * kept(watch.store);
}

/* Says where a byte of the lent memory belongs. */
static void tell_place(size_t at)
{
    const struct store *store = watch.store;

    if (at < store->table) {
        printf(" table record %zu byte %zu", at / RELAY_RECORD_SIZE,
               at % RELAY_RECORD_SIZE);
    } else if (at < kept(store)) {
        printf(" order level %zu", at - store->table);
    } else {
        printf(" log record %zu byte %zu",
               (at - kept(store)) / RELAY_LOG_RECORD_SIZE,
               (at - kept(store)) % RELAY_LOG_RECORD_SIZE);
    }
}

/* Tells of the first failure, with the bytes that the last store changed. */
static void fail(const char *form, ...)
{
    va_list values;
    size_t at;
    int shown = 0;

    printf("step: %s%s: ", watch.name, watch.recovering ? ", recovered" : "");
    va_start(values, form);
    vprintf(form, values);
    va_end(values);
    printf("\n");
    if (watch.store) {
        printf("  %zu of %zu swaps made, store %lu of this kind; changed:",
               watch.made, watch.swaps, watch.tally->stores);
        for (at = 0; at < whole(watch.store) && shown < 8; at++) {
            if (lent[at] != watch.last[at]) {
                tell_place(at);
                printf(" (%02x, was %02x)", (unsigned)lent[at],
                       (unsigned)watch.last[at]);
                shown++;
            }
        }
        printf("%s\n", shown ? "" : " nothing");
    }
    fflush(stdout);
    _Exit(1);
}

/* The log of the next swap, as it must stand when it is sealed: an entry for
 * each record that changes, one for the pair of levels, and the seal. */

static uint8_t *put_entry(uint8_t *entry, unsigned kind, size_t number,
                          const uint8_t *old, size_t length)
{
    memset(entry, 0, RELAY_LOG_RECORD_SIZE);
    entry[1] = (uint8_t)kind;
    entry[2] = (uint8_t)number;
    entry[3] = (uint8_t)(number >> 8);
    memcpy(entry + 4, old, length);
    return entry + RELAY_LOG_RECORD_SIZE;
}

/* The upper level of the pair that was swapped. */
static size_t pair(const struct store *store, const uint8_t *before,
                   const uint8_t *after)
{
    size_t level = 0;

    while (level + 2 < store->levels &&
           before[store->table + level] == after[store->table + level]) {
        level++;
    }
    return level;
}

static size_t put_entries(const struct store *store, const uint8_t *before,
                          const uint8_t *after, uint8_t *log)
{
    const size_t size = RELAY_RECORD_SIZE;
    uint8_t *entry = log;
    size_t number;
    size_t level = pair(store, before, after);

    for (number = 0; number < records(store); number++) {
        const uint8_t *old = before + size * number;
        if (memcmp(old, after + size * number, size) != 0) {
            entry = put_entry(entry, KIND_RECORD, number, old, size);
        }
    }
    entry = put_entry(entry, KIND_PAIR, level, before + store->table + level, 2);
    return (size_t)(entry - log) / RELAY_LOG_RECORD_SIZE;
}

static void expect_log(void)
{
    const struct store *store = watch.store;
    const uint8_t *before = stage(watch.made);
    const uint8_t *after = stage(watch.made + 1);
    uint8_t *sealing = watch.log + store->log - RELAY_LOG_RECORD_SIZE;
    size_t at;

    watch.entries = put_entries(store, before, after, watch.log);
    memset(sealing, 0, RELAY_LOG_RECORD_SIZE);
    sealing[0] = RELAY_SEALED;
    sealing[2] = (uint8_t)watch.entries;
    sealing[3] = (uint8_t)(watch.entries >> 8);
    watch.changed = 0;
    watch.changing = 0;
    for (at = 0; at < kept(store); at++) {
        watch.changing += before[at] != after[at];
    }
}

/* The torn states that are to be recovered step by step. */

struct torn {
    uint8_t *bytes;
    size_t made;
    size_t entries;
};

static struct torn torn[MOST_TORN];
static size_t torn_count;

/* About so many of each swap besides its last one: the way of stepping tells. */
static size_t torn_of_a_swap;

static void keep_torn(const uint8_t *bytes)
{
    struct torn state = {malloc(whole(watch.store)), watch.made, watch.entries};

    if (!state.bytes || torn_count == MOST_TORN) {
        fail("no memory for a torn state");
    }
    memcpy(state.bytes, bytes, whole(watch.store));
    torn[torn_count++] = state;
}

/* Some of the states between the sealing and the clearing, the first among
 * them. The last one, where all was written, is kept when the seal is cleared. */
static void keep_some(void)
{
    if (torn_of_a_swap > 0 &&
        watch.changed % (watch.changing / torn_of_a_swap + 1) == 0) {
        keep_torn(lent);
    }
    watch.changed++;
}

/* Recovers a copy of a state. Only what counts as made is there afterwards; the
 * log is as it was, but not sealed. A second recovery finds nothing to do. */
static void cut(const uint8_t *state)
{
    static uint8_t copy[MOST_WHOLE], log[MOST_LOG];
    const struct store *store = watch.store;
    struct call call = {RECOVER, 0, 0, NULL, 0, {0}};
    size_t entries = state[seal(store)] == RELAY_SEALED ? watch.entries : 0;
    size_t number = 0;

    watch.tally->states++;
    memcpy(copy, state, whole(store));
    memcpy(log, state + kept(store), store->log);
    log[store->log - RELAY_LOG_RECORD_SIZE] = 0;

    make(&call, store, copy);
    if (call.written != 2 || call.answer[0] != RELAY_PUT_BACK) {
        fail("cut here, recovery is refused: %" PRIu32 " place %" PRIu32,
             call.answer[0], call.answer[1]);
    }
    if (call.answer[1] != entries) {
        fail("cut here, recovery puts %" PRIu32 " entries back, not %zu",
             call.answer[1], entries);
    }
    if (memcmp(copy, stage(watch.made), kept(store)) != 0) {
        while (number <= watch.swaps &&
               memcmp(copy, stage(number), kept(store)) != 0) {
            number++;
        }
        if (number > watch.swaps) {
            fail("cut here, recovery leaves what no swap left or found");
        }
        fail("cut here, recovery leaves the store after %zu swaps", number);
    }
    if (memcmp(copy + kept(store), log, store->log) != 0) {
        fail("cut here, recovery changes the log beyond clearing its seal");
    }

    make(&call, store, copy);
    if (call.written != 2 || call.answer[0] != RELAY_PUT_BACK ||
        call.answer[1] != 0 ||
        memcmp(copy, stage(watch.made), kept(store)) != 0 ||
        memcmp(copy + kept(store), log, store->log) != 0) {
        fail("cut here, a second recovery finds something to do");
    }
}

/* What one instruction changed. */
struct change {
    size_t count;
    size_t at[WIDEST]; /* in rising order */
    size_t in_log;     /* without byte 0 of the seal */
    size_t kept;
    int sealing; /* byte 0 of the seal changed */
};

static void note_change(struct change *change, size_t at)
{
    if (change->count == WIDEST) {
        fail("more than %d bytes changed at once", WIDEST);
    }
    change->at[change->count++] = at;
    if (at < kept(watch.store)) {
        change->kept++;
    } else if (at == seal(watch.store)) {
        change->sealing = 1;
    } else {
        change->in_log++;
    }
}

static struct change find_change(void)
{
    const size_t piece = 256;
    const size_t end = whole(watch.store);
    struct change change = {0, {0}, 0, 0, 0};
    size_t from, at;

    for (from = 0; from < end; from += piece) {
        size_t until = from + piece < end ? from + piece : end;
        if (memcmp(lent + from, watch.last + from, until - from) == 0) {
            continue;
        }
        for (at = from; at < until; at++) {
            if (lent[at] != watch.last[at]) {
                note_change(&change, at);
            }
        }
    }
    return change;
}

/* The seal goes to A5 once the log is whole, and back to 0 once table and order
 * are as they should be; in a recovery, back to 0 only. */
static void judge_sealing(void)
{
    const struct store *store = watch.store;
    uint8_t now = lent[seal(store)];

    if (now == RELAY_SEALED && !watch.recovering) {
        if (memcmp(lent + kept(store), watch.log, store->log) != 0) {
            fail("sealed, but the log isn't what it should be");
        }
        return;
    }
    if (now != 0) {
        fail("the seal's byte 0 is neither 0 nor A5");
    }
    if (watch.recovering) {
        if (memcmp(lent, stage(watch.made), kept(store)) != 0) {
            fail("recovery clears the seal before all is put back");
        }
        return;
    }
    if (memcmp(lent, stage(watch.made + 1), kept(store)) != 0) {
        fail("the seal is cleared before the swap is whole");
    }
    keep_torn(watch.last);
    watch.made++;
    watch.log[store->log - RELAY_LOG_RECORD_SIZE] = 0;
    if (watch.made < watch.swaps) {
        expect_log();
    }
}

/* Each phase has its bytes: the log before the seal, table and order behind it,
 * and the seal's byte 0 between them, by itself. */
static void judge(const struct change *change)
{
    int sealed = lent[seal(watch.store)] == RELAY_SEALED;

    if (!watch.recovering && watch.made == watch.swaps) {
        fail("a byte changes where no swap is to be made");
    }
    if (change->sealing) {
        if (change->count != 1) {
            fail("the seal's byte 0 changes together with other bytes");
        }
        judge_sealing();
    } else if (sealed && change->in_log > 0) {
        fail("the log changes while it is sealed");
    } else if (!sealed && change->kept > 0) {
        fail("table or order change while the log isn't sealed");
    } else if (!sealed && watch.recovering) {
        fail("the log changes in a recovery");
    }
}

/* An instruction that changes several bytes may reach the memory in parts: all
 * that it may leave from its first byte up, and from its last one down. */
static void cut_between(const struct change *change)
{
    static uint8_t up[MOST_WHOLE], down[MOST_WHOLE];
    size_t number;

    if (change->count < 2) {
        return;
    }
    memcpy(up, watch.last, whole(watch.store));
    memcpy(down, watch.last, whole(watch.store));
    for (number = 0; number + 1 < change->count; number++) {
        size_t high = change->at[change->count - 1 - number];
        size_t low = change->at[number];
        up[low] = lent[low];
        cut(up);
        down[high] = lent[high];
        cut(down);
    }
}

static void look(void)
{
    struct change change = find_change();
    struct tally *tally = watch.tally;

    tally->stores++;
    if (change.count == 0) {
        return;
    }
    if (change.in_log > tally->most_in_log) {
        tally->most_in_log = change.in_log;
    }
    if (change.kept > tally->most_kept) {
        tally->most_kept = change.kept;
    }
    judge(&change);
    cut_between(&change);
    cut(lent);
    if (!watch.recovering && lent[seal(watch.store)] == RELAY_SEALED) {
        keep_some();
    }
    memcpy(watch.last, lent, whole(watch.store));
}
